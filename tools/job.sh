#!/bin/sh
# job.sh FILE: answers the job of FILE by the program run_job, which it has proved and built first where that is not done yet.
# The Rattle kit, which proves and builds it, runs on x86-64.
# Exit status: 0 the answer is 0 or 1; 3 it is another; 1 the program is not proved, or could not read or write; 2 bad usage.
set -eu
if [ "$#" -ne 1 ] || [ "${1#-}" != "$1" ]; then
    echo "usage: tools/job.sh FILE" >&2
    sed -n '2,4s/^# //p' "$0" >&2
    exit 2
fi
if [ ! -f "$1" ] || [ ! -r "$1" ]; then
    echo "job.sh: $1 is no file that can be read" >&2
    exit 2
fi
here=$(cd "$(dirname "$0")/.." && pwd)
work=$(mktemp -d)
trap 'rm -rf "$work"' EXIT

# Each crate is named as it is proved; all that was said is shown where one is not. rt runs the program too, on a job of no line.
{ (cd "$here/crates/run_job" && rt run) </dev/null 2>&1 >/dev/null && echo proved >"$work/proved"; } | tee "$work/log" |
    while IFS= read -r line; do
        case $line in
        'crate '*) name=${line#crate } ;;
        'logic=proved '*) echo "job.sh: ${name%%:*} is proved" ;;
        esac
    done >&2
if [ ! -f "$work/proved" ]; then
    cat "$work/log" >&2
    exit 1
fi

job=$1
"$here/crates/run_job/out/run_job" <"$job" >"$work/answer" 2>"$work/said"
cat "$work/answer" || exit 1
if [ -s "$work/said" ]; then
    cat "$work/said" >&2
    exit 1
fi
tab=$(printf '\t')
IFS=$tab read -r _ answer place _ <"$work/answer"
case $answer in
0 | 1) exit 0 ;;
9) ;;
*) exit 3 ;;
esac

# What is wrong with the text of an answer 9.
say() { echo "job.sh: $*" >&2; }
if [ "$place" -eq 0 ]; then
    say "the text has more than 60,000 bytes"
    exit 3
fi
say "line $place is no line of a job that may stand there"
if [ "$place" -gt "$(wc -l <"$job")" ]; then
    say "line $place does not end in a line feed, or is not there"
fi
sed -n "${place}p" "$job" >"$work/line"
if tr -d '\n' <"$work/line" | grep -q "$(printf '\r')"; then
    say "line $place has a carriage return; a line ends in a line feed alone"
fi
if grep -q ' ' "$work/line"; then
    say "line $place has a space; fields are parted by one tab"
fi
if grep -q -e "$tab$tab" -e "$tab\$" "$work/line"; then
    say "line $place has an empty field; fields are parted by one tab"
fi
exit 3
