#!/bin/sh
# usage_tests.sh: every tool of this folder says how it is used, and ends with 2, where it is asked for what it does not have; and the index,
# README.md, has a row for each.
# Exit status: 0 all do; 1 one does not; 2 bad usage.
set -eu
if [ "$#" -ne 0 ]; then
    echo "usage: tools/usage_tests.sh" >&2
    exit 2
fi
cd "$(dirname "$0")"
wrong=0
tried=0
for tool in *.sh *.py; do
    status=0
    said=$("./$tool" --no-such-option 2>&1 >/dev/null </dev/null) || status=$?
    case $status-$said in
    2-*usage:*) ;;
    *)
        echo "usage_tests: tools/$tool --no-such-option ends with $status and says '$said'"
        wrong=1
        ;;
    esac
    grep -q "^| \`$tool" README.md || {
        echo "usage_tests: tools/README.md has no row for $tool"
        wrong=1
    }
    tried=$((tried + 1))
done
[ "$tried" -gt 9 ] || wrong=1
[ "$wrong" -eq 0 ] && echo "usage_tests: $tried tools say how they are used"
exit "$wrong"
