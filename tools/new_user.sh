#!/bin/sh
# new_user.sh: goes a new user's way and says how long each step takes. A clone; a first answer, by the second implementation; a crate of
# one's own with a rule of one's own, over the archive; the job of that run, explained by the command.
# It needs git, cargo and the archive, which tools/archive.sh writes; MARSHTRUNDLE_LIB names another folder that has it.
# Exit status: 0 the way is open; 1 a step failed; 2 bad usage; 77 something is missing.
set -eu
if [ "$#" -ne 0 ]; then
    echo "usage: tools/new_user.sh" >&2
    exit 2
fi
root=$(cd "$(dirname "$0")/.." && pwd)
MARSHTRUNDLE_LIB=${MARSHTRUNDLE_LIB:-$root/target/staticlib}
export MARSHTRUNDLE_LIB
for command in git "${CARGO:-cargo}"; do
    command -v "$command" >/dev/null || { echo "new_user: missing: $command"; exit 77; }
done
git -C "$root" rev-parse --verify --quiet HEAD >/dev/null || { echo "new_user: missing: a repository to clone"; exit 77; }
[ -f "$MARSHTRUNDLE_LIB/libmarshtrundle.a" ] || { echo "new_user: missing: $MARSHTRUNDLE_LIB/libmarshtrundle.a"; exit 77; }
work=$(mktemp -d)
trap 'rm -rf "$work"' EXIT
CARGO_TARGET_DIR=$work/target
# Compiled fast, and not for speed.
CARGO_PROFILE_DEV_OPT_LEVEL=0
CARGO_PROFILE_DEV_DEBUG=0
export CARGO_TARGET_DIR CARGO_PROFILE_DEV_OPT_LEVEL CARGO_PROFILE_DEV_DEBUG

began=$(date +%s)
step() {
    now=$(date +%s)
    echo "new_user: $1, after $((now - began)) s"
}
fail() {
    echo "new_user: $1" >&2
    exit 1
}

git clone --quiet "$root" "$work/marshtrundle"
cd "$work/marshtrundle"
step "a clone"

# README, "A first answer".
"${CARGO:-cargo}" run --quiet --offline --manifest-path rust/twin/Cargo.toml --bin twin -- job <examples/swap.job >"$work/answer"
cmp "$work/answer" examples/swap.answer || fail "the first answer is not the stored one"
step "a first answer, not proved"

# A crate of one's own: its manifest, and a rule that takes doubled negations away.
mkdir -p "$work/mine/src"
cat >"$work/mine/Cargo.toml" <<MANIFEST
[package]
name = "mine"
version = "0.1.0"
edition = "2021"

[dependencies]
marshtrundle = { path = "$work/marshtrundle/rust/marshtrundle" }
MANIFEST
cat >"$work/mine/src/main.rs" <<'PROGRAM'
use marshtrundle::job::Job;
use marshtrundle::show::Names;
use marshtrundle::strategy::*;
use marshtrundle::{Bindings, Entry, Store, Table, VARS};

fn main() -> Result<(), Box<dyn std::error::Error>> {
    let names = Names::read("constructor 1 NOT\nconstructor 2 a")?;
    let [x, ..] = VARS;
    let double_not = rule(con(1, [con(1, [var(x)])]), var(x));
    let mut store = Store::new();
    let subject = names.read_term(&mut store, "NOT(NOT(NOT(a)))")?;
    store.room(100)?;
    let table = Table::of(&innermost(double_not))?;
    let mut job = Job { units: 1_000, start: Entry::FIRST, subject, table, store, bindings: Bindings::new() };
    std::fs::write("mine.job", job.to_string())?;
    let new = job.run().done()?;
    println!("{}", job.store.term(new).ok_or("no term")?);
    Ok(())
}
PROGRAM
cd "$work/mine"
[ "$("${CARGO:-cargo}" run --quiet --offline)" = "1(2)" ] || fail "the rule did not give NOT(a)"
step "an own rule over the proved library"

# The same run by the command.
"${CARGO:-cargo}" build --quiet --offline --manifest-path "$work/marshtrundle/rust/command/Cargo.toml"
printf 'constructor 1 NOT\nconstructor 2 a\n' >mine.names
"$CARGO_TARGET_DIR/debug/marshtrundle" explain mine.job >told || fail "the command ended with $?"
grep -q '?NOT(NOT(v0)) on NOT(NOT(a)) succeeded: v0 = a' told || fail "the command did not tell the match"
step "the run, told"
