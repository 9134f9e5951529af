#!/usr/bin/env python3
"""Runs a job program on the jobs of examples/ and compares what it writes with the stored answers.

examples.py PROGRAM...   runs the command PROGRAM... on every examples/*.job and compares its output with *.answer;
                         one line for each job, 'N passed, M failed' last; exit status 1 where one differs
"""
import pathlib
import subprocess
import sys

EXAMPLES = pathlib.Path(__file__).resolve().parent.parent / "examples"
SECONDS = 120


def difference(ours, theirs):
    """The first line in which two answers differ, in words."""
    ours, theirs = ours.split(b"\n"), theirs.split(b"\n")
    for number, (stored, written) in enumerate(zip(ours, theirs), 1):
        if stored != written:
            return f"line {number} is {written.decode('ascii', 'replace')!r}, stored {stored.decode('ascii', 'replace')!r}"
    return f"{len(theirs) - 1} lines, stored {len(ours) - 1}"


def fault(program, path):
    """What is wrong with the program's answer to a job; nothing where it is the stored one."""
    stored = path.with_suffix(".answer")
    if not stored.exists():
        return f"no file {stored.name}"
    try:
        ran = subprocess.run(program, input=path.read_bytes(), stdout=subprocess.PIPE, timeout=SECONDS)
    except subprocess.TimeoutExpired:
        return f"no answer in {SECONDS} seconds"
    if ran.stdout != stored.read_bytes():
        return difference(stored.read_bytes(), ran.stdout)
    return f"exit status {ran.returncode}" if ran.returncode else None


def compare(program):
    """Runs every job; the exit status."""
    passed = failed = 0
    for path in sorted(EXAMPLES.glob("*.job")):
        try:
            wrong = fault(program, path)
        except OSError as error:
            print(f"examples.py: {program[0]}: {error.strerror}", file=sys.stderr)
            return 2
        print(f"{path.stem}: {'passed' if wrong is None else 'FAILED: ' + wrong}", flush=True)
        passed, failed = passed + (wrong is None), failed + (wrong is not None)
    print(f"{passed} passed, {failed} failed")
    return 1 if failed or not passed else 0


def main(words):
    if not words or words[0] in ("-h", "--help"):
        print(__doc__.strip())
        return 0 if words else 2
    if words[0].startswith("-"):
        print("usage: tools/examples.py PROGRAM..\n" + __doc__.strip(), file=sys.stderr)
        return 2
    return compare(words)


if __name__ == "__main__":
    sys.exit(main(sys.argv[1:]))
