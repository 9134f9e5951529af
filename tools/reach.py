#!/usr/bin/env python3
"""reach.py NAME..: the definitions of crates/*/specs that the statements NAME.. reach, and how many lines they are.

Where several crates have a name, CRATE/NAME is that of one.
A definition is a declaration with its clauses, constructors or fields; the declarations of a `mutual` block count as
one. What it names is looked up in its own file and in the file's `use` lines; a name that may be two things reaches both.
Printed for each file: the lines of the definitions reached, without comments, blank lines and `use` lines, and the file's
lines in all.
"""
import pathlib
import re
import sys

WORD = re.compile(r"[^\s(){}\[\];,.]+|\.(?=\s|$)")
ROOT = pathlib.Path(__file__).resolve().parent.parent / "crates"


def is_text(line):
    line = line.strip()
    return bool(line) and not line.startswith("--") and not line.startswith(("use ", "pub use ", "pub mod ", "infix"))


def uses(text):
    """name here -> (crate, file, name there)"""
    found = {}
    for crate, path, group in re.findall(r"^(?:pub )?use Rattle\.(\w+)\.specs\.([\w.-]+)\.\{(.*)\}$", text, re.M):
        for item in group.split(", "):
            there, _, here = item.partition(" as ")
            found[here or there] = (crate, path, there)
    return found


def blocks(text):
    """the declarations, each a list of its lines"""
    out, held, depth = [], None, 0
    for line in text.split("\n"):
        if not is_text(line):
            continue
        indent = len(line) - len(line.lstrip())
        if line.strip().startswith("module "):
            held, depth = None, indent + 2
            continue
        if indent < depth:
            depth = indent
        starts = indent <= depth and re.match(r"\s*(abbrev|unfoldable|pub|mutual|data|record)\b", line)
        if starts:
            held = []
            out.append(held)
        if held is not None:
            held.append(line)
    return out


def names(block):
    text = "\n".join(block)
    found = set(re.findall(r"\bpub\s+(?:data\s+|record\s+)?([^\s:({]+)", text))
    if re.search(r"\bdata\b", text):
        for group in re.findall(r"^\s+([^:=|]+?) :", text, re.M):
            found.update(group.split())
    for name in [n for n in found if "◌" in n]:
        found.update(part for part in name.split("◌") if part)
    return found - {"pub", "data"}


def words_of(block):
    return set(WORD.findall("\n".join(block)))


files = {}
for path in sorted(ROOT.glob("*/specs/*.antt")):
    text = path.read_text()
    files[path.parent.parent.name, path.stem] = (text, uses(text), [(names(b), b) for b in blocks(text)])


def find(crate, stem, name):
    """every definition that the name may be there: its own file's, and what the file's `use` lines bring"""
    text, used, defs = files.get((crate, stem), ("", {}, []))
    found = {(crate, stem, k) for k, (ns, b) in enumerate(defs) if name in ns}
    for here, (c, path, there) in used.items():
        if here == name or "◌" in here and name in here.split("◌"):
            found |= find(c, path, there)
    return found


def reached(names_given):
    """The definitions that the statements reach, or nothing where a name is no statement."""
    todo, seen = set(), set()
    for name in names_given:
        crate, _, own = name.rpartition("/")
        found = {at for key in files if crate in ("", key[0]) for at in find(*key, own) if at[:2] == key}
        if not found:
            print("reach.py: no definition of crates/*/specs is named " + name, file=sys.stderr)
            return None
        todo |= found
    while todo:
        crate, stem, k = at = todo.pop()
        seen.add(at)
        for word in words_of(files[crate, stem][2][k][1]):
            todo |= find(crate, stem, word) - seen
    return seen


def main(words):
    if not words or words[0].startswith("-"):
        print("usage: tools/reach.py NAME..\n" + __doc__.strip(), file=sys.stderr)
        return 2
    seen = reached(words)
    if seen is None:
        return 2
    total = whole = 0
    for key in files:
        mine = sorted(k for c, s, k in seen if (c, s) == key)
        if mine:
            n = sum(len(files[key][2][k][1]) for k in mine)
            total, whole = total + n, whole + files[key][0].count("\n")
            left = [sorted(ns)[0] for k, (ns, b) in enumerate(files[key][2]) if k not in mine]
            print("%-8s %-11s %4d of %4d lines" % (*key, n, files[key][0].count("\n")), "not reached: " + " ".join(left) if left else "")
    print("%d lines of definitions; the files in all %d" % (total, whole))
    return 0


if __name__ == "__main__":
    sys.exit(main(sys.argv[1:]))
