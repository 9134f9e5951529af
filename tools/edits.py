#!/usr/bin/env python3
"""edits.py: looks at every must-fail edit of every crate. Each text that an edit replaces must stand exactly once in its file, or
`rt must-fail` cannot apply it and the gate is red. Takes a second. Ends with status 1 and a line for each edit that is stale.
"""
import pathlib
import sys

if len(sys.argv) != 1:
    print("usage: tools/edits.py\n" + __doc__.strip(), file=sys.stderr)
    sys.exit(2)
root = pathlib.Path(__file__).resolve().parent.parent
edits = sorted(root.glob("crates/*/must-fail/*.edit"))
stale = 0
for edit in edits:
    crate = edit.parent.parent
    file, old, before = None, None, {}
    for line in edit.read_text(encoding="utf-8").split("\n"):
        key, _, text = line.partition(": ")
        if key == "file":
            file = crate / text
            before.setdefault(file, file.read_text(encoding="utf-8") if file.is_file() else "")
        elif key == "old":
            old = text
            times = before[file].count(old)
            if times != 1:
                stale += 1
                print(f"{edit.relative_to(root)}: its text stands {times} times in {file.relative_to(root)}: {old.strip()}")
        elif key == "new":
            before[file] = before[file].replace(old, text, 1)
print(f"{len(edits)} edits, {stale} stale")
sys.exit(1 if stale else 0)
