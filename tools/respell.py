#!/usr/bin/env python3
"""Brings the repository's own definitions and lemmas to today's spelling, once, after the kit's port.py.

respell.py: rewrites the files of the folder that it is called in, the top of the repository or of a copy of it.
respell.py --check: writes nothing; names the places where two names of one file fall together.

Words are in snake case, types in camel case, as the library's are. A dash still joins the parts of a lemma's name. The script
reads the names from the declarations in specs/ and proofs/, so that it needs no list; the exceptions are written out below.
Functions of src/, exported names, strings, inputs and outputs keep their names.
"""

import collections
import os
import re
import sys

WORD = re.compile(r"[^\s(){}\[\],;.@|«»λ↦`]+")
DECLARED = re.compile(
    r"\s*(?:(?:abbrev|unfoldable|pub|data|record)\s+)*([^\s:(){}=,;.]+)(?:\s*\{[^}]*\})*\s*:(?:\s|$)"
)
HEADED = re.compile(r"\s*(?:pub\s+)?(?:data|record)\s+([^\s:(){}=,;.]+)")

# Where the rule would give two things one name in one file.
OWN = {
    "goesOn": "going_on",
    "startTest": "test_of_start",
    "allIn": "all_inside",
    "byCount": "by_own_count",
    "One-node": "OneNodeOnly",
}


def files(endings):
    for folder, dirs, names in os.walk("."):
        dirs[:] = sorted(d for d in dirs if d not in ("out", "target", ".git", "node_modules"))
        for name in sorted(names):
            if name.endswith(endings):
                yield os.path.join(folder, name)


def snake(word):
    return re.sub(r"(?<=[a-z0-9'])([A-Z])", lambda m: "_" + m.group(1).lower(), word.replace("getD", "get_or"))


def camel(word):
    return "".join(p[:1].upper() + p[1:] for p in re.split("[-_]", word))


def declared():
    names = set()
    for path in files((".antt",)):
        with open(path, encoding="utf-8") as f:
            for line in f:
                for form in (DECLARED, HEADED):
                    m = form.match(line)
                    if m:
                        names.add(m.group(1))
    return names


def respelt(names):
    turned = {}
    for name in names:
        if name in OWN:
            turned[name] = OWN[name]
        elif re.fullmatch(r"[A-Z]+-\d+", name):
            turned[name] = name.replace("-", "_").lower()
        elif name[0].islower() and re.search("[a-z0-9'][A-Z]", name):
            turned[name] = snake(name)
        elif name[0].isupper() and re.search("[-_]", name):
            turned[name] = camel(name)
    return turned


def main(words):
    if words not in ([], ["--check"]):
        print("usage: tools/respell.py [--check]\n" + __doc__.strip(), file=sys.stderr)
        return 2
    check = words == ["--check"]
    turned = respelt(declared())
    together = 0
    for path in files((".antt", ".rt", ".edit", ".md")):
        with open(path, encoding="utf-8") as f:
            text = f.read()
        if path.endswith(".md"):
            # In a page a name stands between backticks, or in a block of code.
            new = re.sub(r"`[^`\n]+`", lambda m: WORD.sub(lambda w: turned.get(w.group(0), w.group(0)), m.group(0)), text)
        else:
            new = WORD.sub(lambda w: turned.get(w.group(0), w.group(0)), text)
        if path.endswith(".antt"):
            found = collections.defaultdict(set)
            for w in WORD.findall(text):
                found[turned.get(w, w)].add(w)
            for name, olds in sorted(found.items()):
                if len(olds) > 1:
                    together += 1
                    print(f"{path}: {' and '.join(sorted(olds))} would both be {name}")
        if not check and new != text:
            with open(path, "w", encoding="utf-8") as f:
                f.write(new)
    print(f"{len(turned)} names, {together} places where two names fall together")
    return 0


if __name__ == "__main__":
    sys.exit(main(sys.argv[1:]))
