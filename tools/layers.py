#!/usr/bin/env python3
"""layers.py: draws layers, each thing above what it stands on: the proved crates of crates.txt in docs/layers.svg, and what is used over the
archive in docs/use.svg.

What a crate is comes from the list in README.md, and so does all of the second drawing. A line goes to each thing that a thing stands on and that no
other of those stands on.
layers.py --check: writes nothing, and ends with 1 where a drawing is not that of crates.txt and README.md.
"""
import html
import pathlib
import re
import sys
import textwrap

ROOT = pathlib.Path(__file__).resolve().parent.parent
README = (ROOT / "README.md").read_text()
WIDE, HIGH, ACROSS, BETWEEN, EDGE = 250, 74, 30, 46, 20
STYLE = """<style>
rect { fill: #f6f3ea; stroke: #6b5f45; rx: 6 }
path { fill: none; stroke: #a3987f; stroke-width: 1.5 }
text { font-family: sans-serif; font-size: 12px; fill: #333 }
.name { font-size: 15px; font-weight: bold }
</style>"""


def crates():
    """The crates and those of them that each stands on."""
    found = {}
    for line in (ROOT / "crates.txt").read_text().splitlines():
        name, colon, under = line.partition("#")[0].partition(":")
        if colon:
            found[name.split()[0]] = under.split()
    return {name: [d for d in under if d in found] for name, under in found.items()}


def layer(of, name):
    return 1 + max((layer(of, d) for d in of[name]), default=-1)


def in_use():
    """What README.md lists over the archive: each thing with those that it stands on, and what each is."""
    rows = re.findall(r"^\| ([\w ]+) \| (.*) \| ([\w ,]*) ?\|$", part(README, "## Over the archive"), re.M)
    of = {name: [d for d in under.strip().split(", ") if d] for name, _, under in rows if name != "what"}
    return of, {name: said for name, said, _ in rows}


def part(text, head):
    """A chapter of a page."""
    return text[text.index(head):].split("\n## ")[0]


def proved():
    """The crates, and what README.md says that each is."""
    said = re.findall(r"^\| (?:\[)?(\w+)(?:\]\([^)]*\))? \| (.*) \|$", part(README, "## The crates, in the order"), re.M)
    return crates(), dict(said)


def drawing(of, said):
    rows = {}
    for name in of:
        rows.setdefault(layer(of, name), []).append(name)
    widest, top = max(map(len, rows.values())), max(rows)
    inner = 2 * EDGE + widest * WIDE + (widest - 1) * ACROSS
    height = 2 * EDGE + (top + 1) * HIGH + top * BETWEEN
    at = {}
    for k, names in rows.items():
        left = (inner - len(names) * WIDE - (len(names) - 1) * ACROSS) // 2
        for i, name in enumerate(names):
            at[name] = (left + i * (WIDE + ACROSS), EDGE + (top - k) * (HIGH + BETWEEN))
    lines, boxes, width = [], [], inner
    for name, (x, y) in at.items():
        for d in of[name]:
            if not any(d in of[other] for other in of[name]):
                a, b = at[d]
                way = "M %d %d" % (x + WIDE // 2, y + HIGH)
                if b - y > HIGH + BETWEEN:  # past a layer: by the right margin
                    way += " v %d H %d V %d H %d" % (BETWEEN // 2, width, b - BETWEEN // 3, a + WIDE // 2)
                    width += EDGE
                lines.append('<path d="%s L %d %d"/>' % (way, a + WIDE // 2, b))
        boxes.append('<rect x="%d" y="%d" width="%d" height="%d"/>' % (x, y, WIDE, HIGH))
        boxes.append('<text class="name" x="%d" y="%d">%s</text>' % (x + 10, y + 20, name))
        for i, text in enumerate(textwrap.wrap(re.sub("`", "", said.get(name, "")), 40)[:3]):
            boxes.append('<text x="%d" y="%d">%s</text>' % (x + 10, y + 37 + 15 * i, html.escape(text)))
    head = '<svg xmlns="http://www.w3.org/2000/svg" width="%d" height="%d" viewBox="0 0 %d %d">' % (width, height, width, height)
    back = '<rect x="0" y="0" width="%d" height="%d" style="fill: #fff; stroke: none"/>' % (width, height)
    return "\n".join([head, STYLE, back, *lines, *boxes, "</svg>", ""])


def main(words):
    if words not in ([], ["--check"]):
        print("usage: tools/layers.py [--check]\n" + __doc__.strip(), file=sys.stderr)
        return 2
    differ = 0
    for name, what in (("docs/layers.svg", proved()), ("docs/use.svg", in_use())):
        path, drawn = ROOT / name, drawing(*what)
        if not words:
            path.write_text(drawn)
        elif not path.exists() or path.read_text() != drawn:
            print(f"{name} is not the drawing of crates.txt and README.md: tools/layers.py writes it")
            differ = 1
    return differ


if __name__ == "__main__":
    sys.exit(main(sys.argv[1:]))
