"""The cases that the program vectors executes: for each a tag, its bytes, and what must be written. crates/vectors/src/main.rt
and crates/cases/src/memory.rt say what they mean.
"""
from model import MOST, SCOPE

cases = []


def add(tag, body, answer):
    """One case: its bytes, and what must be written."""
    assert len(body) <= 131072
    cases.append((b"%s %d\n%s\n" % (tag.encode(), len(body), body), answer))


def rows_of(slice_, rows, zeros=False):
    """The patches of rows, each of at most eight words: a list, or a dictionary by number."""
    rows = rows if isinstance(rows, dict) else dict(enumerate(rows))
    return [(slice_, 8 * k + j, v) for k, row in rows.items() for j, v in enumerate(row) if v or zeros]


def lend(label, *, table=0, store=0, bindings=0, mark=0, start=0, subject=0, units=0, fill=0, head=(0, 0, 0), patches=()):
    """The three slices that a case lends, and its bytes. table, store and bindings are lengths."""
    t, s, b = [0] * table, [0] * store, [0] * bindings
    if fill & 1:
        s[8 * mark:] = [MOST] * max(0, store - 8 * mark)
    inside = mark if mark <= store // 8 else 0
    if fill & 2:
        for k in range(1, inside):
            s[8 * k:8 * k + 3] = [1, 1, k - 1]
    if fill & 4:
        for k in range(6, inside):
            s[8 * k:8 * k + 8] = [k % 65536, 6, k - 1, k - 2, k - 3, k - 4, k - 5, k - 6]
    if head[0]:
        for e in range(table // 8 - 1):
            operands = [head[2], e + 1] if head[0] // 16 == SCOPE else [e + 1, head[2]]
            t[8 * e:8 * e + 8] = [head[0], head[1], *operands, 0, 0, 0, 0]
    if fill & 8:
        for e in range(3, table // 8, 2):
            t[8 * e - 8:8 * e + 8] = [113, 0, e, 0, 0, 0, 0, 0, 129, 0, e - 3, 0, 0, 0, 0, 0]
    for which, word, value in patches:
        (t, s, b)[which][word] = value
    numbers = [table, store, bindings, mark, start, subject, units, fill, *head, len(patches)]
    numbers += [x for p in patches for x in p]
    return t, s, b, (" ".join(map(str, numbers)) + " " + label).encode()


def say(label, *numbers):
    """A line of output: the label and numbers."""
    return (" ".join([label, *map(str, numbers)]) + "\n").encode()


def shown(words):
    """The words that are not zero, each with its place."""
    return "".join(" %d=%d" % p for p in enumerate(words) if p[1])


def summed(words):
    """All words in one number."""
    h = 0
    for w in words:
        h = (h * 31 + w) % 2**32
    return h


def memory(store, bindings):
    """What is shown of the memory at return."""
    return "%s :%s" % (shown(bindings), shown(store) if len(store) <= 512 else " %d" % summed(store))
