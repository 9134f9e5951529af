"""The cases of the run with a signature. The signature is lent behind the table."""
import random

from lend import add, lend, memory, rows_of, say
from model import ALL, BUILD, CHOICE, CONG, FAIL, ID, MATCH, MOST, ONE, PATH, PCON, PVAR, SEQ, SOME, VARIABLES, entry, run

U = 7


def case(label, table, store, signature, *, mark=None, room=None, start=0, subject=None, units=1000, blen=VARIABLES, bound=(), words=(),
         length=None, rest=U, tlen=None, slen=None, fill=1):
    """signature: its first words; length: how many it has, those after the first being `rest`."""
    mark = len(store) if mark is None else mark
    subject = (mark - 1 if mark else 0) if subject is None else subject
    at = 8 * len(table) if tlen is None else tlen
    length = len(signature) if length is None else length
    slen = 8 * (mark + 3 if room is None else room) if slen is None else slen
    patches = rows_of(0, table) + rows_of(1, store) + [(2, v, k + 1) for v, k in bound]
    patches += [(0, at + c, n) for c, n in enumerate(signature) if n != rest] + list(words)
    tail = [rest] * length
    t, s, b, _ = lend(label, table=at, store=slen, bindings=blen, mark=mark, start=start, subject=subject, units=units, fill=fill)
    for which, word, value in patches:
        if which == 0 and word >= at:
            tail[word - at] = value
        else:
            (t, s, b)[which][word] = value
    numbers = [at + length, slen, blen, mark, start, subject, units, fill + 16, 0, at, rest, len(patches)]
    numbers += [x for p in patches for x in p]
    five, s, b = run(t, s, b, mark, start, subject, units, tail)
    add("g", (" ".join(map(str, numbers)) + " " + label).encode(), say(label, *five)[:-1] + memory(s, b).encode() + b"\n")
    return five


# Constants 1 and 2, and the pair 5(1, 2); SMALL declares them.
STORE = [[1], [2], [5, 2, 0, 1]]
SMALL = [U, 0, 0, U, U, 2]
SAME = [entry(ID)]
FLIP = [entry(SEQ, 0, 1, 2), entry(MATCH, 0, 3), entry(BUILD, 0, 4), entry(PCON, 5, 5, 6), entry(PCON, 5, 6, 5), entry(PVAR, 0),
        entry(PVAR, 1)]


def obeyed():
    assert case("signed ID", SAME, STORE, SMALL)[0] == 0
    assert case("signed swap", FLIP, STORE, SMALL)[:4] == [0, 0, 3, 4]
    assert case("signed swap without room", FLIP, STORE, SMALL, room=3)[0] == 7
    assert case("signed swap with 5 units", FLIP, STORE, SMALL, units=5)[0] == 6
    case("signed with more declared", FLIP, STORE, SMALL + [0, 1, 2, 3, 4, 5, 6, 7])
    case("signed with 65536 words", FLIP, STORE, SMALL, length=65536)
    case("signed with the last constructor", [entry(MATCH, 0, 1), entry(PCON, 65535)], STORE, SMALL, length=65536, words=[(0, 16 + 65535, 0)])
    case("signed CONG", [entry(CONG, 5, 1, 1), entry(ID)], STORE, SMALL)
    case("signed CONG that fails", [entry(CONG, 5, 1, 2), entry(ID), entry(FAIL)], STORE, SMALL)
    for kind in (ALL, ONE, SOME):
        case("signed %d" % kind, [entry(kind, 0, 1), entry(ID)], STORE, SMALL)
    case("signed PATH", [entry(PATH, 2, 1), entry(ID)], STORE, SMALL)
    case("signed build of a constant", [entry(BUILD, 0, 1), entry(PCON, 1)], STORE, SMALL)
    case("signed with bindings", [entry(MATCH, 0, 1), entry(PVAR, 4)], STORE, SMALL, bound=[(63, 0)])
    case("a node above the mark disobeys", SAME, [[1], [2], [9]], SMALL, mark=2)
    case("an empty signature and no node", SAME, [], [], mark=0)
    case("no words but declared zero", SAME, [[0]], [0])


def refused():
    def no(label, answer, place, *a, **k):
        five = case(label, *a, **k)
        assert five[:2] == [answer, place] and five[4] == 0, (label, five)
    # 10: an entry that disagrees, is undeclared, or is beyond the list; used or not
    no("10 a PCON with one child", 10, 1, [entry(MATCH, 0, 1), entry(PCON, 5, 2), entry(PVAR, 0)], STORE, SMALL)
    no("10 a PCON with three", 10, 1, [entry(MATCH, 0, 1), entry(PCON, 5, 2, 2, 2), entry(PVAR, 0)], STORE, SMALL)
    no("10 an undeclared PCON", 10, 1, [entry(MATCH, 0, 1), entry(PCON, 3)], STORE, SMALL)
    no("10 a PCON beyond the list", 10, 1, [entry(MATCH, 0, 1), entry(PCON, 6)], STORE, SMALL)
    no("10 a PCON one past the list", 10, 1, [entry(MATCH, 0, 1), entry(PCON, 65535)], STORE, SMALL, length=65535)
    no("10 a CONG with one operand", 10, 0, [entry(CONG, 5, 1), entry(ID)], STORE, SMALL)
    no("10 an undeclared CONG", 10, 0, [entry(CONG, 4)], STORE, SMALL)
    no("10 an unused CONG", 10, 1, [entry(ID), entry(CONG, 1, 2), entry(ID)], STORE, SMALL)
    no("10 an unused PCON", 10, 2, [entry(ID), entry(PCON, 1), entry(PCON, 2, 3), entry(PVAR, 0)], STORE, SMALL)
    no("10 the lowest of two", 10, 1, [entry(ID), entry(PCON, 3), entry(PCON, 3)], STORE, SMALL)
    no("10 at the last entry", 10, 4095, {4095: entry(CONG, 9)}, STORE, SMALL, tlen=32768)
    # 11: a node that disagrees, is undeclared, or is beyond the list; reachable or not
    no("11 the wrong count", 11, 2, SAME, STORE, [U, 0, 0, U, U, 3])
    no("11 undeclared", 11, 1, SAME, STORE, [U, 0, U, U, U, 2])
    no("11 beyond the list", 11, 2, SAME, STORE, [U, 0, 0, U, U])
    no("11 an empty list", 11, 0, SAME, STORE, [])
    no("11 a node that nothing reaches", 11, 1, SAME, [[1], [9], [2]], SMALL, subject=0)
    no("11 the lowest of all", 11, 0, SAME, STORE, [U] * 6)
    no("11 the node below the mark", 11, 63, SAME, [[1]] * 63 + [[2, 1, 0]], SMALL, subject=0)
    # 2: a word above 7, or too many words
    for place in range(6):
        no("2 word %d is 8" % place, 2, 0, SAME, STORE, [8 if c == place else n for c, n in enumerate(SMALL)])
    no("2 a word far above", 2, 0, SAME, STORE, [MOST])
    no("2 the last of 65536 is 8", 2, 0, SAME, STORE, SMALL, length=65536, words=[(0, 8 + 65535, 8)])
    no("2 65537 words", 2, 0, SAME, STORE, SMALL, length=65537)
    # the order: 2, 13 to 17, 4, 10, 11, 5
    pattern = [entry(PVAR, 0), entry(PCON, 1)]
    bad = [(1, 18, 2)]
    no("5 after all of it", 5, 0, pattern, STORE, SMALL)
    no("11 before 5", 11, 1, pattern, STORE, [U, 0, U, U, U, 2])
    no("10 before 11", 10, 1, pattern, STORE, [U, 1, U, U, U, 2])
    no("4 before 10", 4, 2, pattern, STORE, [U, 1, U, U, U, 2], words=bad)
    no("4 before 11", 4, 2, SAME, STORE, [U], words=bad)
    no("13 before 4 and 10", 13, 0, [[16 * 20], entry(PCON, 1)], STORE, [U], words=bad)
    no("17 before 10 in one entry", 17, 0, [[16 * CONG, 3, 1]], STORE, SMALL)
    no("2 before 13", 2, 0, [[16 * 20]], STORE, [8], words=bad)
    no("2 of the bindings", 2, 0, SAME, STORE, SMALL, blen=63)
    no("2 of the mark", 2, 0, SAME, [], SMALL, mark=4, slen=24)
    no("5 a binding above the mark", 5, 0, SAME, STORE, SMALL, bound=[(3, 3)])
    no("5 a subject at the mark", 5, 0, SAME, STORE, SMALL, subject=3)


def mixed(r, k):
    """A random store and table over few constructors, and a signature that is often right."""
    counts = [r.randrange(3) for _ in range(4)]
    counts[0] = 0
    rows = []
    for j in range(1 + r.randrange(6)):
        c = r.randrange(4) if j else 0
        rows.append([c, counts[c], *[r.randrange(j) for _ in range(counts[c])]])
    table = [entry(SEQ, 0, 1, 2), entry(CHOICE, 0, 3, 4), entry(BUILD, 0, 5), entry(MATCH, 0, 5), entry(ID)]
    c = r.randrange(4)
    table += [entry(PCON, c, *[6] * counts[c]), entry(PCON, 0)]
    signature = list(counts)
    if r.random() < 0.5:
        signature[r.randrange(4)] = r.choice([0, 1, 2, 3, 7])
    if r.random() < 0.2:
        signature.pop()
    if r.random() < 0.1:
        signature[0] = 8
    words = [(1, r.randrange(8 * len(rows)), r.choice([0, 1, 7, 65536]))] if r.random() < 0.15 else []
    case("signed mixed %d" % k, table, rows, signature, start=r.choice([0, 0, 0, 1, 2, 5]), subject=r.randrange(len(rows)), units=r.choice([3, 9, 99]), words=words)


def write():
    obeyed()
    refused()
    r = random.Random(2)
    for k in range(120):
        mixed(r, k)
