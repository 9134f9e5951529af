"""The cases of the run that can be set aside: a start call, and steps. A signature is lent behind the table. The work list begins with one word
everywhere.
"""
import random

from lend import add, lend, memory, rows_of, say, shown, summed
from model import (ALL, BUILD, CALL, CHOICE, CONG, FAIL, ID, LEFT, MATCH, MOST, NOT, ONE, PATH, PCON, PVAR, REC, SCOPE, SEQ, SOME, TEST, VARIABLES, WHERE,
                   entry, run, stepped)

U = 7
LIST = 80 * 4096
labels = set()


def bytes_of(numbers, patches, work, first, steps, label):
    """A case: the eleven numbers before the patches, the patches, the length of the work list and what each of its words is, the steps, and
    the label.
    """
    words = [*numbers, len(patches), *[x for p in patches for x in p], work, first, len(steps), *steps]
    return (" ".join(map(str, words)) + " " + label).encode()


def answer_of(label, fives, s, b, w):
    numbers = " /".join("".join(" %d" % x for x in five) for five in fives)
    tail = shown(w) if len(w) <= 512 else " %d" % summed(w)
    return ("%s%s%s :%s\n" % (label, numbers, memory(s, b), tail)).encode()


def case(label, table, store, steps=(), *, signature=None, work=LIST, first=1, mark=None, room=None, start=0, subject=None, units=1000, blen=VARIABLES,
         bound=(), words=(), tlen=None, slen=None, fill=1, head=(0, 0, 0)):
    """table and store: rows. work: the length of the work list; first: each of its words. words: further patches."""
    assert label not in labels, label
    labels.add(label)
    mark = len(store) if mark is None else mark
    subject = (mark - 1 if mark else 0) if subject is None else subject
    at = 8 * len(table) if tlen is None else tlen
    slen = 8 * (mark + 6 if room is None else room) if slen is None else slen
    patches = rows_of(0, table) + rows_of(1, store, fill > 1) + [(2, v, k + 1) for v, k in bound] + list(words)
    t, s, b, _ = lend(label, table=at, store=slen, bindings=blen, mark=mark, fill=fill, head=head, patches=patches)
    behind = signature or []
    patches += [(0, at + c, n) for c, n in enumerate(behind) if n != U]
    if signature is not None:
        fill, head = fill + 16, (0, at, U)
    fives, after, left, w = stepped(t, s, b, [first] * work, mark, start, subject, units, steps, signature)
    body = bytes_of([at + len(behind), slen, blen, mark, start, subject, units, fill, *head], patches, work, first, steps, label)
    add("p" if signature is None else "q", body, answer_of(label, fives, after, left, w))
    if fives[0][0] == 25:
        # The steps' numbers aside, it is the run.
        five, ended, names = run(t, s, b, mark, start, subject, units, signature)
        assert fives[-2] == five and after == ended and left == names and not any(w), label
    else:
        assert after == s and left == b and w == [first] * work, label
    return fives


# Constants 1 and 2, and the pair 5(1, 2); SMALL declares them, and 8 with one child.
STORE = [[1], [2], [5, 2, 0, 1]]
SMALL = [U, 0, 0, U, U, 2, U, U, 1]
SAME = [entry(ID)]
X, Y = entry(PVAR, 0), entry(PVAR, 1)
# LEFT(SEQ(MATCH x, FAIL), ID): six visits.
S6 = [entry(LEFT, 0, 1, 2), entry(SEQ, 0, 3, 4), entry(ID), entry(MATCH, 0, 5), entry(FAIL), X]
# The swap, ten visits and one node: 01's job.
FLIP = [entry(SCOPE, 3, 1), entry(SEQ, 0, 2, 3), entry(MATCH, 0, 4), entry(BUILD, 0, 5), entry(PCON, 5, 6, 7), entry(PCON, 5, 7, 6), X, Y]
LOOP = [entry(REC, 0, 1), entry(CALL, 0, 0)]
KINDS = {
    "ID": SAME,
    "FAIL": [entry(FAIL)],
    "TEST": [entry(TEST, 0, 1), entry(MATCH, 0, 2), entry(PCON, 5, 3, 4), X, Y],
    "TEST that fails": [entry(TEST, 0, 1), entry(MATCH, 0, 2), entry(PCON, 6)],
    "NOT": [entry(NOT, 0, 1), entry(SEQ, 0, 2, 3), entry(MATCH, 0, 4), entry(FAIL), X],
    "NOT that fails": [entry(NOT, 0, 1), entry(MATCH, 0, 2), X],
    "SEQ": FLIP,
    "CHOICE": [entry(CHOICE, 0, 1, 2), entry(MATCH, 0, 3), entry(BUILD, 0, 4), entry(PCON, 6), entry(PCON, 7)],
    "LEFT": S6,
    "REC and CALL": [entry(REC, 0, 1), entry(LEFT, 0, 2, 3), entry(PATH, 1, 4), entry(ID), entry(CALL, 0, 0)],
    "PATH": [entry(PATH, 2, 1), entry(BUILD, 0, 2), entry(PCON, 9)],
    "PATH 3": [entry(PATH, 3, 1), entry(ID)],
    "CONG": [entry(CONG, 5, 1, 2), entry(MATCH, 0, 3), entry(BUILD, 0, 3), X],
    "CONG that fails": [entry(CONG, 5, 1, 2), entry(BUILD, 0, 3), entry(FAIL), entry(PCON, 9)],
    "CONG of another": [entry(CONG, 6, 1, 1), entry(ID)],
    "ALL": [entry(ALL, 0, 1), entry(BUILD, 0, 2), entry(PCON, 9)],
    "ALL that fails": [entry(ALL, 0, 1), entry(MATCH, 0, 2), entry(PCON, 1)],
    "ONE": [entry(ONE, 0, 1), entry(MATCH, 0, 2), entry(PCON, 2)],
    "ONE that fails": [entry(ONE, 0, 1), entry(MATCH, 0, 2), entry(PCON, 3)],
    "SOME": [entry(SOME, 0, 1), entry(MATCH, 0, 2), entry(PCON, 1)],
    "SOME that fails": [entry(SOME, 0, 1), entry(MATCH, 0, 2), entry(PCON, 3)],
    "MATCH twice": [entry(MATCH, 0, 1), entry(PCON, 5, 2, 2), X],
    "BUILD": [entry(BUILD, 0, 1), entry(PCON, 5, 2, 3), entry(PCON, 5, 3, 3), entry(PCON, 9)],
    "BUILD unbound": [entry(BUILD, 0, 1), entry(PCON, 5, 2, 3), entry(PCON, 9), entry(PVAR, 40)],
    "SCOPE": [entry(SEQ, 0, 1, 2), entry(MATCH, 0, 5), entry(SCOPE, 1, 3), entry(PATH, 1, 4), entry(MATCH, 0, 5), X],
    "SCOPE that fails": [entry(LEFT, 0, 1, 2), entry(SCOPE, 1 + 2**40, 3), entry(MATCH, 0, 5), entry(SEQ, 0, 4, 6), entry(MATCH, 0, 5), X, entry(FAIL)],
    "WHERE": [entry(WHERE, 0, 1), entry(SEQ, 0, 2, 3), entry(MATCH, 0, 4), entry(BUILD, 0, 5), X, entry(PCON, 8, 6), X],
}
# A pair of equal terms at two nodes, three levels deep.
DEEP = [[1], [8, 1, 0], [8, 1, 1], [1], [8, 1, 3], [8, 1, 4], [5, 2, 2, 5]]


def holds(label, expected, *rest, **more):
    """A run with the five numbers of the start and of each step written by hand."""
    fives = case(label, *rest, **more)
    assert fives == expected, (label, fives)


def set_aside():
    """An unfinished run's numbers, on the small store."""
    aside = lambda used: [25, 0, 2, 3, used]
    none = [27, 0, 0, 0, 0]
    done = [0, 0, 2, 3, 6]
    holds("steps of one", [aside(k) for k in range(6)] + [done, none], S6, STORE, [1] * 6)
    holds("steps of two", [aside(0), aside(2), aside(4), done, none], S6, STORE, [2, 2, 2])
    holds("one step", [aside(0), done, none], S6, STORE, [])
    holds("a step of as many as it takes", [aside(0), done, none], S6, STORE, [6])
    holds("a step of one less", [aside(0), aside(5), done, none], S6, STORE, [5])
    holds("steps of none", [aside(0), aside(0), aside(3), aside(3), aside(3), done, none], S6, STORE, [0, 3, 0, 0, 9])
    # A step ends before the next visit's limit test.
    cut = [6, 0, 2, 3, 4]
    holds("the last unit is used, and then 6", [aside(0), aside(4), aside(4), cut, none], S6, STORE, [4, 0, 1], units=4)
    holds("6 in one step", [aside(0), cut, none], S6, STORE, [5], units=4)
    holds("no units and a step of none", [aside(0), aside(0), [6, 0, 2, 3, 0], none], S6, STORE, [0, 1], units=0)
    holds("nesting 4096, and then 8", [aside(0), aside(4096), [8, 0, 2, 3, 4096], none], LOOP, STORE, [4096], units=5000)
    holds("8 in one step", [aside(0), [8, 0, 2, 3, 4096], none], LOOP, STORE, [], units=5000)
    holds("units before nesting", [aside(0), aside(4096), [6, 0, 2, 3, 4096], none], LOOP, STORE, [4096], units=4096)
    # What follows the last visit is done: a node made, no room, an unbound variable, a failure.
    nine = [entry(BUILD, 0, 1), entry(PCON, 9)]
    holds("what follows is done", [aside(0), aside(1), [0, 0, 3, 4, 2], none], nine, STORE, [1, 1], units=2)
    holds("what follows has no room", [aside(0), aside(1), [7, 0, 2, 3, 2], none], nine, STORE, [1, 1], room=3)
    holds("what follows is unbound", [aside(0), [12, 40, 2, 3, 2], none], [entry(BUILD, 0, 1), entry(PVAR, 40)], STORE, [2])
    twice = [entry(MATCH, 0, 1), entry(PCON, 5, 2, 2), X]
    holds("what follows has failed", [aside(0), aside(4), [1, 2, 2, 3, 5], none], twice, STORE, [4, 1])
    # The failed branch's binding is gone, wherever the run is set aside.
    table = [entry(SEQ, 0, 1, 2), entry(LEFT, 0, 3, 4), entry(MATCH, 0, 6), entry(SEQ, 0, 5, 7), entry(ID), entry(MATCH, 0, 6), X, entry(FAIL)]
    for at in range(9):
        case("a failed branch after %d" % at, table, STORE, [at])
    # Units used are told with each step, and a step counts only its own.
    case("many steps and many units", FLIP, STORE, [1, 0, 2, 0, 3, 0, 4], units=MOST)
    case("steps of the greatest number", FLIP, STORE, [MOST], units=MOST)


def every_kind():
    for name, table in KINDS.items():
        for size in (1, 2, 7):
            case("%s by %d" % (name, size), table, STORE, [size] * (30 // size + 1))
        for units in range(4):
            case("%s with %d units by 1" % (name, units), table, STORE, [1] * 5, units=units)
        case("%s without room by 1" % name, table, STORE, [1] * 30, room=3)
        case("%s on a constant by 1" % name, table, STORE, [1] * 30, subject=0)
        case("%s with x bound by 1" % name, table, STORE, [1] * 30, bound=[(0, 1), (63, 2)])
    for size in (1, 2, 3):
        case("pairs by %d" % size, [entry(MATCH, 0, 1), entry(PCON, 5, 2, 2), X], DEEP, [size] * 9)
    case("pairs that differ", [entry(MATCH, 0, 1), entry(PCON, 5, 2, 2), X], DEEP[:3] + [[2]] + DEEP[4:], [1] * 9)


def deepest():
    """All 4,096 levels, of each sort of visit."""
    chain = {"fill": 3, "mark": 5000, "room": 5000}
    everywhere = [entry(REC, 0, 1), entry(ALL, 0, 2), entry(CALL, 0, 0)]
    for units in (9000, 40000):
        case("ALL down a chain with %d" % units, everywhere, {}, [1000, 1, 1000, 7], units=units, subject=1300, **chain)
    case("ALL down a long chain", everywhere, {}, [4000, 100], units=40000, subject=2000, **chain)
    case("pairs down a chain", [entry(MATCH, 0, 1), X], {}, [4090, 1, 1, 1], subject=4999, bound=[(0, 4999)], **chain)
    case("pairs down a short chain", [entry(MATCH, 0, 1), X], {}, [4090, 1, 1, 1], subject=4093, bound=[(0, 4093)], **chain)
    case("SEQs nested", {1023: entry(ID)}, STORE, [500, 500], tlen=8192, head=(16 * TEST + 1, 0, 0), units=5000)


def refused():
    def no(label, answer, place, *rest, **more):
        fives = case(label, *rest, **more)
        assert fives[0][:2] == [answer, place] and fives[0][4] == 0, (label, fives)
    for first in (0, 1):
        with_ = "" if first else " on zeros"
        for length in (0, 1, 80, 48 * 4096, LIST - 1):
            no("2 a work list of %d%s" % (length, with_), 2, 0, S6, STORE, work=length, first=first)
        no("2 bindings%s" % with_, 2, 0, S6, STORE, first=first, blen=63)
        no("2 mark%s" % with_, 2, 0, S6, [], first=first, mark=4, slen=24)
        no("13%s" % with_, 13, 0, [[16 * 20]], STORE, first=first)
        no("15%s" % with_, 15, 0, [entry(TEST, 0, 1)], STORE, first=first)
        no("4%s" % with_, 4, 1, S6, [[1], [2, 1, 1]], first=first)
        no("5 start%s" % with_, 5, 0, S6, STORE, first=first, start=5)
        no("5 subject%s" % with_, 5, 0, S6, STORE, first=first, subject=3)
        no("5 binding%s" % with_, 5, 0, S6, STORE, first=first, bound=[(63, 3)])
        no("10%s" % with_, 10, 0, [entry(CONG, 5)], STORE, first=first, signature=SMALL)
        no("11%s" % with_, 11, 2, S6, STORE, first=first, signature=SMALL[:5])
        no("2 signature%s" % with_, 2, 0, S6, STORE, first=first, signature=[8])
    # The order: the sizes, then the rest.
    no("2 before 13, stepped", 2, 0, [[16 * 20]], STORE, work=LIST - 1)
    no("2 before 5, stepped", 2, 0, S6, STORE, work=LIST - 1, start=9)
    no("10 before 5, stepped", 10, 0, [entry(CONG, 5)], STORE, start=9, signature=SMALL)
    case("a signature that all obey, by 1", FLIP, STORE, [1] * 12, signature=SMALL)
    case("a work list longer than it needs to be", FLIP, STORE, [3, 3], work=LIST + 81, first=MOST)
    case("a work list of the greatest words", FLIP, STORE, [3, 3], first=MOST)
    case("a work list of zeros", FLIP, STORE, [3, 3], first=0)


def mixed(r, k):
    """Random strategies over a small store, in random steps."""
    n = 12 + r.randrange(12)
    table = []
    for e in range(n):
        below = lambda sort: r.choice([x for x in range(e + 1, n + 4) if sort(x)])
        strategy = lambda x: x < n or x == n + 3
        pattern = lambda x: n <= x < n + 3
        kind = r.choice([TEST, NOT, SEQ, SEQ, CHOICE, LEFT, LEFT, REC, PATH, CONG, ALL, ONE, SOME, MATCH, MATCH, BUILD, SCOPE, WHERE])
        if kind in (MATCH, BUILD):
            table.append(entry(kind, 0, below(pattern)))
        elif kind == CONG:
            table.append(entry(CONG, 5, below(strategy), below(strategy)))
        else:
            argument = {PATH: 1 + r.randrange(2), SCOPE: r.choice([1, 2, 3, 2**33])}.get(kind, 0)
            table.append(entry(kind, argument, *[below(strategy) for _ in range(2 if kind in (SEQ, CHOICE, LEFT) else 1)]))
    table += [entry(PCON, 5, n + 1, n + 2), entry(PVAR, 0), entry(PVAR, r.choice([0, 1, 33])), entry(ID)]
    store = [[1], [2], [5, 2, 0, 1], [5, 2, 2, 2], [5, 2, 3, 0]]
    steps = [r.choice([0, 1, 1, 2, 3, 7, 20, 100]) for _ in range(r.randrange(25))]
    case("stepped mixed %d" % k, table, store, steps, start=0, subject=r.randrange(5), units=r.choice([5, 20, 200, 2000]), room=5 + r.choice([0, 3, 30, 30]),
         bound=[(0, r.randrange(5))] if r.random() < 0.3 else [], first=r.choice([0, 1, MOST]))


def write():
    set_aside()
    every_kind()
    deepest()
    refused()
    r = random.Random(8)
    for k in range(150):
        mixed(r, k)
