"""The cases of the call with many subjects, without a signature and with one. The signature is lent behind the table, and every
word of the result list is the greatest before the call.
"""
import random

from lend import add, lend, memory, rows_of, say
from model import (ALL, BUILD, CALL, CONG, FAIL, ID, LEFT, MATCH, MOST, PATH, PCON, PVAR, REC, SCOPE, SEQ, SOME, VARIABLES, WHERE, entry, run_many)

U = 7
labels = set()


def bytes_of(numbers, patches, results, subjects, label):
    """A case: the twelve numbers, of which the last is the number of patches, the patches, the length of the result list, the
    subjects, and the label.
    """
    words = [*numbers, len(patches), *[x for p in patches for x in p], results, *subjects]
    return (" ".join(map(str, words)) + " " + label).encode()


def answer_of(label, head, results, s, b):
    return say(label, *head, *results)[:-1] + memory(s, b).encode() + b"\n"


def case(label, table, store, subjects, *, signature=None, results=None, mark=None, room=None, start=0, units=1000, blen=VARIABLES, bound=(),
         words=(), tlen=None, slen=None, fill=1):
    """table and store: rows. results: how many words, where not five for each subject. words: further patches."""
    assert label not in labels, label
    labels.add(label)
    mark = len(store) if mark is None else mark
    at = 8 * len(table) if tlen is None else tlen
    slen = 8 * (mark + 6 if room is None else room) if slen is None else slen
    results = 5 * len(subjects) if results is None else results
    patches = rows_of(0, table) + rows_of(1, store, fill > 1) + [(2, v, k + 1) for v, k in bound] + list(words)
    t, s, b, _ = lend(label, table=at, store=slen, bindings=blen, mark=mark, fill=fill, patches=patches)
    behind = signature or []
    patches += [(0, at + c, n) for c, n in enumerate(behind) if n != U]
    tag, fill = ("m", fill) if signature is None else ("n", fill + 16)
    body = bytes_of([at + len(behind), slen, blen, mark, start, len(subjects), units, fill, 0, at, U], patches, results, subjects, label)
    head, numbers, after = run_many(t, s, b, mark, start, subjects, units, [MOST] * results, signature)
    add(tag, body, answer_of(label, head, numbers, after, b))
    if head[0] or not subjects:
        assert numbers == [MOST] * results and after == s, label
    return list(head), [numbers[i:i + 5] for i in range(0, len(numbers), 5)], after


# Constants 1 and 2, and the pair 5(1, 2); SMALL declares them, and 8 with one child.
STORE = [[1], [2], [5, 2, 0, 1]]
SMALL = [U, 0, 0, U, U, 2, U, U, 1]
X = entry(PVAR, 0)
SAME = [entry(ID)]
# The rule 1 to 8(1), six visits and two nodes; it fails on all else in three visits, at entry 3.
WRAP = [entry(SEQ, 0, 1, 2), entry(MATCH, 0, 3), entry(BUILD, 0, 4), entry(PCON, 1), entry(PCON, 8, 5), entry(PCON, 1)]
# The same, and where it fails a loop that does not end.
LOOPS = [entry(LEFT, 0, 1, 7), entry(SEQ, 0, 2, 3), entry(MATCH, 0, 4), entry(BUILD, 0, 5), entry(PCON, 1), entry(PCON, 8, 6), entry(PCON, 1),
         entry(REC, 0, 8), entry(CALL, 0, 7)]
# Makes a node 9, and then 1 alone goes on: the others fail with a node made, at entry 5.
MAKES = [entry(SEQ, 0, 1, 2), entry(WHERE, 0, 3), entry(MATCH, 0, 5), entry(BUILD, 0, 4), entry(PCON, 9), entry(PCON, 1)]


def holds(label, expected, *rest, **more):
    """A call that ran, with the five numbers of each subject written by hand."""
    head, five, after = case(label, *rest, **more)
    assert head == [0, 0] and five == expected, (label, head, five)
    return after


def accepted():
    # The same start on each, and the mark left by the one before; what failed does not stop the rest.
    holds("many ID", [[0, 0, k, 3, 1] for k in (0, 1, 2)], SAME, STORE, [0, 1, 2])
    holds("many of one", [[0, 0, 4, 5, 6]], WRAP, STORE, [0])
    after = holds("many done and failed", [[0, 0, 4, 5, 6], [1, 3, 1, 5, 3], [0, 0, 6, 7, 6], [1, 3, 2, 7, 3]], WRAP, STORE, [0, 1, 0, 2])
    assert after[24:56:8] == [1, 8, 1, 8] and not any(after[56:])
    holds("many from entry 1", [[0, 0, 0, 3, 2], [1, 3, 1, 3, 2], [0, 0, 0, 3, 2]], WRAP, STORE, [0, 1, 0], start=1)
    holds("many the same subject", [[0, 0, 4 + 2 * i, 5 + 2 * i, 6] for i in range(3)], WRAP, STORE, [0, 0, 0])
    holds("many in falling order", [[0, 0, k, 3, 1] for k in (2, 1, 0)], SAME, STORE, [2, 1, 0])
    # All fail: what was above the mark is zero all the same.
    after = holds("many all fail", [[1, 4096, k, 3, 1] for k in (0, 1, 2)], [entry(FAIL)], STORE, [0, 1, 2])
    assert not any(after[24:])
    # Cut off: by units, room, nesting.
    holds("many cut off by units", [[6, 0, 1, 3, 10], [0, 0, 4, 5, 7], [6, 0, 2, 5, 10], [0, 0, 6, 7, 7]], LOOPS, STORE, [1, 0, 2, 0], units=10)
    holds("many cut off by nesting", [[8, 0, 1, 3, 4099], [0, 0, 4, 5, 7], [8, 0, 2, 5, 4099], [0, 0, 6, 7, 7]], LOOPS, STORE, [1, 0, 2, 0], units=5000)
    holds("many cut off by room", [[0, 0, 4, 5, 6], [7, 0, 0, 5, 6], [1, 3, 1, 5, 3], [7, 0, 0, 5, 6]], WRAP, STORE, [0, 0, 1, 0], room=6)
    holds("many without room", [[7, 0, 0, 3, 6], [1, 3, 2, 3, 3], [7, 0, 0, 3, 6]], WRAP, STORE, [0, 2, 0], room=3)
    holds("many in all ways", [[0, 0, 4, 5, 7], [8, 0, 1, 5, 4099], [7, 0, 0, 5, 7]], LOOPS, STORE, [0, 1, 0], room=6, units=9999)
    # The mark of a subject that is not done is not kept, and its room is the next one's.
    after = holds("many the mark of a failed one", [[1, 5, 1, 3, 6], [0, 0, 0, 4, 6], [1, 5, 2, 4, 6], [0, 0, 0, 5, 6]], MAKES, STORE, [1, 0, 2, 0], room=5)
    assert after[24] == after[32] == 9
    holds("many the room of a failed one", [[1, 5, 1, 3, 6]] * 3 + [[0, 0, 0, 4, 6], [7, 0, 1, 4, 4]], MAKES, STORE, [1, 1, 1, 0, 1], room=4)
    # Its own full units.
    holds("many with just enough units", [[0, 0, 4 + 2 * i, 5 + 2 * i, 6] for i in range(3)], WRAP, STORE, [0, 0, 0], units=6)
    holds("many with one unit too few", [[6, 0, 0, 3, 5], [1, 3, 1, 3, 3], [6, 0, 0, 3, 5]], WRAP, STORE, [0, 1, 0], units=5)
    holds("many with no units", [[6, 0, k, 3, 0] for k in (2, 0)], SAME, STORE, [2, 0], units=0)
    holds("many with the most units", [[0, 0, 4, 5, 7], [8, 0, 2, 5, 4099]], LOOPS, STORE, [0, 2], units=MOST)
    # The bindings given to the call, for each.
    match = [entry(MATCH, 0, 1), X]
    holds("many bind x", [[0, 0, k, 3, 2] for k in (0, 1, 2)], match, STORE, [0, 1, 2])
    holds("many with x bound", [[1, 1, 0, 3, 3], [0, 0, 1, 3, 3], [1, 1, 2, 3, 3], [0, 0, 1, 3, 3]], match, STORE, [0, 1, 2, 1], bound=[(0, 1)])
    holds("many bind x and fail", [[1, 4, 2, 3, 5], [0, 0, 0, 3, 5], [1, 4, 1, 3, 5]],
          [entry(SEQ, 0, 1, 2), entry(MATCH, 0, 3), entry(MATCH, 0, 4), X, entry(PCON, 1)], STORE, [2, 0, 1])
    holds("many with all bound", [[0, 0, 3, 4, 3], [0, 0, 4, 5, 3]], [entry(ALL, 0, 1), entry(ID)], [[1], [5, 2, 0, 0], [5, 2, 0, 0]], [1, 2],
          bound=[(v, v % 3) for v in range(VARIABLES)])
    case("many scopes", [entry(SCOPE, 1, 1), entry(ALL, 0, 2), entry(MATCH, 0, 3), X], [[1], [2], [5, 2, 0, 1], [5, 2, 0, 0]], [3, 2, 3, 0], bound=[(0, 1)])
    # Many of them, and large stores.
    holds("many 1024 subjects", [[0, 0, 0, 1, 1]] * 1024, SAME, [[1]], [0] * 1024, room=1)
    case("many 300 subjects that make nodes", WRAP, STORE, [k % 3 for k in range(300)], room=150)
    case("many up to the last node", WRAP, STORE, [0, 1, 0], mark=131069, slen=1048576, fill=5)
    case("many in a full store", SAME, [], [131071, 0, 5], mark=131072, slen=1048576, fill=4)
    case("many down a chain", [entry(REC, 0, 1), entry(LEFT, 0, 2, 4), entry(PATH, 1, 3), entry(CALL, 0, 0), entry(ID)], [], [9, 2, 63, 0], mark=64, room=400, fill=3,
         units=MOST)
    case("many some of it", [entry(SOME, 0, 1), entry(MATCH, 0, 2), entry(PCON, 1)], STORE, [2, 1, 2, 0])


def none():
    """No subjects: the call is refused as any other, and where it is not nothing is written."""
    def ran(label, *rest, **more):
        head, five, _ = case(label, *rest, **more)
        assert (head, five) == ([0, 0], []), (label, head, five)
    ran("none", WRAP, STORE, [])
    ran("none with units 0", WRAP, STORE, [], units=0)
    ran("none and no node", SAME, [], [], mark=0, room=3)
    ran("none and an empty store", SAME, [], [], mark=0, slen=0)
    ran("none signed", WRAP, STORE, [], signature=SMALL)
    ran("none signed with an empty list", SAME, [], [], signature=[], mark=0)
    no("none with a pattern as start", 5, 0, WRAP, STORE, [], start=3)
    no("none with a start outside", 5, 0, WRAP, STORE, [], start=6)
    no("none with a binding above the mark", 5, 0, WRAP, STORE, [], bound=[(63, 3)])
    no("none with results", 2, 0, WRAP, STORE, [], results=5)
    no("none with one word of results", 2, 0, WRAP, STORE, [], results=1)
    no("none with a bad table", 17, 0, WRAP, STORE, [], words=[(0, 7, 1)])
    no("none with a bad node", 4, 2, WRAP, STORE, [], words=[(1, 18, 2)])
    no("none with a mark past the store", 2, 0, SAME, [], [], mark=4, slen=24)
    no("none with 63 bindings", 2, 0, SAME, STORE, [], blen=63)
    no("none with an undeclared entry", 10, 3, WRAP, STORE, [], signature=[U, U, 0, U, U, 2, U, U, 1])
    no("none with an undeclared node", 11, 1, WRAP, STORE, [], signature=[U, 0, U, U, U, 2, U, U, 1])
    no("none with a word above 7", 2, 0, WRAP, STORE, [], signature=[8])


def no(label, answer, place, *rest, **more):
    """A call that is refused."""
    head, _, _ = case(label, *rest, **more)
    assert head == [answer, place], (label, head)


def refused():
    # 2: the result list
    for n in (0, 1, 4, 5, 9, 11, 14, 15, 2, 20):
        no("many with %d words for two" % n, 2, 0, SAME, STORE, [0, 1], results=n)
    # 2: 01's sizes
    for n in (0, 7, 9, 32776):
        no("many with a table of %d words" % n, 2, 0, (), STORE, [0], tlen=n)
    for n in (7, 25, 1048577, 1048584):
        no("many with a store of %d words" % n, 2, 0, SAME, (), [0], mark=0, slen=n)
    for n in (0, 32, 63, 65):
        no("many with %d bindings" % n, 2, 0, SAME, STORE, [0], blen=n)
    no("many with a mark past the store", 2, 0, SAME, (), [0], mark=4, slen=24)
    # 5: a subject not below the first mark, first, last or between, though the one before would raise the mark
    for k in (3, 4, 5, 131072, MOST):
        no("many subject %d first" % k, 5, 0, WRAP, STORE, [k, 0])
        no("many subject %d last" % k, 5, 0, WRAP, STORE, [0, k])
        no("many subject %d between" % k, 5, 0, WRAP, STORE, [0, k, 0])
    no("many and no node", 5, 0, SAME, [], [0], mark=0)
    no("many with a pattern as start", 5, 0, WRAP, STORE, [0, 1], start=3)
    no("many with a start outside", 5, 0, WRAP, STORE, [0, 1], start=6)
    no("many with a binding above the mark", 5, 0, WRAP, STORE, [0, 1], bound=[(0, 3)])
    # the order: 2, 13 to 17, 4, 10, 11, 5
    bad = [(1, 18, 2)]
    worse = [(0, 9, 1)] + bad
    other = [U, U, U, U, U, 2, U, U, 1]
    no("many 4 before 5", 4, 2, WRAP, STORE, [3], words=bad)
    no("many 14 before 4", 14, 1, WRAP, STORE, [3], words=worse)
    no("many 2 before 14", 2, 0, WRAP, STORE, [3], words=worse, results=4)
    no("many 2 of the bindings before 14", 2, 0, WRAP, STORE, [3], words=worse, blen=63)
    no("many signed 11 before 5", 11, 0, SAME, STORE, [3], signature=other)
    no("many signed 10 before 11", 10, 3, WRAP, STORE, [3], signature=other)
    no("many signed 4 before 10", 4, 2, WRAP, STORE, [3], signature=other, words=bad)
    no("many signed 14 before 4", 14, 1, WRAP, STORE, [3], signature=other, words=worse)
    no("many signed 2 before 14", 2, 0, WRAP, STORE, [3], signature=[8], words=worse)
    no("many signed 2 of the results", 2, 0, WRAP, STORE, [3], signature=other, words=worse, results=6)
    no("many signed 2 of both", 2, 0, WRAP, STORE, [3], signature=[8], words=worse, results=6)
    no("many signed 2 of the table", 2, 0, (), STORE, [3], signature=[8], tlen=0, results=6)
    no("many signed 5 of a subject", 5, 0, WRAP, STORE, [0, 3], signature=SMALL)
    no("many signed 5 of the start", 5, 0, WRAP, STORE, [0], signature=SMALL, start=3)
    no("many signed with an empty list", 11, 0, SAME, STORE, [0], signature=[])
    no("many signed with 65537 words", 2, 0, SAME, STORE, [0], signature=[U] * 65537)


def signed():
    holds("many signed ID", [[0, 0, k, 3, 1] for k in (0, 1, 2)], SAME, STORE, [0, 1, 2], signature=SMALL)
    holds("many signed done and failed", [[0, 0, 4, 5, 6], [1, 3, 1, 5, 3], [0, 0, 6, 7, 6]], WRAP, STORE, [0, 1, 0], signature=SMALL)
    holds("many signed cut off", [[6, 0, 1, 3, 10], [0, 0, 4, 5, 7], [6, 0, 2, 5, 10]], LOOPS, STORE, [1, 0, 2], signature=SMALL, units=10)
    holds("many signed without room", [[7, 0, 0, 3, 6], [1, 3, 2, 3, 3]], WRAP, STORE, [0, 2], signature=SMALL, room=3)
    holds("many signed with 65536 words", [[0, 0, 4, 5, 6]], WRAP, STORE, [0], signature=SMALL + [U] * (65536 - len(SMALL)))
    case("many signed CONG", [entry(CONG, 5, 1, 1), entry(ID)], STORE, [2, 0, 2], signature=SMALL)


def mixed(r, k):
    """Random stores, tables, subjects and limits; now and then something that is refused."""
    counts = [0] + [r.randrange(3) for _ in range(3)]
    rows = []
    for j in range(1 + r.randrange(7)):
        c = r.randrange(4) if j else 0
        rows.append([c, counts[c], *[r.randrange(j) for _ in range(counts[c])]])
    c = r.randrange(4)
    table = [entry(LEFT, 0, 1, r.choice([2, 4])), entry(SEQ, 0, 3, 5), entry(ALL, 0, 4), entry(MATCH, 0, 6),
             entry(*r.choice([(ID,), (FAIL,), (WHERE, 0, 5), (SOME, 0, 5), (MATCH, 0, 8)])), entry(BUILD, 0, 7),
             entry(PCON, c, *[8] * counts[c]), entry(PCON, 3, *[9] * counts[3]), entry(PVAR, r.randrange(2)), entry(PCON, 0)]
    subjects = [r.randrange(len(rows) + (r.random() < 0.06)) for _ in range(r.choice([0, 1, 2, 3, 5, 8]))]
    signature = list(counts) if r.random() < 0.4 else None
    if signature and r.random() < 0.25:
        signature[r.randrange(4)] = r.choice([0, 1, 2, 7, 8])
    words = [(1, r.randrange(8 * len(rows)), r.choice([0, 1, 7, 65536]))] if r.random() < 0.1 else []
    case("many mixed %d" % k, table, rows, subjects, signature=signature, start=r.choice([0, 0, 0, 0, 1, 2, 6]), units=r.choice([4, 9, 99]),
         room=len(rows) + r.randrange(9), bound=[(v, r.randrange(len(rows))) for v in range(2) if r.random() < 0.3], words=words,
         results=5 * len(subjects) + r.choice([-5, -1, 1, 5]) if subjects and r.random() < 0.06 else None)


def write():
    accepted()
    none()
    refused()
    signed()
    r = random.Random(1)
    for k in range(160):
        mixed(r, k)
