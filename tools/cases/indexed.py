"""The cases of the run and of the call over many subjects with an index. The store's words and the index are lent as one slice; the number
behind HEAD says how many words are the store's. Every word behind the mark is the greatest before the call, those of the index too.
"""
from lend import add, lend, memory, rows_of, say
from many import bytes_of
from model import (ALL, BUILD, CALL, FAIL, ID, LEFT, MATCH, MOST, NOT, ONE, PCON, PVAR, REC, SEQ, SOME, TEST, VARIABLES, entry, run, run_many)


def lent(label, table, store, mark, start, subject, units, room, size, words, fill):
    """The slices of a case, the store's words and the index's apart, and the numbers and patches of its bytes."""
    own = 8 * room if words is None else words
    size = 2 * room if size is None else size
    patches = rows_of(0, table) + rows_of(1, store)
    t, s, b, _ = lend(label, table=8 * len(table), store=own + size, bindings=VARIABLES, mark=mark, start=start, subject=subject, units=units, fill=fill, patches=patches)
    numbers = [8 * len(table), own + size, VARIABLES, mark, start, subject, units, fill, 0, own, 0]
    return t, s[:own], s[own:], b, numbers, patches


def case(label, table, store, *, mark=None, room=None, start=0, subject=None, units=1000, size=None, words=None, fill=1):
    """size: the words of the index; words: those of the store, where they are not eight for each node of the room."""
    mark = len(store) if mark is None else mark
    subject = (mark - 1 if mark else 0) if subject is None else subject
    t, s, x, b, numbers, patches = lent(label, table, store, mark, start, subject, units, mark + 3 if room is None else room, size, words, fill)
    five, after, b = run(t, s, b, mark, start, subject, units, index=x)
    x = x if five[0] in (2, 4, 5, 21) or 12 < five[0] < 18 else [0] * len(x)
    body = " ".join(map(str, [*numbers, len(patches), *[n for p in patches for n in p]]))
    add("i", (body + " " + label).encode(), say(label, *five)[:-1] + memory(after + x, b).encode() + b"\n")
    return five


def many(label, table, store, subjects, *, mark=None, room=None, units=1000, size=None, results=None):
    mark = len(store) if mark is None else mark
    results = 5 * len(subjects) if results is None else results
    t, s, x, b, numbers, patches = lent(label, table, store, mark, 0, len(subjects), units, mark + 3 if room is None else room, size, None, 1)
    head, five, after = run_many(t, s, b, mark, 0, subjects, units, [MOST] * results, index=x)
    x = x if head[0] or not subjects else [0] * len(x)
    after = after if head[0] == 0 and subjects else s
    add("k", bytes_of(numbers, patches, results, subjects, label), say(label, *head, *five)[:-1] + memory(after + x, b).encode() + b"\n")
    return head, five


# Constants 1 and 2, and the pair 5(1, 2).
STORE = [[1], [2], [5, 2, 0, 1]]
ONES = [entry(BUILD, 0, 1), entry(PCON, 5, 2, 3), entry(PCON, 1), entry(PCON, 2)]
NEW = [entry(BUILD, 0, 1), entry(PCON, 5, 2, 2), entry(PCON, 3)]
X = entry(PVAR, 0)


def runs():
    assert case("indexed ID", [entry(ID)], STORE)[:4] == [0, 0, 2, 3]
    assert case("indexed build that stands", ONES, STORE) == [0, 0, 2, 3, 4]
    assert case("indexed build that stands in a full store", ONES, STORE, room=3) == [0, 0, 2, 3, 4]
    assert case("indexed build of new nodes", NEW, STORE) == [0, 0, 4, 5, 4]
    assert case("indexed build without room", NEW, STORE, room=4)[:4] == [7, 0, 2, 3]
    assert case("indexed ALL makes nothing", [entry(ALL, 0, 1), entry(ID)], STORE) == [0, 0, 2, 3, 3]
    for kind in (ONE, SOME):
        case("indexed %d" % kind, [entry(kind, 0, 1), entry(ID)], STORE)
    # Room given back is forgotten: the second 3() takes the number of the first.
    three = [entry(LEFT, 0, 1, 4), entry(SEQ, 0, 2, 3), entry(BUILD, 0, 5), entry(FAIL), entry(BUILD, 0, 5), entry(PCON, 3)]
    assert case("indexed forgets what a failure gave back", three, STORE)[:4] == [0, 0, 3, 4]
    case("indexed forgets what TEST gave back", [entry(SEQ, 0, 1, 3), entry(TEST, 0, 2), entry(BUILD, 0, 5), entry(BUILD, 0, 4), entry(PCON, 3), entry(PCON, 4)], STORE)
    case("indexed NOT of a build", [entry(LEFT, 0, 1, 2), entry(NOT, 0, 2), entry(BUILD, 0, 3), entry(PCON, 3)], STORE)
    # Equal numbers save no pair visits.
    same = [entry(MATCH, 0, 1), entry(PCON, 5, 2, 2), X]
    assert case("indexed pairs are counted", same, [[1], [4, 1, 0], [5, 2, 1, 1]]) == [0, 0, 2, 3, 6]
    assert case("indexed pairs cut off", same, [[1], [4, 1, 0], [5, 2, 1, 1]], units=5)[:2] == [6, 0]
    for units in range(5):
        case("indexed with %d units" % units, NEW, STORE, units=units)
    assert case("indexed too deep", [entry(REC, 0, 1), entry(CALL, 0, 0)], STORE, units=5000)[0] == 8
    assert case("indexed unbound", [entry(BUILD, 0, 1), X], STORE)[0] == 12
    case("indexed with a longer index", NEW, STORE, size=40)
    case("indexed down a chain", [entry(REC, 0, 1), entry(ALL, 0, 2), entry(CALL, 0, 0)], [], mark=64, room=70, fill=3)


def refusals():
    assert case("indexed with an index one short", [entry(ID)], STORE, size=11)[:2] == [2, 0]
    assert case("indexed with no index", [entry(ID)], STORE, size=0)[:2] == [2, 0]
    assert case("indexed with a store of 25 words", [entry(ID)], STORE, words=25, size=12)[:2] == [2, 0]
    assert case("indexed twins", [entry(ID)], [[1], [2], [1], [2]])[:2] == [21, 2]
    assert case("indexed twins of pairs", [entry(ID)], [[1], [5, 1, 0], [5, 1, 0]])[:2] == [21, 2]
    assert case("indexed twin above the mark", [entry(ID)], [[1], [2], [1]], mark=2)[:2] == [0, 0]
    assert case("indexed bad node before a twin", [entry(ID)], [[1], [1], [70000]])[:2] == [4, 2]
    assert case("indexed bad entry before a twin", [[999]], [[1], [1]])[0] == 13
    assert case("indexed twin before a bad start", [entry(ID)], [[1], [1]], start=9)[:2] == [21, 1]
    assert case("indexed bad start", [entry(ID)], STORE, subject=3)[:2] == [5, 0]
    assert case("indexed short before a twin", [entry(ID)], [[1], [1]], size=3)[:2] == [2, 0]


def calls():
    assert many("indexed many", NEW, STORE, [0, 1, 2])[1] == [0, 0, 4, 5, 4] * 3
    assert many("indexed many in turn", ONES, STORE, [2, 2], room=3)[1] == [0, 0, 2, 3, 4] * 2
    many("indexed many cut off", NEW, STORE, [0, 1, 2], room=4)
    many("indexed many of none", NEW, STORE, [])
    three = [entry(LEFT, 0, 1, 4), entry(SEQ, 0, 2, 3), entry(BUILD, 0, 5), entry(FAIL), entry(MATCH, 0, 6), entry(PCON, 3), entry(PCON, 2)]
    many("indexed many that fail and go on", three, STORE, [0, 1, 0, 1, 2], room=4)
    assert many("indexed many twins", NEW, [[1], [1]], [0])[0] == (21, 1)
    assert many("indexed many short", NEW, STORE, [0], size=11)[0] == (2, 0)
    assert many("indexed many with four results", NEW, STORE, [0], results=4)[0] == (2, 0)
    assert many("indexed many subject 3", NEW, STORE, [0, 3])[0] == (5, 0)


def write():
    runs()
    refusals()
    calls()
