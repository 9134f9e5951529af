"""The cases of the run with counts, also with a signature behind the table and with an index behind the store's words. Every word behind the mark is
the greatest before the call, those of the index too.
"""
import random

from lend import add, lend, memory, rows_of, say, shown, summed
from model import (ALL, BUILD, CALL, CHOICE, CONG, FAIL, ID, LEFT, MATCH, MOST, MOST_COUNT, NOT, ONE, PATH, PCON, PVAR, REC, SCOPE, SEQ, SOME, TEST, VARIABLES,
                   WHERE, entry, run, run_counted)
from steps import DEEP, KINDS, LOOP, S6, SMALL, STORE

U = 7
GREATEST = 2**64 - 1
labels = set()


def halves(word):
    """The upper half and the lower one of a word of 64 bits."""
    return [word >> 32, word & MOST]


def bytes_of(numbers, patches, own, counts, each, label):
    """A case: the eleven numbers before the patches, the patches, the words of the store, which the index stands behind; the length of the counts, what
    each of them is, and those that are another; and the label.
    """
    others = [(i, w) for i, w in enumerate(counts) if w != each]
    words = [*numbers, len(patches), *[x for p in patches for x in p], own, len(counts), *halves(each), len(others)]
    words += [x for i, w in others for x in [i, *halves(w)]]
    return (" ".join(map(str, words)) + " " + label).encode()


def answer_of(label, numbers, s, b, counts):
    tail = shown(counts) if len(counts) <= 512 else " %d" % summed(counts)
    return ("%s%s :%s\n" % (say(label, *numbers)[:-1].decode(), memory(s, b), tail)).encode()


def tag_of(signed, indexed):
    return "vxyz"[signed + 2 * indexed]


def case(label, table, store, *, counts=None, each=0, signature=None, index=None, mark=None, room=None, start=0, subject=None, units=1000, blen=VARIABLES, bound=(),
         tlen=None, slen=None, fill=1, head=(0, 0, 0)):
    """table and store: rows. counts: those that are lent, where they are not four of `each` for each entry. index: how many words it has. The seven
    numbers, and what each entry's counts have grown by.
    """
    assert label not in labels, label
    labels.add(label)
    mark = len(store) if mark is None else mark
    subject = (mark - 1 if mark else 0) if subject is None else subject
    at = 8 * len(table) if tlen is None else tlen
    own = 8 * (mark + 6 if room is None else room) if slen is None else slen
    counts = [each] * (4 * (at // 8)) if counts is None else counts
    patches = rows_of(0, table) + rows_of(1, store, fill > 1) + [(2, v, k + 1) for v, k in bound]
    size = index or 0
    t, s, b, _ = lend(label, table=at, store=own + size, bindings=blen, mark=mark, fill=fill, head=head, patches=patches)
    s, x = s[:own], s[own:]
    behind = signature or []
    patches += [(0, at + c, n) for c, n in enumerate(behind) if n != U]
    if signature is not None:
        fill, head = fill + 16, (0, at, U)
    lent = None if index is None else x
    seven, after, left, grown = run_counted(t, s, b, mark, start, subject, units, counts, signature, lent)
    ran = seven[0] in (0, 1, 6, 7, 8, 12)
    x = [0] * size if ran else x
    numbers = [at + len(behind), own + size, blen, mark, start, subject, units, fill, *head]
    body = bytes_of(numbers, patches, own, counts, each, label)
    add(tag_of(signature is not None, index is not None), body, answer_of(label, seven, after + x, left, grown))
    added = [b - a for a, b in zip(counts, grown)]
    fours = [added[i:i + 4] for i in range(0, len(added), 4)]
    if ran:
        # It is the run; the visits make the units, and successes, failures and visits in flight make an entry's visits.
        five, ended, names = run(t, s, b, mark, start, subject, units, signature, index=lent)
        assert seven[:5] == five and after == ended and left == names, label
        assert sum(four[0] for four in fours) + seven[5] + seven[6] == seven[4], label
        assert all(four[0] == sum(four[1:]) for four in fours), label
        assert seven[0] > 1 or all(four[3] == 0 for four in fours), label
    else:
        assert after == s and left == b and grown == counts and seven[4:] == [0, 0, 0], label
    return seven, fours


def holds(label, seven, fours, *rest, **more):
    """A run whose seven numbers and what it adds to each entry are written by hand. An entry that is left out has no visit."""
    got, added = case(label, *rest, **more)
    assert got == seven, (label, got)
    assert [added[e] for e in fours] == [list(four) for four in fours.values()], (label, added)
    assert all(e in fours or four == [0, 0, 0, 0] for e, four in enumerate(added)), (label, added)


WON, LOST, FLYING = (1, 1, 0, 0), (1, 0, 1, 0), (1, 0, 0, 1)
X, Y = entry(PVAR, 0), entry(PVAR, 1)
TWICE = [entry(MATCH, 0, 1), entry(PCON, 5, 2, 2), X]
NINE = [entry(WHERE, 0, 1), entry(BUILD, 0, 2), entry(PCON, 9)]


def by_hand():
    """Every sentence of the wish, with its numbers."""
    # Visits, successes and failures, a caught failure's too; a pattern's entry has none.
    holds("counted done", [0, 0, 2, 3, 6, 1, 0], {0: WON, 1: LOST, 2: WON, 3: WON, 4: LOST}, S6, STORE)
    holds("counted failed", [1, 4096, 2, 3, 2, 0, 0], {0: LOST, 1: WON}, [entry(NOT, 0, 1), entry(ID)], STORE)
    holds("counted caught by NOT", [0, 0, 2, 3, 2, 0, 0], {0: WON, 1: LOST}, [entry(NOT, 0, 1), entry(FAIL)], STORE)
    holds("counted caught by SOME", [0, 0, 3, 4, 5, 2, 0], {0: WON, 1: (2, 1, 1, 0)}, [entry(SOME, 0, 1), entry(MATCH, 0, 2), entry(PCON, 1)], STORE)
    holds("counted given back by TEST", [0, 0, 2, 3, 3, 1, 0], {0: WON, 1: WON}, [entry(TEST, 0, 1), entry(BUILD, 0, 2), entry(PCON, 9)], STORE)
    # Pattern visits and pair visits.
    holds("counted pair", [1, 2, 2, 3, 5, 3, 1], {0: LOST}, TWICE, STORE)
    holds("counted pairs", [0, 0, 6, 7, 7, 3, 3], {0: WON}, TWICE, DEEP)
    holds("counted patterns of a BUILD", [0, 0, 5, 6, 4, 3, 0], {0: WON}, [entry(BUILD, 0, 1), entry(PCON, 5, 2, 2), entry(PCON, 9)], STORE)
    # In flight at each cut-off. A visit that 6 or 8 refuses is none, and the one that asked for it is in flight.
    pair = [entry(SEQ, 0, 1, 2), entry(ID), entry(FAIL)]
    holds("counted 6 before all", [6, 0, 2, 3, 0, 0, 0], {}, pair, STORE, units=0)
    holds("counted 6 after one", [6, 0, 2, 3, 1, 0, 0], {0: FLYING}, pair, STORE, units=1)
    holds("counted 6 after two", [6, 0, 2, 3, 2, 0, 0], {0: FLYING, 1: WON}, pair, STORE, units=2)
    holds("counted as many units as it takes", [1, 4096, 2, 3, 3, 0, 0], {0: LOST, 1: WON, 2: LOST}, pair, STORE, units=3)
    holds("counted 6 in a pattern", [6, 0, 2, 3, 3, 2, 0], {0: FLYING}, TWICE, STORE, units=3)
    holds("counted 6 before a pair", [6, 0, 2, 3, 4, 3, 0], {0: FLYING}, TWICE, STORE, units=4)
    holds("counted 6 among pairs", [6, 0, 6, 7, 6, 3, 2], {0: FLYING}, TWICE, DEEP, units=6)
    holds("counted 7", [7, 0, 2, 3, 3, 1, 0], {0: FLYING, 1: FLYING}, NINE, STORE, room=3)
    holds("counted 7 of ALL", [7, 0, 2, 3, 3, 0, 0], {0: FLYING, 1: (2, 2, 0, 0)}, [entry(ALL, 0, 1), entry(ID)], STORE, room=3)
    holds("counted 7 is not caught", [7, 0, 2, 3, 4, 1, 0], {0: FLYING, 1: FLYING, 2: FLYING}, [entry(LEFT, 0, 1, 4), entry(NOT, 0, 2), entry(BUILD, 0, 3), entry(PCON, 9), entry(ID)],
          STORE, room=3)
    half = (2048, 0, 0, 2048)
    holds("counted 8", [8, 0, 2, 3, 4096, 0, 0], {0: half, 1: half}, LOOP, STORE, units=5000)
    holds("counted 6 before 8", [6, 0, 2, 3, 4096, 0, 0], {0: half, 1: half}, LOOP, STORE, units=4096)
    holds("counted 6 of a loop", [6, 0, 2, 3, 7, 0, 0], {0: (4, 0, 0, 4), 1: (3, 0, 0, 3)}, LOOP, STORE, units=7)
    holds("counted 12", [12, 40, 2, 3, 3, 1, 0], {0: FLYING, 1: FLYING}, [entry(NOT, 0, 1), entry(BUILD, 0, 2), entry(PVAR, 40)], STORE)
    holds("counted 12 after a failure", [12, 0, 2, 3, 5, 1, 0], {0: FLYING, 1: LOST, 2: FLYING, 3: FLYING},
          [entry(LEFT, 0, 1, 2), entry(FAIL), entry(TEST, 0, 3), entry(BUILD, 0, 4), X], STORE)
    # Several visits of one entry are open at once, and others of it have ended.
    down = [entry(REC, 0, 1), entry(ALL, 0, 2), entry(CALL, 0, 0)]
    holds("counted in flight and ended at one entry", [6, 0, 2, 3, 6, 0, 0], {0: (2, 1, 0, 1), 1: (2, 1, 0, 1), 2: (2, 1, 0, 1)}, down, STORE, units=6)


def adding():
    """A run adds to what is lent."""
    before = [10 * i for i in range(24)]
    seven, fours = case("counted on counts that are not zero", S6, STORE, counts=before)
    assert fours[0] == list(WON) and fours[5] == [0, 0, 0, 0]
    holds("counted on the highest counts", [0, 0, 2, 3, 6, 1, 0], {0: WON, 1: LOST, 2: WON, 3: WON, 4: LOST}, S6, STORE, each=MOST_COUNT)
    holds("counted on the highest, in flight", [6, 0, 2, 3, 1, 0, 0], {0: FLYING}, S6, STORE, each=MOST_COUNT, units=1)
    holds("counted with one at the limit", [0, 0, 2, 3, 1, 0, 0], {0: WON}, [entry(ID)], STORE, counts=[0, MOST_COUNT, 0, 0])
    holds("counted beyond 32 bits", [0, 0, 2, 3, 1, 0, 0], {0: WON}, [entry(ID)], STORE, counts=[MOST, 2**32, 0, 0])


def every_kind():
    for name, table in KINDS.items():
        case("counted %s" % name, table, STORE)
        for units in range(1, 9):
            case("counted %s with %d units" % (name, units), table, STORE, units=units, each=units)
        case("counted %s without room" % name, table, STORE, room=3)
        case("counted %s on a constant" % name, table, STORE, subject=0)
        case("counted %s with x bound" % name, table, STORE, bound=[(0, 1), (63, 2)])
        case("counted %s with an index" % name, table, STORE, index=18)
        case("counted %s with a full store and an index" % name, table, STORE, room=3, index=6)
    # All kinds stand in one table, of which a run takes one.
    whole, starts = [], {}
    for name, table in KINDS.items():
        starts[name] = len(whole)
        for kind, *words in table:
            operands = kind % 16
            first = 2 if kind // 16 == SCOPE else 1
            whole.append([kind, *words[:first], *[w + starts[name] for w in words[first:first + operands]]])
    for name, start in starts.items():
        case("counted %s in a table of all" % name, whole, STORE, start=start)


def deepest():
    """All 4,096 levels."""
    chain = {"fill": 3, "mark": 5000, "room": 5000}
    down = [entry(REC, 0, 1), entry(ALL, 0, 2), entry(CALL, 0, 0)]
    case("counted ALL down a chain", down, {}, units=40000, subject=1300, **chain)
    case("counted ALL down a long chain", down, {}, units=40000, subject=2000, **chain)
    case("counted pairs down a chain", [entry(MATCH, 0, 1), X], {}, subject=4999, bound=[(0, 4999)], units=5000, **chain)
    case("counted TESTs in a table of 4,096", {4095: entry(ID)}, STORE, tlen=32768, head=(16 * TEST + 1, 0, 0), units=5000)
    case("counted TESTs in a table of 4,096 by 4,095", {4095: entry(ID)}, STORE, tlen=32768, head=(16 * TEST + 1, 0, 0), units=4095, each=3)


def signed_and_indexed():
    obeying = {"signature": SMALL}
    swap = KINDS["SEQ"]
    holds("counted with a signature", [0, 0, 3, 4, 10, 6, 0], {e: WON for e in range(4)}, swap, STORE, **obeying)
    holds("counted with an index", [0, 0, 3, 4, 10, 6, 0], {e: WON for e in range(4)}, swap, STORE, index=18)
    holds("counted with both", [0, 0, 3, 4, 10, 6, 0], {e: WON for e in range(4)}, swap, STORE, index=19, **obeying)
    # The pair stands: no node is made, and the visits are the same.
    full = [entry(ALL, 0, 1), entry(ID)]
    holds("counted ALL finds the node", [0, 0, 2, 3, 3, 0, 0], {0: WON, 1: (2, 2, 0, 0)}, full, STORE, room=3, index=6)
    holds("counted ALL with both finds the node", [0, 0, 2, 3, 3, 0, 0], {0: WON, 1: (2, 2, 0, 0)}, full, STORE, room=3, index=6, **obeying)
    holds("counted 7 with an index", [7, 0, 2, 3, 3, 1, 0], {0: FLYING, 1: FLYING}, NINE, STORE, room=3, index=6)
    # Room given back is forgotten.
    three = [entry(LEFT, 0, 1, 4), entry(SEQ, 0, 2, 3), entry(BUILD, 0, 5), entry(FAIL), entry(BUILD, 0, 5), entry(PCON, 3)]
    holds("counted index forgets what a failure gave back", [0, 0, 3, 4, 7, 2, 0], {0: WON, 1: LOST, 2: WON, 3: LOST, 4: WON}, three, STORE, index=18)
    holds("counted pairs of one node", [0, 0, 2, 3, 6, 3, 2], {0: WON}, TWICE, [[1], [4, 1, 0], [5, 2, 1, 1]], index=18)
    case("counted down a chain with an index", [entry(REC, 0, 1), entry(ALL, 0, 2), entry(CALL, 0, 0)], [], mark=64, room=70, fill=3, index=140)


def refused():
    def no(label, answer, place, *rest, **more):
        seven, _ = case(label, *rest, **more)
        assert seven[:2] == [answer, place], (label, seven)
    high = MOST_COUNT + 1
    one = [entry(ID)]
    # 2: a list that has not four words for each entry, pattern entries too.
    for length in (0, 1, 3, 5, 6, 7, 23, 25, 28, 48):
        no("2 counts of %d words" % length, 2, 0, S6, STORE, counts=[1] * length)
    no("2 counts of the strategies alone", 2, 0, S6, STORE, counts=[0] * 20)
    no("2 no counts for one entry", 2, 0, one, STORE, counts=[])
    no("2 counts of three words", 2, 0, one, STORE, counts=[0] * 3)
    no("2 counts of five words", 2, 0, one, STORE, counts=[0] * 5)
    no("2 a table of nine words with counts for one entry", 2, 0, one, STORE, tlen=9)
    no("2 an empty table and no counts", 2, 0, [], STORE)
    no("2 counts with an index", 2, 0, one, STORE, counts=[0] * 5, index=18)
    no("2 counts with a signature", 2, 0, one, STORE, counts=[0] * 5, signature=SMALL)
    no("2 counts with both", 2, 0, one, STORE, counts=[0] * 3, index=18, signature=SMALL)
    no("2 counted bindings", 2, 0, one, STORE, blen=63)
    no("2 counted mark", 2, 0, one, [], mark=4, slen=24)
    no("2 counted store", 2, 0, one, STORE, slen=25)
    no("2 counted signature", 2, 0, one, STORE, signature=[8])
    no("2 counted index", 2, 0, one, STORE, room=3, index=5)
    # The other refusals, each with a count that is too high, which comes last.
    too = {"each": high}
    no("2 before 24", 2, 0, one, STORE, counts=[high] * 3)
    no("13 counted", 13, 1, [entry(ID), [16 * 20]], STORE, **too)
    no("14 counted", 14, 0, [entry(PATH, 7, 1), entry(ID)], STORE, **too)
    no("15 counted", 15, 0, [entry(TEST, 0, 1)], STORE, **too)
    no("16 counted", 16, 0, [entry(MATCH, 0, 1), entry(ID)], STORE, **too)
    no("17 counted", 17, 0, [[0, 0, 0, 0, 0, 0, 0, 1]], STORE, **too)
    no("4 counted", 4, 1, one, [[1], [2, 1, 1]], **too)
    no("10 counted", 10, 0, [entry(CONG, 5)], STORE, signature=SMALL, **too)
    no("11 counted", 11, 2, one, STORE, signature=SMALL[:5], **too)
    no("21 counted", 21, 1, one, [[1], [1]], index=16, **too)
    no("5 counted start", 5, 0, S6, STORE, start=5, **too)
    no("5 counted start outside", 5, 0, S6, STORE, start=6, **too)
    no("5 counted subject", 5, 0, one, STORE, subject=3, **too)
    no("5 counted binding", 5, 0, one, STORE, bound=[(63, 3)], **too)
    # 24: the lowest entry with a word above the limit, whichever of its words it is, a pattern's entry too.
    for word in range(24):
        counts = [MOST_COUNT] * 24
        counts[word] = high
        no("24 at word %d" % word, 24, word // 4, S6, STORE, counts=counts)
    no("24 at the lowest of several", 24, 2, S6, STORE, counts=[0] * 9 + [high, 0, 0, GREATEST] + [0] * 10 + [high])
    no("24 at the greatest word", 24, 0, one, STORE, counts=[0, 0, 0, GREATEST])
    no("24 without units", 24, 0, one, STORE, counts=[high, 0, 0, 0], units=0)
    no("24 with an index", 24, 0, one, STORE, index=18, **too)
    no("24 with a signature", 24, 0, one, STORE, signature=SMALL, **too)
    no("24 with both", 24, 0, one, STORE, index=18, signature=SMALL, **too)
    # The order of all: one fault after the other is mended.
    bad = {"start": 9, "signature": SMALL[:5], "index": 18, "counts": [high] * 12}
    table, store = [entry(CONG, 5, 1), entry(ID), [0, 1]], [[1], [1], [70000]]
    no("the order: 2 of the counts", 2, 0, table, store, **{**bad, "counts": [high] * 11})
    no("the order: 14", 14, 2, table, store, **bad)
    table = table[:2] + [entry(ID)]
    no("the order: 4", 4, 2, table, store, **bad)
    store = store[:2] + [[5, 2, 0, 1]]
    no("the order: 10", 10, 0, table, store, **bad)
    table = [entry(ID)] * 3
    no("the order: 11", 11, 2, table, store, **bad)
    bad["signature"] = SMALL
    no("the order: 21", 21, 1, table, store, **bad)
    store = STORE
    no("the order: 5", 5, 0, table, store, **bad)
    del bad["start"]
    no("the order: 24", 24, 0, table, store, **bad)
    bad["counts"] = [MOST_COUNT] * 12
    no("the order: the run", 0, 0, table, store, **bad)


def mixed(r, k):
    """Random strategies over a small store, on counts of all sizes."""
    n = 10 + r.randrange(10)
    table = []
    for e in range(n):
        strategy = lambda: r.choice([x for x in range(e + 1, n + 4) if x < n or x == n + 3])
        kind = r.choice([TEST, NOT, SEQ, SEQ, CHOICE, LEFT, LEFT, REC, PATH, CONG, ALL, ONE, SOME, MATCH, MATCH, BUILD, SCOPE, WHERE])
        if kind in (MATCH, BUILD):
            table.append(entry(kind, 0, n + r.randrange(3)))
        elif kind == CONG:
            table.append(entry(CONG, 5, strategy(), strategy()))
        else:
            argument = {PATH: 1 + r.randrange(2), SCOPE: r.choice([1, 2, 3, 2**33])}.get(kind, 0)
            table.append(entry(kind, argument, *[strategy() for _ in range(2 if kind in (SEQ, CHOICE, LEFT) else 1)]))
    table += [entry(PCON, 5, n + 1, n + 2), entry(PVAR, 0), entry(PVAR, r.choice([0, 1, 33])), entry(ID)]
    store = [[1], [2], [5, 2, 0, 1], [5, 2, 2, 2], [5, 2, 3, 0]]
    room = 5 + r.choice([0, 3, 30, 30])
    counts = [r.choice([0, 0, 1, MOST, 2**40, MOST_COUNT]) for _ in range(4 * len(table))]
    signature = SMALL if r.random() < 0.25 else None
    case("counted mixed %d" % k, table, store, counts=counts, subject=r.randrange(5), units=r.choice([5, 20, 200, 2000]), room=room, signature=signature,
         index=2 * room if r.random() < 0.25 else None, bound=[(0, r.randrange(5))] if r.random() < 0.3 else [])


def write():
    by_hand()
    adding()
    every_kind()
    deepest()
    signed_and_indexed()
    refused()
    r = random.Random(13)
    for k in range(200):
        mixed(r, k)
