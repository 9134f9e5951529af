"""The cases of the two checks."""
from lend import add, lend, rows_of, say
from model import (BUILD, CALL, CONG, ID, MATCH, MOST, NAMES, PATH, PCON, PVAR, REC, SEQ, TEST, arguments, check_store,
                   check_table, counts, entry)


def case(letter, length, mark, patches, label):
    """t and T: a table of zeros, and of TESTs each of the next. s and S: a store of zeros, and of nodes with six children."""
    if letter in "tT":
        t, _, _, body = lend(label, table=length, head=(33, 0, 0) if letter == "T" else (0, 0, 0), patches=[(0, *p) for p in patches])
        add("t", body, say(label, *check_table(t)))
    else:
        _, s, _, body = lend(label, store=length, mark=mark, fill=4 if letter == "S" else 0, patches=[(1, *p) for p in patches])
        add("s", body, say(label, *check_store(s, mark)))


def rows_case(letter, rows, mark, label):
    """rows: lists of at most eight words."""
    case(letter, 8 * len(rows), mark, [p[1:] for p in rows_of(0, rows)], label)


# Behind the entry under test stand: 1 ID, 2 PVAR 0, 3 REC of 4, 4 ID.
STAND = [entry(ID), entry(PVAR), entry(REC, 0, 4), entry(ID)]


def table(first, label, stand=STAND):
    rows_case("t", [first] + stand, 0, label)


def target(kind):
    return 3 if kind == CALL else 2 if kind in (MATCH, BUILD, PCON) else 1


def argument(kind):
    return arguments(kind)[0]


def operands(kind, n):
    return entry(kind, argument(kind), *[target(kind)] * min(n, 6), count=n)


def six(k):
    """Node k with six children, those just below it."""
    return [(8 * k + j, v) for j, v in enumerate([k % 65536, 6, k - 1, k - 2, k - 3, k - 4, k - 5, k - 6])]


def lengths():
    for n in (0, 7, 8, 9, 16, 32760, 32767, 32768, 32769, 32776):
        case("t", n, 0, [], "table of %d words" % n)
    case("T", 32768, 0, [], "4096 entries in use")
    case("T", 32776, 0, [], "4097 entries in use")
    case("T", 32768, 0, [(8 * 4095, MOST)], "4096 entries, the last of no kind")
    case("T", 32768, 0, [(8 * 4095 + 7, 1)], "4096 entries, the last word not zero")
    case("T", 32768, 0, [(8 * 4094 + 2, 4096)], "4096 entries, an operand one past the last")
    for n, mark in ((0, 0), (0, 1), (7, 0), (8, 0), (8, 1), (8, 2), (9, 0), (8, MOST), (1048568, 131071), (1048568, 131072),
                    (1048575, 0), (1048576, 0), (1048576, 131072), (1048576, 131073), (1048577, 0), (1048584, 0),
                    (1048584, 131073)):
        case("s", n, mark, [], "store of %d words, mark %d" % (n, mark))
    case("S", 1048576, 131072, [], "131072 nodes in use")
    case("S", 1048584, 131072, six(131072), "131073 nodes in use")
    case("S", 1048576, 131072, [(1048575, 131071)], "131072 nodes, the last its own child")
    case("S", 1048576, 131072, [(1048575, 131070)], "131072 nodes, the last with its last child just below")
    case("S", 1048576, 131071, six(131071) + [(1048568, 65536)], "131072 nodes, the bad last one at the mark")
    case("S", 1048576, 131072, [(1048568, 65536)], "131072 nodes, the bad last one below the mark")


def kinds():
    for kind, name in enumerate(NAMES):
        low, high = counts(kind)
        for n in sorted({low - 1, low, high, high + 1, 15} - {-1}):
            table(operands(kind, n), "%s with %d operands" % (name, n))
    for kind in (20, 21, 255, 2**28 - 1):
        table(entry(kind), "kind %d" % kind)
    for kind in (20, 2**28 - 1):
        table(entry(kind, 0, 1), "kind %d with an operand" % kind)


def limits_of_arguments():
    for kind, name in enumerate(NAMES):
        low, high = arguments(kind)
        for a in sorted({0, 1, low, high, high + 1, MOST} - {MOST + 1}):
            table(entry(kind, a, *[target(kind)] * counts(kind)[0]), "%s argument %d" % (name, a))
    for a in (2, 3, 4, 5):
        table(entry(PATH, a, 1), "PATH argument %d" % a)


def places():
    table(entry(CALL, 0, 3), "CALL of a REC above")
    rows_case("t", [entry(REC, 0, 1), entry(CALL, 0, 0)], 0, "CALL of a REC below")
    rows_case("t", [entry(CALL, 0, 0)], 0, "CALL of itself")
    for o, what in ((1, "an ID"), (2, "a PVAR")):
        table(entry(CALL, 0, o), "CALL of %s" % what)
    table(entry(CALL, 0, 5), "CALL one past the table")
    table(entry(CALL, 0, MOST), "CALL far past the table")
    rows_case("t", [entry(CALL, 0, 1), entry(REC, 7, 2), entry(ID)], 0, "CALL of a REC that is bad")
    rows_case("t", [entry(CALL, 0, 1), entry(REC, 0, count=15), entry(ID)], 0, "CALL of a REC with 15 operands")
    for o in (0, 1, 2, 3, MOST):
        what = {0: "below", 1: "its own entry", 2: "the last entry", 3: "one past the table", MOST: "far past the table"}[o]
        rows_case("t", [entry(ID), entry(TEST, 0, o), entry(ID)], 0, "operand " + what)
        rows_case("t", [entry(ID), entry(SEQ, 0, 2, o), entry(ID)], 0, "second operand " + what)
    rows_case("t", [entry(PVAR), entry(PCON, 1, 2, 2, 2, 2, 2, 1), entry(PVAR)], 0, "sixth operand its own entry")
    rows_case("t", [entry(PVAR), entry(PCON, 1, 2, 2, 2, 2, 2, 2), entry(PVAR)], 0, "sixth operand the last entry")


def sorts():
    for kind, name in enumerate(NAMES):
        if counts(kind)[1] and kind != CALL:
            for o in (1, 2, 3):
                n = max(counts(kind)[0], 1)
                table(entry(kind, argument(kind), *[o] * n), "%s of %s" % (name, {1: "an ID", 2: "a PVAR", 3: "a REC"}[o]))
    table(entry(SEQ, 0, 1, 2), "SEQ of an ID and a PVAR")
    table(entry(PCON, 0, 2, 1), "PCON of a PVAR and an ID")
    for kind in (17, 18, 19, 20, 2**28 - 1):
        for user in (TEST, MATCH):
            rows_case("t", [entry(user, 0, 1), entry(kind, 0, *[2] if kind == 17 else []), entry(ID)], 0,
                      "%s of kind %d" % (NAMES[user], kind))


def unused():
    for kind, n in ((ID, 0), (TEST, 1), (SEQ, 2), (CALL, 1), (CONG, 0), (CONG, 3), (CONG, 5), (PVAR, 0), (PCON, 5)):
        for j in range(2 + n, 8):
            first = operands(kind, n)
            first += [0] * (8 - len(first))
            first[j] = 1 if j % 2 else MOST
            table(first, "%s with %d operands, word %d not zero" % (NAMES[kind], n, j))


def lowest():
    case("t", 80, 0, [(8 * 7 + 1, 1), (8 * 5, MOST), (8 * 9 + 7, 1)], "bad entries 7, 5 and 9")
    case("t", 80, 0, [(8 * 9, 320), (1, 1)], "bad entries 9 and 0")
    case("T", 32768, 0, [(8 * 4095 + 1, 1), (8 * 4000 + 3, 1), (8 * 2048 + 2, 5)], "bad entries 4095, 4000 and 2048")
    case("t", 80, 0, [(8 * 4, 33), (8 * 4 + 2, 6), (8 * 6, 320)], "entry 4 uses entry 6, which has no kind")
    case("t", 80, 0, [(8 * 4, 33), (8 * 4 + 2, 6), (8 * 6 + 1, 1)], "entry 4 uses entry 6, which is bad otherwise")
    case("s", 80, 10, [(8 * 7 + 1, 7), (8 * 5, 65536), (8 * 9 + 7, 1)], "bad nodes 7, 5 and 9")
    case("S", 1048576, 131072, [(8 * 131071 + 1, 7), (8 * 70000 + 2, 70000), (8 * 70001, MOST)], "bad nodes 131071, 70000 and 70001")


def faults():
    """Entries with several faults: the first in the order of 13 to 17 is given, each asked of the whole entry."""
    rest = [9, 9, 9, 9]
    for first, what in (([16 * 20, 9, 9, 9] + rest, "no kind, and all else"), ([16 * SEQ + 3, 9, 9, 9] + rest, "count, and all else"),
                        ([16 * SEQ + 2, 9, 9, 9] + rest, "argument, operands and unused words"),
                        ([16 * SEQ + 2, 0, 2, 9] + rest, "a wrong sort, then outside the table, unused words"),
                        ([16 * SEQ + 2, 0, 9, 2] + rest, "outside the table, then a wrong sort, unused words"),
                        ([16 * SEQ + 2, 0, 2, 0] + rest, "a wrong sort, then its own entry, unused words"),
                        ([16 * SEQ + 2, 0, 1, 2] + rest, "the second of a wrong sort, unused words"),
                        ([16 * CALL + 1, 0, 9, 9] + rest, "a CALL outside, unused words"),
                        ([16 * CALL + 1, 0, 0, 9] + rest, "a CALL of itself, unused words"),
                        ([16 * CALL + 1, 9, 3, 9] + rest, "a CALL with an argument, unused words"),
                        ([16 * SEQ + 2, 0, 1, 1] + rest, "unused words alone"),
                        ([16 * PCON + 6, 1, 2, 2, 1, 2, 2, 9], "PCON: third of a wrong sort, sixth outside"),
                        ([16 * PCON + 6, 65536, 2, 2, 1, 2, 2, 9], "PCON: and its constructor"),
                        ([16 * PCON + 7, 65536, 2, 2, 1, 2, 2, 9], "PCON: and its count")):
        table(first, "faults: " + what)
    for e, f in ((3, 7), (7, 3)):
        case("t", 80, 0, [(8 * e, 320), (8 * f + 7, 1)], "no kind at %d, an unused word at %d" % (e, f))


def nodes():
    low = [[0], [1], [2], [3], [4], [5]]
    for n in range(8):
        rows_case("s", low + [[9, n, 5, 4, 3, 2, 1, 0][:2 + n]], 7, "node with %d children" % n)
    rows_case("s", low + [[9, 15, 5, 4, 3, 2, 1, 1]], 7, "node with 15 children")
    rows_case("s", low + [[9, MOST]], 7, "node with %d children" % MOST)
    for c in (65535, 65536, MOST):
        rows_case("s", [[c]], 1, "constructor %d" % c)
    for c, what in ((5, "just below"), (6, "its own number"), (7, "above"), (MOST, "far above")):
        rows_case("s", low + [[9, 1, c], [8]], 8, "child " + what)
        rows_case("s", low + [[9, 6, 0, 0, 0, 0, 0, c], [8]], 8, "sixth child " + what)
    rows_case("s", [[9, 1, 0]], 1, "node 0 its own child")
    for n in range(6):
        for j in range(2 + n, 8):
            row = [9, n] + [1] * n + [0] * (6 - n)
            row[j] = 1 if j % 2 else MOST
            rows_case("s", low + [row], 7, "node with %d children, word %d not zero" % (n, j))
    junk = [[MOST] * 8] * 2
    rows_case("s", junk, 0, "mark 0 below bad nodes")
    rows_case("s", low + junk, 6, "bad nodes at the mark and above")
    rows_case("s", low + junk, 7, "bad node just below the mark")


def write():
    for part in (lengths, kinds, limits_of_arguments, places, sorts, unused, faults, lowest, nodes):
        part()
