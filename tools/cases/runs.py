"""The cases of the run. S1 to S12 are held to the answers that 01 prints, S12 and the place of a failed run to 02's."""
import itertools
import random

from lend import add, lend, memory, rows_of, say
from model import (ALL, BUILD, CALL, CHOICE, CONG, FAIL, ID, LEFT, MASK, MATCH, MOST, NAMES, NOT, ONE, PATH, PCON, PVAR, REC, SCOPE,
                   SEQ, SOME, TEST, VARIABLES, WHERE, counts, entry, run, sort)

labels = set()


def case(label, table=(), store=(), *, tlen=None, slen=None, blen=VARIABLES, mark=None, room=None, start=0, subject=None,
         units=1000, bound=(), fill=1, head=(0, 0, 0), words=()):
    """table and store: rows. bound: pairs of a variable and a node. words: further patches."""
    assert label not in labels, label
    labels.add(label)
    tlen = 8 * len(table) if tlen is None else tlen
    mark = len(store) if mark is None else mark
    slen = 8 * (mark + 2 if room is None else room) if slen is None else slen
    subject = (mark - 1 if mark else 0) if subject is None else subject
    if head[0]:
        table = {e: row + [0] * (4 - len(row)) for e, row in dict(table).items()}
    patches = rows_of(0, table, head[0]) + rows_of(1, store, fill > 1) + [(2, v, k + 1) for v, k in bound] + list(words)
    t, s, b, body = lend(label, table=tlen, store=slen, bindings=blen, mark=mark, start=start, subject=subject, units=units,
                         fill=fill, head=head, patches=patches)
    five, s, b = run(t, s, b, mark, start, subject, units)
    add("r", body, say(label, *five)[:-1] + memory(s, b).encode() + b"\n")
    return five, s, b


FLIP = [entry(SCOPE, 3, 1), entry(SEQ, 0, 2, 3), entry(MATCH, 0, 4), entry(BUILD, 0, 5), entry(PCON, 5, 6, 7),
        entry(PCON, 5, 7, 6), entry(PVAR, 0), entry(PVAR, 1)]
THREE = [[1], [2], [5, 2, 0, 1]]
X, Y = entry(PVAR, 0), entry(PVAR, 1)


def small_runs():
    """S1 to S12, held to what 01 prints, S12 to 02's 12, and the place of a failed run to 02's."""
    def s(label, table, answer, used, subject=2, mark=3, binds=(), store=THREE, new=(), given=2, place=0, **more):
        five, words, b = case(label, table, store, **{"fill": 0, "room": 6, "units": 100, "subject": given, **more})
        assert five == [answer, place, subject, mark, used], (label, five)
        assert b == [dict(binds).get(v, -1) + 1 for v in range(VARIABLES)], (label, b)
        assert words[24:24 + len(new)] == list(new) and not any(words[24 + len(new):]), (label, words)
    flipped = [5, 2, 1, 0]
    s("S1", FLIP, 0, 10, 3, 4, new=flipped, units=10, room=4)
    s("S2", FLIP, 6, 9, units=9, room=4)
    s("S3", FLIP, 7, 10, units=10, room=3)
    s("S4", [entry(MATCH, 0, 1), entry(PCON, 5, 2, 2), X], 1, 5, place=2)
    s("S5", [entry(MATCH, 0, 1), entry(PCON, 5, 2, 2), X], 0, 5, binds=[(0, 0)], store=[[1], [2], [5, 2, 0, 0]])
    s("S6", [entry(LEFT, 0, 1, 4), entry(SEQ, 0, 2, 3), entry(MATCH, 0, 5), entry(FAIL), entry(ID), X], 0, 6)
    s("S7 ALL", [entry(ALL, 0, 1), entry(FAIL)], 0, 1, 0, given=0)
    s("S7 ONE", [entry(ONE, 0, 1), entry(ID)], 1, 1, 0, given=0, place=4096)
    s("S8", [entry(SOME, 0, 1), entry(MATCH, 0, 2), entry(PCON, 1)], 0, 5, 3, 4, new=[5, 2, 0, 1])
    s("S9 PATH 3", [entry(PATH, 3, 1), entry(ID)], 1, 1, place=4096)
    s("S9 PATH 2", [entry(PATH, 2, 1), entry(ID)], 0, 2, 3, 4, new=[5, 2, 0, 1])
    s("S10 TEST", [entry(TEST, 0, 1), entry(MATCH, 0, 2), X], 0, 3)
    s("S10 WHERE", [entry(WHERE, 0, 1), entry(MATCH, 0, 2), X], 0, 3, binds=[(0, 2)])
    s("S11 7 units", [entry(REC, 0, 1), entry(CALL, 0, 0)], 6, 7, units=7)
    s("S11 5000 units", [entry(REC, 0, 1), entry(CALL, 0, 0)], 8, 4096, units=5000)
    s("S12", [entry(BUILD, 0, 1), X], 12, 2)


def refusals():
    ok, bad, node = [entry(ID)], [entry(ID), [16, 1]], [[1], [65536]]
    one = [(0, 0)]
    for n in (0, 7, 9, 32769, 32776):
        case("2 table of %d words" % n, (), THREE, tlen=n, bound=one)
    for n in (7, 9, 23, 25, 1048577, 1048584):
        case("2 store of %d words" % n, ok, mark=0, slen=n)
    for n in (0, 32, 63, 65, 72):
        case("2 bindings of %d words" % n, ok, THREE, blen=n, bound=one if n else ())
    case("2 mark one past the store", ok, mark=4, slen=24)
    case("2 mark far past the store", ok, mark=MOST, slen=24)
    case("2 empty store with mark 1", ok, mark=1, slen=0)
    for label, table in (
            ("kind 20", [entry(ID), entry(20)]), ("kind far above", [entry(ID), [MOST]]),
            ("operand missing", [entry(TEST, 0, 1), [16 * NOT]]), ("operand too many", [entry(ID),
                entry(ID, 0, 2), entry(ID)]),
            ("seven operands", [entry(ID), [16 * CONG + 7, 1, 2, 2, 2, 2, 2, 2], entry(ID)]),
            ("argument where none is named", [entry(ID), entry(FAIL, 1)]), ("PATH 0", [entry(PATH, 0, 1), entry(ID)]),
            ("PATH 7", [entry(PATH, 7, 1), entry(ID)]), ("variable 64", [entry(ID), entry(PVAR, VARIABLES)]),
            ("constructor 65536", [entry(CONG, 65536)]), ("operand its own entry", [entry(ID), entry(TEST, 0, 1)]),
            ("operand below", [entry(ID), entry(TEST, 0, 0)]), ("operand past the table", [entry(TEST, 0, 1)]),
            ("strategy of a pattern", [entry(TEST, 0, 1), X]), ("MATCH of a strategy", [entry(MATCH, 0, 1), entry(ID)]),
            ("PCON of a strategy", [entry(ID), entry(PCON, 1, 2),
                entry(ID)]), ("CALL of no REC", [entry(CALL, 0, 1), entry(ID)]),
            ("CALL past the table", [entry(CALL, 0, 1)]), ("unused word", [entry(ID), [0, 0, 0, 0, 0, 0, 0, 1]]),
            ("operand of no sort", [entry(TEST, 0, 1), entry(20)]), ("lowest of two", [entry(ID),
                entry(FAIL, 1), entry(20)])):
        case("3 " + label, table, THREE, bound=one)
    case("3 last of 4096 entries", {4095: [320]}, THREE, tlen=32768)
    for label, store in (
            ("constructor 65536", [[1], [65536]]), ("seven children", [[1], [1, 7]]), ("child its own number", [[1], [1, 1, 1]]),
            ("child above", [[1], [1, 1, 2], [1]]), ("unused word", [[1], [1, 1, 0, 1], [1]]), ("lowest of two", [[1], [65536], [65536]]),
            ("node 0 with a child", [[1, 1, 0]])):
        case("4 " + label, ok, store, subject=0, bound=one)
    case("4 last of 131072 nodes", ok, {131071: [65536]}, mark=131072, slen=1048576, fill=0)
    case("a bad node at the mark is no refusal", ok, [[1], [65536]], mark=1)
    for label, more in (("start past the table", dict(start=1)), ("start far past the table", dict(start=MOST)),
                        ("subject at the mark", dict(subject=3)), ("subject far above", dict(subject=MOST)),
                        ("a binding one past the mark", dict(words=[(2, 63, 4)])), ("a binding far above", dict(words=[(2, 0, MOST)]))):
        case("5 " + label, ok, THREE, **more)
    case("5 start a PVAR", [entry(ID), X], THREE, start=1)
    case("5 start a PCON", [entry(ID), entry(PCON, 1)], THREE, start=1)
    case("5 no nodes", ok, mark=0, slen=16)
    case("5 empty store", ok, mark=0, slen=0)
    case("a binding of the last node is no refusal", ok, THREE, bound=[(63, 2)])
    case("2 before 3", bad, THREE, mark=4, slen=24)
    case("2 before 4", ok, node, blen=32)
    case("2 before 5", ok, THREE, blen=65, start=1)
    case("3 before 4", bad, node)
    case("3 before 5", bad, THREE, start=9)
    case("4 before 5", ok, node, start=9)
    case("2 before 3, 4 and 5", bad, node, blen=0, start=9)
    case("3 before 4 and 5", bad, node, start=9, subject=9)


SIX = [[1], [2], [3], [4], [5], [6]]


def needed():
    """Small jobs of each kind, with one unit less than needed, as many, and one more; and with the room just missing."""
    jobs = {
        "ID": [entry(ID)], "FAIL": [entry(FAIL)], "TEST": [entry(TEST, 0, 1), entry(PATH, 1, 2), entry(ID)],
        "NOT": [entry(NOT, 0, 1), entry(PATH, 3, 2), entry(ID)], "NOT of a success": [entry(NOT, 0, 1),
            entry(PATH, 2, 2), entry(ID)],
        "SEQ": [entry(SEQ, 0, 1, 2), entry(PATH, 1, 3), entry(PATH, 2, 3), entry(ID)],
        "CHOICE": [entry(CHOICE, 0, 1, 2), entry(PATH, 3, 3), entry(PATH, 2, 3), entry(ID)],
        "LEFT": [entry(LEFT, 0, 1, 2), entry(SEQ, 0, 3, 4), entry(PATH, 2, 5), entry(PATH, 1, 5), entry(FAIL),
            entry(ID)],
        "REC": [entry(REC, 0, 1), entry(LEFT, 0, 2, 4), entry(ONE, 0, 3), entry(CALL, 0, 0), entry(ID)],
        "PATH": [entry(PATH, 2, 1), entry(WHERE, 0, 2), entry(MATCH, 0, 3), X],
        "CONG": [entry(CONG, 5, 1, 2), entry(ID), entry(MATCH, 0, 3), X], "ALL": [entry(ALL, 0, 1),
            entry(ALL, 0, 2), entry(FAIL)],
        "ONE": [entry(ONE, 0, 1), entry(MATCH, 0, 2), entry(PCON, 2)], "SOME": [entry(SOME, 0, 1),
            entry(MATCH, 0, 2), entry(PCON, 2)],
        "MATCH": [entry(MATCH, 0, 1), entry(PCON, 5, 2, 3), X, Y],
        "BUILD": [entry(BUILD, 0, 1), entry(PCON, 7, 2, 3, 2), entry(PCON, 1), entry(PCON, 8, 4, 4), entry(PVAR, 9)],
        "SCOPE": FLIP, "WHERE": [entry(WHERE, 0, 1), entry(SEQ, 0, 2, 3), entry(MATCH, 0, 4),
            entry(PATH, 1, 5), X, entry(ID)],
        "compare": [entry(SEQ, 0, 1, 1), entry(MATCH, 0, 2), entry(PCON, 5, 3, 4), X, Y],
    }
    for name, table in jobs.items():
        five, s, b = case(name + " with ample units", table, THREE, room=9, bound=[(9, 0)])
        used, made = five[4], five[3] - 3
        for n, what in ((0, "no units"), (used - 1, "one unit less"), (used, "its units"), (used + 1, "one unit more"), (MOST, "most units")):
            if n > 0 or used == 1 and what == "no units":
                case("%s with %s" % (name, what), table, THREE, units=n, bound=[(9, 0)])
        if made:
            case(name + " with one node too few", table, THREE, room=2 + made, bound=[(9, 0)])
            case(name + " with its room", table, THREE, room=3 + made, bound=[(9, 0)])
        case(name + " at a full store", table, THREE, room=3, bound=[(9, 0)])


def children():
    for n in range(7):
        store = SIX + [[9, n, *range(n)]]
        for name, table in (("ALL of ID", [entry(ALL, 0, 1), entry(ID)]), ("ONE of ID", [entry(ONE, 0, 1), entry(ID)]),
                            ("SOME of ID", [entry(SOME, 0, 1), entry(ID)]),
                            ("ONE of MATCH the last", [entry(ONE, 0, 1), entry(MATCH, 0, 2), entry(PCON, n)]),
                            ("SOME of MATCH the last", [entry(SOME, 0, 1), entry(SEQ, 0, 2, 3),
                                entry(MATCH, 0, 4), entry(BUILD, 0, 5),
                                                        entry(PCON, n), entry(PCON, 77)]),
                            ("ALL of a build", [entry(ALL, 0, 1), entry(BUILD, 0, 2), entry(PCON, 7)]),
                            ("CONG of matches", [entry(CONG, 9, *range(1, n + 1))] + [entry(MATCH, 0, n + 1 + j) for j in range(n)]
                             + [entry(PVAR, j) for j in range(n)]),
                            ("CONG of builds", [entry(CONG, 9, *range(n, 0, -1))] + [entry(BUILD, 0, n + 1 + j) for j in range(n)]
                             + [entry(PCON, 20 + j) for j in range(n)]),
                            ("PATH to the last", [entry(PATH, max(n, 1), 1), entry(BUILD, 0, 2), entry(PCON, 7)]),
                            ("MATCH of all", [entry(MATCH, 0, 1),
                                entry(PCON, 9, *range(2, n + 2))] + [entry(PVAR, 63 - 7 * j) for j in range(n)]),
                            ("BUILD of all", [entry(BUILD, 0, 1),
                                entry(PCON, 9, *range(2, n + 2))] + [entry(PCON, 30 + j) for j in range(n)])):
            case("%s, %d children" % (name, n), table, store, room=16)
    for n in range(1, 6):
        store = SIX + [[9, n, *range(n)]]
        case("PATH past the last of %d children" % n, [entry(PATH, n + 1, 1), entry(ID)], store)
        case("CONG of %d operands, one child more" % (n - 1), [entry(CONG, 9, *[1] * (n - 1)), entry(ID)], store)
        case("CONG of %d operands, one child less" % (n + 1), [entry(CONG, 9, *[1] * (n + 1)), entry(ID)], store)
    case("CONG with another constructor", [entry(CONG, 8, 1), entry(ID)], SIX + [[9, 1, 0]])


def bindings():
    for kind in (CHOICE, LEFT):
        case("%s drops the binding of a failed first" % NAMES[kind],
             [entry(kind, 0, 1, 4), entry(SEQ, 0, 2, 3), entry(MATCH, 0, 5), entry(FAIL), entry(ID), X], THREE)
        case("%s tries the second with the outer binding" % NAMES[kind],
             [entry(kind, 0, 1, 4), entry(SEQ, 0, 2, 3), entry(MATCH, 0, 5), entry(FAIL), entry(PATH, 1, 6), X,
                 entry(MATCH, 0, 7), X], THREE)
        case("%s drops a built term" % NAMES[kind],
             [entry(kind, 0, 1, 4), entry(SEQ, 0, 2, 3), entry(BUILD, 0, 5), entry(FAIL), entry(ID),
                 entry(PCON, 7, 6), entry(PCON, 8)], THREE, room=5)
    half = [entry(PCON, 5, 6, 7), X, entry(PCON, 9)]
    case("a failed MATCH keeps no binding", [entry(LEFT, 0, 1, 2), entry(MATCH, 0, 5), entry(ID), entry(ID),
         entry(ID)] + half, THREE)
    first = [entry(SEQ, 0, 2, 3), entry(MATCH, 0, 4), entry(MATCH, 0, 5), X, entry(PCON, 2)]
    case("ONE drops the binding of a failed child", [entry(ONE, 0, 1)] + first, THREE)
    case("SOME drops the binding of a failed child", [entry(SOME, 0, 1)] + first, THREE)
    case("NOT drops the binding of its operand", [entry(NOT, 0, 1), entry(SEQ, 0, 2, 3), entry(MATCH, 0, 4),
         entry(FAIL), X], THREE)
    case("TEST drops the binding of its operand", [entry(TEST, 0, 1), entry(MATCH, 0, 2), X], THREE)
    case("WHERE keeps a binding to a made node", [entry(WHERE, 0, 1), entry(SEQ, 0, 2, 3), entry(BUILD, 0, 4),
         entry(MATCH, 0, 5), entry(PCON, 7), X], THREE)
    case("PATH keeps the binding of its child", [entry(PATH, 2, 1), entry(MATCH, 0, 2), X], THREE)
    case("ONE keeps the binding of its child", [entry(ONE, 0, 1), entry(MATCH, 0, 2), X], THREE)
    case("ALL hands bindings on", [entry(ALL, 0, 1), entry(MATCH, 0, 2), X], THREE)
    case("ALL hands bindings on to an equal child", [entry(ALL, 0, 1), entry(MATCH, 0, 2), X], [[1], [1], [5, 2, 0, 1]])
    case("SOME hands bindings on", [entry(SOME, 0, 1), entry(MATCH, 0, 2), X], THREE)
    case("SOME hands bindings on past a failure", [entry(SOME, 0, 1),
         entry(MATCH, 0, 2), X], [[1], [2], [1], [5, 3, 0, 1, 2]])
    case("CONG hands bindings on", [entry(CONG, 5, 1, 1), entry(MATCH, 0, 2), X], THREE)
    case("CONG hands bindings on to a build", [entry(CONG, 5, 1, 2), entry(MATCH, 0, 3), entry(BUILD, 0, 3), X], THREE)
    case("a failed job gives the bindings back", [entry(SEQ, 0, 1, 2), entry(MATCH, 0, 3), entry(FAIL), Y],
         THREE, bound=[(0, 1)])
    inner = [entry(SCOPE, 1, 1), entry(MATCH, 0, 2), X]
    case("SCOPE puts a bound variable back", inner, THREE, bound=[(0, 0)])
    case("SCOPE puts an unbound variable back", inner, THREE)
    case("SCOPE of all variables", [entry(SCOPE, MASK, 1), entry(MATCH, 0, 2), entry(PCON, 5, 3, 4), X,
         entry(PVAR, 63)], THREE, bound=[(0, 2), (63, 2), (7, 1)])
    case("SCOPE of none", [entry(SCOPE, 0, 1), entry(MATCH, 0, 2), X], THREE)
    case("SCOPE of none, bound", [entry(SCOPE, 0, 1), entry(MATCH, 0, 2), X], THREE, bound=[(0, 0)])
    case("SCOPE keeps other new bindings", [entry(SCOPE, 1, 1), entry(MATCH, 0, 2), entry(PCON, 5, 3, 4), X, Y],
         THREE, bound=[(0, 2)])
    case("SCOPE of variable 31", [entry(SCOPE, 2**31, 1), entry(MATCH, 0, 2), entry(PVAR, 31)], THREE,
         bound=[(31, 0), (30, 1)])
    case("a failed SCOPE puts bindings back", [entry(LEFT, 0, 1, 4), entry(SCOPE, 1, 2), entry(SEQ, 0, 3, 5),
         entry(MATCH, 0, 6), entry(BUILD, 0, 6), entry(FAIL), X],
         THREE, bound=[(0, 0)])
    case("a failed SCOPE binds nothing", [entry(LEFT, 0, 1, 4), entry(SCOPE, 1, 2), entry(SEQ, 0, 3, 5),
         entry(MATCH, 0, 6), entry(BUILD, 0, 6), entry(FAIL), X], THREE)
    case("scope in a scope", [entry(SCOPE, 1, 1), entry(SEQ, 0, 2, 4), entry(MATCH, 0, 7), entry(MATCH, 0, 7),
         entry(SCOPE, 1, 5), entry(PATH, 1, 6),
                              entry(MATCH, 0, 7), X], THREE, bound=[(0, 1)])
    case("CALL runs inside the scope", [entry(SEQ, 0, 1, 2), entry(REC, 0, 3), entry(SCOPE, 1, 4),
         entry(MATCH, 0, 5), entry(CALL, 0, 1), X], THREE)
    case("CALL runs inside the scope, x bound by the scope", [entry(SCOPE, 1, 1), entry(SEQ, 0, 2, 3),
         entry(MATCH, 0, 6), entry(PATH, 1, 4), entry(CALL, 0, 5),
                                                             entry(REC, 0, 7), X, entry(MATCH, 0, 8), X], THREE,
                                                                 bound=[(0, 0)])
    twice = [entry(MATCH, 0, 1), entry(PCON, 5, 2, 2), X]
    case("equal terms at different nodes", twice, [[1], [2], [4, 2, 0, 1], [1], [4, 2, 3, 1], [5, 2, 2, 4]])
    case("terms that differ below", twice, [[1], [2], [4, 2, 0, 1], [1], [4, 2, 3, 0], [5, 2, 2, 4]])
    case("terms of other counts", twice, [[1], [4, 2, 0, 0], [4, 1, 0], [5, 2, 1, 2]])
    case("terms of other constructors", twice, [[1], [4, 1, 0], [3, 1, 0], [5, 2, 1, 2]])
    case("the same node compared in full", twice, [[1], [4, 6, 0, 0, 0, 0, 0, 0], [5, 2, 1, 1]])
    case("a bound variable keeps its first node", [entry(MATCH, 0, 1), X], [[1], [1]], bound=[(0, 0)])
    case("BUILD of a bound variable is its node", [entry(BUILD, 0, 1), X], THREE, bound=[(0, 1)])
    case("BUILD uses one variable twice", [entry(BUILD, 0, 1), entry(PCON, 6, 2, 2), X], THREE, bound=[(0, 1)])
    case("variable 31 matched and built", [entry(SEQ, 0, 1, 2), entry(MATCH, 0, 3), entry(BUILD, 0, 4),
         entry(PVAR, 31), entry(PCON, 65535, 3)], THREE)


def both_halves():
    """Variables and masks of both halves (wish 9)."""
    def ends(label, table, answer, binds, bound, **more):
        five, _, b = case("64 " + label, table, THREE, bound=bound, **more)
        assert five[0] == answer and b == [dict(binds).get(v, -1) + 1 for v in range(VARIABLES)], (label, five, b)
    for v in (0, 31, 32, 63):
        other = v ^ 32
        x, y = entry(PVAR, v), entry(PVAR, other)
        # bound to its own word, and to no other's
        ends("MATCH of %d" % v, [entry(MATCH, 0, 1), x], 0, [(v, 2)], [])
        ends("MATCH of %d and %d" % (v, other), [entry(MATCH, 0, 1), entry(PCON, 5, 2, 3), x, y], 0, [(v, 0), (other, 1)], [])
        ends("MATCH of %d bound to another" % v, [entry(MATCH, 0, 1), x], 1, [(v, 0)], [(v, 0)])
        ends("MATCH of %d, and %d bound" % (v, other), [entry(MATCH, 0, 1), x], 0, [(v, 2), (other, 0)], [(other, 0)])
        ends("BUILD of %d, and %d bound" % (v, other), [entry(BUILD, 0, 1), x], 12, [(other, 0)], [(other, 0)])
        # a scope hides the variables of its mask, of both halves, and no others
        for mask in (1 << v, 1 << other, 1 << v | 1 << other, MASK, MASK - (1 << v), MASK - (1 << other), 0):
            for bound in ([], [(v, 0)], [(other, 0)], [(v, 0), (other, 0)]):
                kept = dict(bound)
                if mask >> v & 1 == 0:
                    kept.setdefault(v, 2)
                fails = mask >> v & 1 == 0 and v in dict(bound)
                ends("SCOPE %d around %d with %s" % (mask, v, "-".join(str(p[0]) for p in bound) or "none"),
                     [entry(SCOPE, mask, 1), entry(MATCH, 0, 2), x], int(fails), bound if fails else kept, bound)
        # and puts them back where it fails
        ends("a failed SCOPE of %d" % v, [entry(LEFT, 0, 1, 5), entry(SCOPE, MASK, 2), entry(SEQ, 0, 3, 4), entry(MATCH, 0, 6), entry(FAIL), entry(ID),
             entry(PCON, 5, 7, 8), x, y], 0, [(v, 2), (other, 2)], [(v, 2), (other, 2)])
    # the scope's operand is word 3; word 2 is the mask's upper half
    ends("SCOPE with its operand in word 2", [[257, 3, 1, 0, 0, 0, 0, 0], entry(MATCH, 0, 2), X], 15, [], [])
    for word in range(4, 8):
        ends("SCOPE with word %d" % word, [[257, 3, 9, 1, *[int(k == word) for k in range(4, 8)]], entry(ID)], 17, [], [])
    for word in (1, 2):
        ends("SCOPE with word %d full" % word, [[257, *[MOST * (k == word) for k in (1, 2)], 1], entry(ID)], 0, [], [])


def unbound():
    """A build without its binding ends the run with 12 and the variable as its place (wish 3)."""
    def ends(label, table, answer, place, used, store=THREE, mark=3, subject=2, **more):
        five, words, b = case("12 " + label, table, store, **{"room": 9, **more})
        assert five == [answer, place, subject, mark, used], (label, five)
        assert words[:24] == sum(([*row, *[0] * (8 - len(row))] for row in store[:3]), []), label
        assert answer == 0 or not any(words[8 * mark:]), label
        assert answer == 0 or b == [dict(more.get("bound", ())).get(v, -1) + 1 for v in range(VARIABLES)], label
    seven = [entry(BUILD, 0, 2), entry(PVAR, 7), entry(ID)]
    for v in (0, 1, 7, 31, 32, 63):
        ends("at variable %d" % v, [entry(BUILD, 0, 1), entry(PVAR, v)], 12, v, 2)
    ends("at a variable far down, and not its entry", [entry(BUILD, 0, 1), entry(PCON, 4, 2), entry(PCON, 4, 3), entry(PVAR, 9)], 12, 9, 4)
    for kind, argument, operands in (
            (TEST, 0, (1,)), (NOT, 0, (1,)), (WHERE, 0, (1,)), (SCOPE, MOST, (1,)), (SCOPE, 0, (1,)), (LEFT, 0, (1, 3)), (CHOICE, 0, (1, 3)),
            (SEQ, 0, (1, 3)), (REC, 0, (1,)), (PATH, 2, (1,)), (CONG, 5, (1, 3)), (ALL, 0, (1,)), (ONE, 0, (1,)), (SOME, 0, (1,))):
        ends("is not caught by %s %d" % (NAMES[kind], argument), [entry(kind, argument, *operands), *seven], 12, 7, 3)
    ends("in the second operand of LEFT", [entry(LEFT, 0, 4, 1), *seven, entry(FAIL)], 12, 7, 4)
    ends("in the last child of SOME", [entry(SOME, 0, 1), entry(SEQ, 0, 2, 3), entry(MATCH, 0, 4), entry(BUILD, 0, 5), entry(PCON, 2),
         entry(PVAR, 7)], 12, 7, 9)
    ends("under a NOT under a LEFT", [entry(LEFT, 0, 1, 4), entry(NOT, 0, 2), entry(BUILD, 0, 3), entry(PVAR, 7), entry(ID)], 12, 7, 4)
    ends("is not met where FAIL comes first", [entry(SEQ, 0, 4, 1), *seven, entry(FAIL)], 1, 4096, 2)
    ends("a SCOPE hides the binding", [entry(SCOPE, 128, 1), *seven], 12, 7, 3, bound=[(7, 0)])
    ends("a SCOPE of another variable does not", [entry(SCOPE, 64, 1), *seven], 0, 0, 3, subject=0, bound=[(7, 0)])
    ends("a CALL runs inside the scope", [entry(SEQ, 0, 1, 3), entry(REC, 0, 2), entry(BUILD, 0, 5), entry(SCOPE, 1, 4), entry(CALL, 0, 1), X],
         12, 0, 9, bound=[(0, 2)])
    ends("an abandoned branch bound it", [entry(LEFT, 0, 1, 4), entry(SEQ, 0, 2, 3), entry(MATCH, 0, 5), entry(FAIL), entry(BUILD, 0, 5), X],
         12, 0, 7)
    ends("after a head that fails", [entry(LEFT, 0, 1, 4), entry(SEQ, 0, 2, 3), entry(MATCH, 0, 5), entry(ID), entry(BUILD, 0, 6),
         entry(PCON, 9), Y], 12, 1, 6)
    ends("a match binds instead", [entry(MATCH, 0, 1), entry(PVAR, 7)], 0, 0, 2)
    for units, answer, used in ((0, 6, 0), (1, 6, 1), (2, 12, 2), (3, 12, 2), (MOST, 12, 2)):
        ends("with %d units" % units, [entry(BUILD, 0, 1), X], answer, 0, used, units=units)
    pair = [entry(BUILD, 0, 1), entry(PCON, 4, 2, 3), entry(PCON, 9), entry(PVAR, 5)]
    ends("after a node was made", pair, 12, 5, 4)
    ends("after a node found no room", pair, 7, 0, 3, room=3)
    ends("after a node, with its last unit", pair, 12, 5, 4, units=4)
    ends("after a node, with one unit less", pair, 6, 0, 3, units=3)
    ends("before a node at a full store", [entry(BUILD, 0, 1), entry(PCON, 4, 3, 2), entry(PCON, 9), entry(PVAR, 5)], 12, 5, 3, room=3)
    ends("the leftmost of two", [entry(BUILD, 0, 1), entry(PCON, 4, 2, 3), entry(PVAR, 6), entry(PVAR, 5)], 12, 6, 3)
    ends("with the memory as given", [entry(SEQ, 0, 1, 2), entry(MATCH, 0, 6), entry(SEQ, 0, 3, 4), entry(BUILD, 0, 5), entry(BUILD, 0, 7),
         entry(PCON, 9, 6), X, Y], 12, 1, 9, bound=[(30, 1)])
    pcon = (16 * PCON + 1, 1, 0)
    for last, answer in ((4093, 12), (4094, 8)):
        five, _, _ = case("12 at nesting %d" % (last + 3),
                          {0: entry(REC, 0, 1), 1: entry(LEFT, 0, 2, 4), 2: entry(CONG, 2, 3), 3: entry(CALL, 0, 0), 4: entry(BUILD, 0, 5),
                           last: entry(PVAR, 3)},
                          {4095: [2, 1, 4094]}, tlen=8 * (last + 1), mark=4096, fill=3, head=pcon, units=9000, slen=8 * 8200)
        assert five[:2] == [answer, 3 if answer == 12 else 0], five


def misses():
    """The place of a failed run is the pattern at which the last match in it gave up, or 4,096 (wish 10)."""
    def fails(label, table, place, store=THREE, answer=1, **more):
        five, _, _ = case("miss " + label, table, store, **{"room": 9, **more})
        assert five[:2] == [answer, place], (label, five)
    no = entry(PCON, 9)
    fails("at the root", [entry(MATCH, 0, 1), no], 1)
    fails("of the count alone", [entry(MATCH, 0, 1), entry(PCON, 5, 2), X], 1)
    fails("where no match is", [entry(FAIL)], 4096)
    fails("where a match succeeds", [entry(SEQ, 0, 1, 3), entry(MATCH, 0, 2), X, entry(FAIL)], 4096)
    fails("where a CONG differs", [entry(CONG, 9)], 4096)
    # 7(8(1, 2), 8(1, 3), 8(1, 2)): the matcher's own way, a pattern that is not the last child, and the last one.
    nest = [[1], [2], [3], [8, 2, 0, 1], [8, 2, 0, 2], [7, 3, 3, 4, 3]]
    deep = [entry(MATCH, 0, 1), entry(PCON, 7, 2, 3, 4), entry(PCON, 8, 5, 6), entry(PCON, 8, 5, 6), entry(PCON, 8, 5, 6), X, Y]
    fails("of a variable in the second of three patterns", deep, 6, nest)
    fails("of a variable in the last pattern", [*deep[:3], entry(PCON, 8, 5, 7), entry(PCON, 8, 5, 7), X, Y, entry(PVAR, 2)], 7, nest)
    for child, at in ((2, 2), (3, 3), (4, 4)):
        table = [*deep[:5], X, Y]
        table[child] = entry(PCON, 6, 5, 6)
        fails("of pattern %d of three" % (child - 1), table, at, [*nest[:4], [8, 2, 0, 1], nest[5]])
    far = [entry(MATCH, 0, 1), entry(PCON, 7, 2, 3), entry(PCON, 8, 4, 5), X, entry(PCON, 8, 6, 5), Y, no]
    fails("three levels down, not the last child", far, 6, [[1], [8, 2, 0, 0], [8, 2, 1, 0], [7, 2, 2, 0]])
    fails("of a variable three levels down", [*far[:6], X], 6, [[1], [2], [8, 2, 0, 0], [8, 2, 2, 0], [7, 2, 3, 0]], bound=[(0, 1)])
    fails("of a variable alone", [entry(MATCH, 0, 1), X], 1, bound=[(0, 0)])
    fails("of a variable, below the node", [entry(MATCH, 0, 1), X], 1, [[1], [2], [4, 1, 0], [4, 1, 1]], bound=[(0, 2)])
    two = [entry(MATCH, 0, 3), entry(MATCH, 0, 4), no, entry(PCON, 6)]
    for kind in (LEFT, CHOICE):
        fails("of the second operand of %s" % NAMES[kind], [entry(kind, 0, 1, 2), *two], 4)
        fails("caught by %s" % NAMES[kind], [entry(kind, 0, 1, 3), entry(MATCH, 0, 2), no, entry(FAIL)], 2)
        fails("of a rule that fails at its head, in %s" % NAMES[kind],
              [entry(kind, 0, 1, 6), entry(SCOPE, 1, 2), entry(SEQ, 0, 3, 4), entry(MATCH, 0, 5), entry(BUILD, 0, 7), no, entry(FAIL), X], 5)
        fails("of a head after an older place, in %s" % NAMES[kind],
              [entry(SEQ, 0, 1, 4), entry(NOT, 0, 2), entry(MATCH, 0, 3), no, entry(kind, 0, 5, 7), entry(MATCH, 0, 6), entry(PCON, 8), entry(FAIL)], 6)
        fails("of a head that is not skipped, in %s" % NAMES[kind],
              [entry(kind, 0, 1, 5), entry(MATCH, 0, 2), entry(PCON, 5, 3, 4), X, no, entry(FAIL)], 4)
    fails("caught by NOT", [entry(SEQ, 0, 1, 4), entry(NOT, 0, 2), entry(MATCH, 0, 3), no, entry(FAIL)], 3)
    fails("in ONE, of the last child", [entry(ONE, 0, 1), entry(MATCH, 0, 2), no], 2)
    fails("in SOME, then FAIL", [entry(SEQ, 0, 1, 5), entry(SOME, 0, 2), entry(LEFT, 0, 3, 6), entry(MATCH, 0, 4), no, entry(FAIL), entry(ID)], 4)
    fails("inside a SCOPE that hides a binding", [entry(SCOPE, 1, 1), entry(MATCH, 0, 2), entry(PCON, 5, 3, 3), X], 3, bound=[(0, 0)])
    fails("in a TEST", [entry(TEST, 0, 1), entry(MATCH, 0, 2), no], 2)
    fails("and then a match that succeeds", [entry(SEQ, 0, 1, 4), entry(NOT, 0, 2), entry(MATCH, 0, 3), no, entry(SEQ, 0, 5, 7), entry(MATCH, 0, 6),
          X, entry(FAIL)], 3)
    caught = [entry(LEFT, 0, 1, 3), entry(MATCH, 0, 2), no, entry(ID)]
    fails("of a done run is no place", caught, 0, answer=0)
    fails("of a run cut off by units is no place", caught, 0, answer=6, units=3)
    fails("of a run cut off by room is no place", [*caught[:3], entry(PATH, 1, 4), entry(ID)], 0, answer=7, room=3)
    fails("of a run without a binding is no place", [*caught[:3], entry(BUILD, 0, 4), entry(PVAR, 5)], 5, answer=12)
    fails("a comparison cut off is none", [entry(MATCH, 0, 1), entry(PCON, 5, 2, 2), X], 0, answer=6, units=4)
    for k in range(1, 7):
        fails("of child %d of six" % k, [entry(MATCH, 0, 1), entry(PCON, 9, *range(2, 8)), *[entry(PCON, j + (j == k)) for j in range(1, 7)]], k + 1,
              SIX + [[9, 6, *range(6)]])


def limits():
    make = entry(BUILD, 0, 5)
    loop = [entry(REC, 0, 4), entry(CALL, 0, 3)]
    for kind in (NOT, TEST, WHERE, ONE, SOME, ALL):
        table = [entry(kind, 0, 1), entry(ID), entry(ID), *loop, entry(PCON, 7)]
        table[1] = entry(SEQ, 0, 2, 3)
        case("%s does not catch 6" % NAMES[kind], table, THREE, units=50)
        case("%s does not catch 8" % NAMES[kind], table, THREE, units=5000)
        case("%s does not catch 7" % NAMES[kind], [entry(kind, 0, 1), make, entry(ID), *loop, entry(PCON, 7)],
             THREE, room=3)
    for kind in (LEFT, CHOICE):
        table = [entry(kind, 0, 3, 1), entry(ID), entry(ID), *loop, entry(PCON, 7)]
        case("%s does not catch 6" % NAMES[kind], table, THREE, units=50)
        case("%s does not catch 8" % NAMES[kind], table, THREE, units=5000)
        case("%s does not catch 7" % NAMES[kind], [entry(kind, 0, 2, 1), entry(ID), make, *loop, entry(PCON, 7)],
             THREE, room=3)
    case("SCOPE does not lose a binding at a cut-off", [entry(SCOPE, 1, 1), entry(SEQ, 0, 2, 3),
         entry(MATCH, 0, 5), *loop, X], THREE, bound=[(0, 0)], units=40)
    built = [entry(PCON, 7, 7, 7), entry(PCON, 8)]
    case("room used again after a failure",
         [entry(LEFT, 0, 1, 4), entry(SEQ, 0, 2, 3), entry(BUILD, 0, 6), entry(FAIL), entry(BUILD, 0, 6),
             entry(ID)] + built, THREE, room=6)
    case("room used again after TEST", [entry(SEQ, 0, 1, 2), entry(TEST, 0, 2), entry(BUILD, 0, 3),
         entry(PCON, 7, 4, 4), entry(PCON, 8)], THREE, room=6)
    case("room used again after NOT", [entry(SEQ, 0, 1, 5), entry(NOT, 0, 2), entry(SEQ, 0, 3, 4),
         entry(BUILD, 0, 6), entry(FAIL), entry(BUILD, 0, 6)] + built, THREE, room=6)
    first = [entry(SEQ, 0, 2, 3), entry(WHERE, 0, 4), entry(MATCH, 0, 5), entry(BUILD, 0, 6), entry(PCON, 2),
        entry(PCON, 7, 7, 7), entry(PCON, 8)]
    case("room used again after a failed child of ONE", [entry(ONE, 0, 1)] + first, THREE, room=7)
    case("room used again after a failed child of SOME", [entry(SOME, 0, 1)] + first, THREE, room=7)
    case("room missing after a failed child of SOME", [entry(SOME, 0, 1)] + first, THREE, room=6)
    case("WHERE keeps the nodes it made", [entry(WHERE, 0, 1), entry(BUILD, 0, 2), entry(PCON, 7)], THREE, room=4)
    case("no unit at all", [entry(ID)], THREE, units=0)
    case("no unit at a full store", [entry(ID)], THREE, units=0, room=3)
    case("a full store where no node is made", FLIP[:2] + [entry(MATCH, 0, 4), entry(ID)] + FLIP[4:], THREE, room=3)
    case("a node made with all units used", [entry(PATH, 1, 1), entry(ID)], THREE, units=2)
    case("no room with all units used", [entry(PATH, 1, 1), entry(ID)], THREE, units=2, room=3)
    case("units before nesting", [entry(REC, 0, 1), entry(CALL, 0, 0)], THREE, units=4096)
    case("nesting with a unit left", [entry(REC, 0, 1), entry(CALL, 0, 0)], THREE, units=4097)
    case("nesting with most units", [entry(REC, 0, 1), entry(CALL, 0, 0)], THREE, units=MOST)
    case("the start is not entry 0", FLIP, THREE, start=1)
    case("the subject is not the last node", [entry(MATCH, 0, 1), X], THREE, subject=1)


def deep():
    """Chains of 4,096 visits by each way down, which pass, and of 4,097, which end in 8."""
    for name, head, chain in (("TEST", (16 * TEST + 1, 0, 0), 1), ("WHERE", (16 * WHERE + 1, 0, 0), 1), ("NOT", (16 * NOT + 1, 0, 0), 1),
                              ("SCOPE", (16 * SCOPE + 1, 3, 0), 1), ("PATH", (16 * PATH + 1, 1, 0), 4096), ("CONG", (16 * CONG + 1, 1, 0), 4096),
                              ("ALL", (16 * ALL + 1, 0, 0), 4096), ("ONE", (16 * ONE + 1, 0, 0), 4096), ("SOME", (16 * SOME + 1, 0, 0), 4096),
                              ("SEQ", (16 * SEQ + 2, 0, 4095), 1), ("LEFT", (16 * LEFT + 2, 0, 4095), 1),
                              ("CHOICE", (16 * CHOICE + 2, 0, 4095), 1), ("REC", (16 * REC + 1, 0, 0), 1)):
        more = dict(tlen=32768, mark=chain, fill=3, head=head, units=100000, bound=[(0, 0)], slen=8 * (2 * chain + 2))
        case("%s nested 4096 deep" % name, **more)
        case("%s nested 4097 deep" % name, {0: entry(REC, 0, 1), 4095: entry(CALL, 0, 0)}, **more)
        if chain > 1:
            case("%s nested 4096 deep, one node too few" % name, **{**more, "slen": 8 * (chain + 4094)})
    one = [entry(MATCH, 0, 1), X]
    case("compare 4096 deep", one, mark=4094, fill=3, bound=[(0, 4093)], units=5000, slen=8 * 4100)
    case("compare 4097 deep", one, mark=4095, fill=3, bound=[(0, 4094)], units=5000, slen=8 * 4100)
    two = [(1, 8 * k + 1, 2) for k in range(1, 4095)]
    case("compare 4096 deep, down the first of two", one, mark=4094, fill=3, bound=[(0, 4093)], units=9000, slen=8 * 4100, words=two[:-1])
    case("compare 4097 deep, down the first of two", one, mark=4095, fill=3, bound=[(0, 4094)], units=9000, slen=8 * 4100, words=two)
    case("compare ends by units", one, mark=4094, fill=3, bound=[(0, 4093)], units=4095, slen=8 * 4100)
    for kind in (MATCH, BUILD):
        pcon = (16 * PCON + 1, 1, 0)
        case("%s 4096 deep" % NAMES[kind], {0: entry(kind, 0, 1), 4095: X}, tlen=32768, mark=4095, fill=3, head=pcon,
             units=5000, slen=8 * 8200, bound=[] if kind == MATCH else [(0, 7)])
        for last in (4093, 4094):
            case("%s %d deep through CALL" % (NAMES[kind], last + 3),
                 {0: entry(REC, 0, 1), 1: entry(LEFT, 0, 2, 4), 2: entry(CONG, 2, 3), 3: entry(CALL, 0, 0), 4: entry(kind, 0, 5), last: X},
                 {4095: [2, 1, 4094]}, tlen=8 * (last + 1), mark=4096, fill=3, head=pcon, units=9000, slen=8 * 8200,
                 bound=[] if kind == MATCH else [(0, 7)])
    hides = [entry(REC, 0, 1), entry(SCOPE, 1, 2), entry(SEQ, 0, 3, 4), entry(MATCH, 0, 5), entry(CALL, 0, 0), X]
    case("SCOPE hides a binding at every level", hides, THREE, units=9000, bound=[(0, 1)])
    case("SCOPE hides and ends by units", hides, THREE, units=3000, bound=[(0, 1)])
    down = [entry(REC, 0, 1), entry(ALL, 0, 2), entry(CALL, 0, 0)]
    case("ALL through CALL, 1365 levels", down, mark=1365, fill=3, units=5000, slen=8 * 3000)
    case("ALL through CALL, 1366 levels", down, mark=1366, fill=3, units=5000, slen=8 * 3000)


def full():
    whole = dict(slen=1048576, units=100)
    case("131072 nodes, ID", [entry(ID)], mark=131072, fill=2, **whole)
    case("131072 nodes, PATH", [entry(PATH, 1, 1), entry(ID)], mark=131072, fill=2, **whole)
    case("131071 nodes, PATH", [entry(PATH, 1, 1), entry(ID)], mark=131071, fill=3, **whole)
    # node k has k - 1 twice, so that a pass over it makes 2**k - 1 nodes; the last three make up what is missing
    shared = [[1]] + [[1, 2, k - 1, k - 1] for k in range(1, 17)]
    shared += [[1, 5, 6, 5, 4, 2, 2], [1, 6, 11, 10, 9, 8, 7, 17], [1, 6, 16, 15, 14, 13, 12, 18]]
    down = [entry(REC, 0, 1), entry(ALL, 0, 2), entry(CALL, 0, 0)]
    five, _, _ = case("a run that fills 131072 nodes", down, shared, slen=1048576, units=MOST)
    assert five[0] == 0 and five[3] == 131072
    five, _, _ = case("a run that needs one node more than there are", down, shared, slen=1048568, units=MOST)
    assert five[0] == 7
    case("room for 131072 nodes, none kept", [entry(TEST, 0, 1), entry(BUILD, 0, 2), entry(PCON, 7)], [[1]], **whole)
    case("4096 entries, the last is the start", {4095: entry(FAIL)}, THREE, tlen=32768, start=4095)


def term(rng, store, cons):
    kids = [rng.randrange(len(store)) for _ in range(rng.choice((0, 1, 2, 2, 3)))] if store else []
    store.append([rng.choice(cons), len(kids), *kids])


def table_of(rng, n):
    """n entries, the last two a PVAR and an ID."""
    rows = [entry(PVAR, rng.randrange(3)), entry(ID)]
    for e in range(n - 3, -1, -1):
        above = range(e + 1, n)
        of = lambda s: [o for o in above if sort(rows[o - e - 1][0] // 16) == s]
        strategies, patterns = of("strategy"), of("pattern")
        kind = rng.choice((TEST, NOT, SEQ, SEQ, SEQ, CHOICE, LEFT, LEFT, REC, PATH, CONG, CONG, ALL, ONE, SOME, MATCH, MATCH, MATCH, BUILD, BUILD,
                           SCOPE, WHERE, PVAR, PCON, PCON, PCON, FAIL))
        if e == 0 and kind in (PVAR, PCON, FAIL):
            kind = SEQ
        low, high = counts(kind)
        count = rng.randint(low, min(high, 3))
        pick = patterns if kind in (MATCH, BUILD, PCON) else strategies
        argument = {PATH: rng.randint(1, 3), CONG: rng.randint(1, 3), SCOPE: rng.choice((1, 2, 3, 5, MOST)), PVAR: rng.randrange(3),
                    PCON: rng.randint(1, 3)}.get(kind, 0)
        rows.insert(0,
            entry(kind, argument, *[pick[0] if rng.random() < 0.6 else rng.choice(pick) for _ in range(count)]))
    recs = [e for e, row in enumerate(rows) if row[0] // 16 == REC]
    for e, row in enumerate(rows):
        if recs and row[0] // 16 in (FAIL, ID) and rng.random() < 0.5:
            rows[e] = entry(CALL, 0, rng.choice(recs))
    return rows


def random_jobs():
    rng = random.Random(20261115)
    wanted = {0: 70, 1: 40, 6: 25, 7: 25, 8: 10, 12: 30}
    tried = 0
    while any(wanted.values()) and tried < 30000:
        tried += 1
        table, store = table_of(rng, rng.randint(4, 12)), []
        for _ in range(rng.randint(2, 6)):
            term(rng, store, (1, 2, 3))
        mark = len(store)
        units = rng.choice((5, 8, 12, 20, 40, 400, 400, 400, 5000))
        slen = 8 * (mark + rng.choice((0, 1, 2, 4, 8)))
        bound = [(v, rng.randrange(mark)) for v in range(3) if rng.random() < 0.3]
        b = [dict(bound).get(v, -1) + 1 for v in range(VARIABLES)]
        t = [w for row in table for w in row + [0] * (8 - len(row))]
        s = [w for row in store for w in row + [0] * (8 - len(row))] + [MOST] * (slen - 8 * mark)
        five, _, after = run(t, s, b, mark, 0, mark - 1, units)
        if five[0] not in wanted or wanted[five[0]] == 0 or five[4] < (4 if five[0] != 0 else 6):
            continue
        if five[0] == 0 and five[3] == mark and after == b:
            continue
        wanted[five[0]] -= 1
        case("random job %d" % tried, table, store, slen=slen, units=units, bound=bound)
    assert not any(wanted.values()), wanted


def value(words, k):
    """The term of node k: its constructor and its children."""
    return (words[8 * k], tuple(value(words, c) for c in words[8 * k + 2:8 * k + 2 + words[8 * k + 1]]))


def orderings():
    """Three closed strategies at three places, none inside another, in all six orders: one outcome (wish 11)."""
    store = [[1], [2], [5, 2, 0, 1], [5, 2, 1, 0], [6, 1, 2], [7, 3, 2, 3, 4]]
    flip = [[row[0], row[1], *(6 + x for x in row[2:])] for row in FLIP]
    for name, second, ends in (("all succeed", 6, (7, ((5, ((2, ()), (1, ()))), (5, ((1, ()), (2, ()))), (6, ((9, ()),))))),
                               ("the second fails", 16, None)):
        for order in itertools.permutations((2, 3, 4)):
            table = [entry(SEQ, 0, order[0], 1), entry(SEQ, 0, order[1], order[2]), entry(PATH, 1, 6), entry(PATH, 2, second),
                     entry(PATH, 3, 5), entry(PATH, 1, 14), *flip, entry(BUILD, 0, 15), entry(PCON, 9), entry(FAIL)]
            five, words, b = case("three places in the order %d %d %d, %s" % (*(e - 1 for e in order), name), table, store, room=30)
            assert not any(b) and five[0] == (1 if ends is None else 0), five
            assert ends is None or value(words, five[2]) == ends, value(words, five[2])


def write():
    for part in (small_runs, refusals, needed, children, bindings, both_halves, unbound, misses, limits, deep, full, orderings, random_jobs):
        part()
