"""The cases of the question of free variables."""
import random

from lend import add, lend, rows_of, say
from model import (ALL, BUILD, CALL, CONG, FAIL, ID, LEFT, MASK, MATCH, MOST, NAMES, PCON, PVAR, REC, SCOPE, SEQ, VARIABLES, arguments, counts,
                   entry, free_variables, sort, takes)


def case(letter, length, start, patches, label):
    """t: a table of zeros. R: RECs, each calling the one before, so that what is free in entry 0 reaches one REC more with
    each pass over the table."""
    t, _, _, body = lend(label, table=length, start=start, fill=8 if letter == "R" else 0, patches=[(0, *p) for p in patches])
    add("f", body, say(label, *free_variables(t, start)))


def ask(rows, start, label):
    """rows: lists of at most eight words."""
    case("t", 8 * len(rows), start, [p[1:] for p in rows_of(0, rows)], label)


def matches(n):
    """From entry 1 on: n MATCHes, each of its own variable, at 3, 8, 13 and so on."""
    return [entry(MATCH, 0, 1 + n + i) for i in range(n)] + [entry(PVAR, 3 + 5 * i) for i in range(n)]


def variables(n):
    """From entry 1 on: n variables, at 4, 9, 14 and so on."""
    return [entry(PVAR, 4 + 5 * i) for i in range(n)]


def refusals():
    one = entry(MATCH, 0, 1)
    for n in (0, 7, 9, 32767, 32769, 32776):
        case("t", n, 0, [], "table of %d words" % n)
    case("t", 12, 5, [(0, MOST)], "bad length, bad entry, start outside")
    case("t", 80, 10, [(8 * 7 + 1, 1), (8 * 5, MOST)], "bad entries 7 and 5, start outside")
    case("t", 80, 5, [(8 * 5, MOST)], "start at a bad entry")
    case("t", 80, 0, [(8 * 9 + 7, 1)], "bad last entry, start at a good one")
    ask([entry(CALL, 0, 1), entry(ID)], 0, "CALL of an ID")
    ask([entry(PVAR, VARIABLES)], 0, "variable %d" % VARIABLES)
    ask([entry(PVAR, MOST)], 0, "variable %d" % MOST)
    for e in (2, 3, 4095, 4096, MOST):
        ask([one, entry(PVAR, 7)], e, "start %d of 2 entries" % e)
    ask([one, entry(PVAR, 7)], 1, "start at a PVAR")
    ask([one, entry(PCON, 7, 2), entry(PVAR, 1)], 1, "start at a PCON")
    ask([one, entry(PVAR, 7)], 0, "start at a MATCH")
    case("t", 32768, 4095, [], "start at the last of 4096 entries")
    case("t", 32768, 4096, [], "start past the last of 4096 entries")


def kinds():
    for kind, name in enumerate(NAMES[:18]):
        low, high = counts(kind)
        for n in sorted({low, high}):
            argument = arguments(kind)[0]
            if kind == CALL:
                rows = [entry(CALL, 0, 1), entry(REC, 0, 2), entry(MATCH, 0, 3), entry(PVAR, 3)]
            elif kind in (MATCH, BUILD):
                rows = [entry(kind, 0, 1), entry(PVAR, 4)]
            else:
                rows = [entry(kind, argument, *range(1, 1 + n))] + matches(n)
            ask(rows, 0, "%s with %d operands" % (name, n))
    for v in (0, 1, 30, 31, 32, 33, 62, 63):
        ask([entry(MATCH, 0, 1), entry(PVAR, v)], 0, "MATCH of variable %d" % v)
        ask([entry(BUILD, 0, 1), entry(PVAR, v)], 0, "BUILD of variable %d" % v)
    for n in range(7):
        ask([entry(MATCH, 0, 1), entry(PCON, 9, *range(2, 2 + n))] + [entry(PVAR, VARIABLES - 1 - 6 * i) for i in range(min(n, 6))], 0,
            "MATCH of a PCON of %d variables" % n)
    ask([entry(BUILD, 0, 1), entry(PCON, 9, 2, 3), entry(PCON, 8, 3, 4), entry(PVAR, 5), entry(PVAR, 6)], 0, "BUILD of a PCON in a PCON")
    ask([entry(SEQ, 0, 1, 1), entry(MATCH, 0, 2), entry(PVAR, 9)], 0, "one operand twice")
    ask([entry(ID), entry(MATCH, 0, 2), entry(PVAR, 9)], 0, "a MATCH that is no operand")
    last = 2 * VARIABLES - 2
    wide = [entry(MATCH, 0, last + 1 + e // 2) if e % 2 or e == last else entry(SEQ, 0, e + 1, e + 2) for e in range(last + 1)]
    wide += [entry(PVAR, v) for v in range(VARIABLES)]
    ask(wide, 0, "all %d variables" % VARIABLES)
    ask(wide, 30, "the variables from 15 on")
    ask(wide, 64, "the variables from 32 on")


def scopes():
    inner = [entry(SEQ, 0, 2, 3), entry(MATCH, 0, 4), entry(BUILD, 0, 5), entry(PVAR, 4), entry(PVAR, 36)]
    for mask in (0, 1, 1 << 4, 1 << 36, 1 << 4 | 1 << 36, MOST, MASK - MOST, MASK, MASK - (1 << 4), MASK - (1 << 36), 1 << 63, 1 << 32):
        ask([entry(SCOPE, mask, 1)] + inner, 0, "SCOPE of mask %d" % mask)
    ask([entry(SCOPE, 16, 1), entry(SCOPE, 2**63, 2), entry(SEQ, 0, 3, 4), entry(MATCH, 0, 5), entry(MATCH, 0, 6),
         entry(PVAR, 4), entry(PVAR, 63)], 0, "a SCOPE in a SCOPE")
    ask([entry(SEQ, 0, 1, 2), entry(SCOPE, 16, 2), entry(MATCH, 0, 3), entry(PVAR, 4)], 0, "inside and outside a SCOPE")
    ask([entry(SEQ, 0, 1, 1), entry(SCOPE, 16, 2), entry(MATCH, 0, 3), entry(PVAR, 4)], 0, "only inside a SCOPE")
    ask([entry(SCOPE, 16, 1), entry(CALL, 0, 2), entry(REC, 0, 3), entry(MATCH, 0, 4), entry(PVAR, 4)], 0, "a CALL in a SCOPE")


def recursion():
    for v in (0, 31, 32, 63):
        ask([entry(REC, 0, 1), entry(LEFT, 0, 2, 3), entry(MATCH, 0, 4), entry(ALL, 0, 5), entry(PVAR, v), entry(CALL, 0, 0)], 5,
            "CALL of a REC below, variable %d" % v)
    ask([entry(REC, 0, 1), entry(CALL, 0, 0)], 0, "a REC that only calls itself")
    ask([entry(REC, 0, 1), entry(CALL, 0, 2), entry(REC, 0, 3), entry(CALL, 0, 0)], 1, "two RECs that only call each other")
    mutual = [entry(REC, 0, 1), entry(SEQ, 0, 4, 5), entry(REC, 0, 3), entry(SEQ, 0, 6, 7), entry(MATCH, 0, 8), entry(CALL, 0, 2),
              entry(MATCH, 0, 9), entry(CALL, 0, 0), entry(PVAR, 1), entry(PVAR, 2)]
    for e in (0, 2, 5, 7, 4):
        ask(mutual, e, "two RECs that call each other, entry %d" % e)
    scoped = [entry(REC, 0, 1), entry(SEQ, 0, 2, 3), entry(MATCH, 0, 5), entry(SCOPE, 2, 4), entry(CALL, 0, 0), entry(PVAR, 1)]
    for e in (0, 3, 4):
        ask(scoped, e, "a CALL in a SCOPE of its own REC, entry %d" % e)
    around = [entry(SCOPE, 2, 1), entry(REC, 0, 2), entry(SEQ, 0, 3, 4), entry(MATCH, 0, 5), entry(CALL, 0, 1), entry(PVAR, 1)]
    for e in (0, 1, 4):
        ask(around, e, "a REC in a SCOPE, entry %d" % e)


def worst():
    def put(e, row):
        return [(8 * e + j, (row + [0] * 8)[j]) for j in range(4)]
    first = put(0, entry(REC, 0, 1)) + put(1, entry(MATCH, 0, 4095)) + put(4094, entry(PVAR, 0)) + put(4095, entry(PVAR, 63))
    for e in (0, 1, 2, 2048, 4092, 4093, 4094):
        case("R", 32768, e, first, "2047 RECs in the worst order, entry %d" % e)
    ring = put(0, entry(REC, 0, 1)) + put(4094, entry(MATCH, 0, 4095)) + put(4095, entry(PVAR, 63)) + [(8, 66), (9, 0), (10, 4094), (11, 4093)]
    for e in (0, 4093):
        case("R", 32768, e, ring, "a ring of 2047 RECs, entry %d" % e)
    cut = put(2049, entry(SCOPE, 2**63, 2051))
    for e in (2046, 2048, 4092):
        case("R", 32768, e, first + cut, "the chain cut at entry 2049, entry %d" % e)
    for e in (1, 4093):
        case("R", 32760, e, put(0, entry(REC, 0, 1)) + put(1, entry(BUILD, 0, 4094)) + put(4094, entry(PVAR, 17)), "4095 entries, entry %d" % e)
    case("R", 32768, 4092, put(0, entry(REC, 0, 1)) + put(4000, entry(FAIL, 1)), "a bad entry in the chain")


def tables():
    """Good tables at random: each operand above its entry, CALLs of any REC."""
    pick = random.Random(1)
    for k in range(80):
        n = pick.randrange(4, 20)
        of = [pick.choice([*range(20), SEQ, LEFT, CONG, REC, CALL, CALL, MATCH, BUILD, SCOPE, PCON, PVAR, PVAR]) for _ in range(n)]
        of[-1] = PVAR
        for e in range(n - 1, -1, -1):
            need = "pattern" if of[e] in (MATCH, BUILD) else "strategy"
            if of[e] not in (ID, FAIL, CONG, PVAR, PCON, CALL) and not any(sort(x) == need for x in of[e + 1:]):
                of[e] = MATCH
        recs = [e for e in range(n) if of[e] == REC]
        rows = []
        for e, kind in enumerate(of):
            if kind == CALL and not recs:
                kind = ID
            low, high = counts(kind)
            above = [x for x in range(e + 1, n) if sort(of[x]) == takes(kind)]
            count = pick.randint(low, high) if above or kind == CALL else 0
            low, high = arguments(kind)
            argument = pick.getrandbits(VARIABLES) if kind == SCOPE else pick.randint(low, high)
            rows.append(entry(kind, argument, *[pick.choice(recs if kind == CALL else above) for _ in range(count)]))
        ask(rows, pick.choice([e for e in range(n) if sort(of[e]) == "strategy"] or [0]), "random table %d" % k)


def write():
    for part in (refusals, kinds, scopes, recursion, worst, tables):
        part()
