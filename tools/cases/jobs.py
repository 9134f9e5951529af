"""The cases of the job program. 01's job and S1 to S12 are held to what 01 prints, S12 and the place of a failed run to
02's, and each bad text to its line.
"""
import random

from lend import add
from model import (ALL, BUILD, CALL, CONG, FAIL, ID, LEFT, MASK, MATCH, MOST, NOT, ONE, PATH, PCON, PVAR, REC, SCOPE, SEQ, SOME, TEST,
                   WHERE, VARIABLES, entry, first, five_of, line, mask)
from runs import FLIP, table_of, term


def framed(text):
    """How an answer is written: its length, then its text."""
    return b"# %d\n" % len(text) + text


def entry_numbers(row):
    """Kind, argument and operands of an entry's words."""
    kind = row[0] // 16
    return [kind, mask(row) if kind == SCOPE else row[1], *row[first(kind):]]


def text_of(table, nodes, *, units=1000, start=0, subject=None, room=None, bound=()):
    """table: rows of entry(); nodes: a constructor and children."""
    subject = max(len(nodes) - 1, 0) if subject is None else subject
    room = min(len(nodes) + 4, 1024) if room is None else room
    return (line("job", units, start, subject, room) + b"".join(line("e", *entry_numbers(r)) for r in table)
            + b"".join(line("n", *r) for r in nodes) + b"".join(line("b", *p) for p in bound))


def job(text, five=None, left=None, answer=None, place=None):
    got, rest = five_of(text)
    assert five is None or got == five, (text[:200], got)
    assert left is None or rest == left, (text[:200], rest[:200])
    assert answer is None or got[0] == answer, (text[:200], got)
    assert place is None or got[1] == place, (text[:200], got)
    add("j", text, framed(line("answer", *got) + rest))


X, Y, YES, NO = entry(PVAR, 0), entry(PVAR, 1), entry(ID), entry(FAIL)
THREE = [[1], [2], [5, 0, 1]]
KEPT = b"n\t1\nn\t2\nn\t5\t0\t1\n"

FIRST = b"""job\t10\t0\t2\t4
e\t16\t3\t1
e\t4\t0\t2\t3
e\t14\t0\t4
e\t15\t0\t5
e\t19\t5\t6\t7
e\t19\t5\t7\t6
e\t18\t0
e\t18\t1
n\t1
n\t2
n\t5\t0\t1
"""


def small_runs():
    """01's job, and S1 to S12."""
    assert text_of(FLIP, THREE, units=10, room=4) == FIRST
    job(FIRST, [0, 0, 3, 4, 10], KEPT + b"n\t5\t1\t0\n")
    for table, five, left, more in (
            (FLIP, [0, 0, 3, 4, 10], KEPT + b"n\t5\t1\t0\n", dict(units=10, room=4)),
            (FLIP, [6, 0, 2, 3, 9], KEPT, dict(units=9, room=4)), (FLIP, [7, 0, 2, 3, 10], KEPT, dict(room=3)),
            ([entry(MATCH, 0, 1), entry(PCON, 5, 2, 2), X], [1, 2, 2, 3, 5], KEPT, {}),
            ([entry(LEFT, 0, 1, 4), entry(SEQ, 0, 2, 3), entry(MATCH, 0, 5), NO, YES, X], [0, 0, 2, 3, 6], KEPT, {}),
            ([entry(ALL, 0, 1), NO], [0, 0, 0, 3, 1], KEPT, dict(subject=0)),
            ([entry(ONE, 0, 1), YES], [1, 4096, 0, 3, 1], KEPT, dict(subject=0)),
            ([entry(SOME, 0, 1), entry(MATCH, 0, 2), entry(PCON, 1)], [0, 0, 3, 4, 5], KEPT + b"n\t5\t0\t1\n", {}),
            ([entry(PATH, 3, 1), YES], [1, 4096, 2, 3, 1], KEPT, {}),
            ([entry(PATH, 2, 1), YES], [0, 0, 3, 4, 2], KEPT + b"n\t5\t0\t1\n", {}),
            ([entry(TEST, 0, 1), entry(MATCH, 0, 2), X], [0, 0, 2, 3, 3], KEPT, {}),
            ([entry(WHERE, 0, 1), entry(MATCH, 0, 2), X], [0, 0, 2, 3, 3], KEPT + b"b\t0\t2\n", {}),
            ([entry(REC, 0, 1), entry(CALL, 0, 0)], [6, 0, 2, 3, 7], KEPT, dict(units=7)),
            ([entry(REC, 0, 1), entry(CALL, 0, 0)], [8, 0, 2, 3, 4096], KEPT, dict(units=5000)),
            ([entry(BUILD, 0, 1), X], [12, 0, 2, 3, 2], KEPT, {}),
            ([entry(BUILD, 0, 1), entry(PVAR, 63)], [12, 63, 2, 3, 2], KEPT + b"b\t4\t1\n", dict(bound=[(4, 1)]))):
        job(text_of(table, THREE, **more), five, left)
    job(text_of([entry(MATCH, 0, 1), entry(PCON, 5, 2, 2), X], [[1], [2], [5, 0, 0]]), [0, 0, 2, 3, 5],
        b"n\t1\nn\t2\nn\t5\t0\t0\nb\t0\t0\n")


def refusals():
    ok = [YES]
    # 2: no entry at all; a mark above the room. Every other length of a job fits
    job(text_of([], THREE), [2, 0, 2, 3, 0])
    job(b"job\t1\t0\t0\t0\n", [2, 0, 0, 0, 0])
    for room in (0, 1, 2):
        job(text_of(ok, THREE, room=room), [2, 0, 2, 3, 0])
    job(text_of(ok, [[7]] * 1024, room=1023), [2, 0, 1023, 1024, 0])
    job(text_of([entry(20)], [[65536]] * 2, room=1, start=9, subject=9), [2, 0, 9, 2, 0])
    # 13 to 16 with the lowest bad entry; a job has no unused word to set, so that 17 is not seen
    for answer, place, table in (
            (13, 1, [YES, entry(20)]), (13, 1, [YES, entry(255)]), (13, 1, [entry(TEST, 0, 2), [16 * NOT, 0], YES]),
            (13, 1, [YES, entry(ID, 0, 2), YES]),
            (14, 1, [YES, entry(FAIL, 1)]), (14, 0, [entry(PATH, 0, 1), YES]), (14, 0, [entry(PATH, 7, 1), YES]),
            (14, 1, [YES, entry(PVAR, VARIABLES)]), (14, 0, [entry(CONG, 65536)]), (14, 1, [YES, entry(PCON, MOST)]),
            (15, 1, [YES, entry(TEST, 0, 1)]), (15, 1, [YES, entry(TEST, 0, 0)]), (15, 0, [entry(TEST, 0, 1)]),
            (15, 0, [entry(TEST, 0, MOST)]), (16, 0, [entry(TEST, 0, 1), X]), (16, 0, [entry(MATCH, 0, 1), YES]),
            (16, 1, [YES, entry(PCON, 1, 2), YES]), (16, 0, [entry(CALL, 0, 1), YES]), (15, 0, [entry(CALL, 0, 1)]),
            (16, 0, [entry(CALL, 0, 0)]), (16, 0, [entry(TEST, 0, 1), entry(20)]), (15, 0, [entry(SEQ, 0, 1, 9), X]),
            (14, 1, [YES, entry(FAIL, 1), entry(20)]), (14, 511, [YES] * 511 + [entry(ID, 1)])):
        job(text_of(table, THREE), [answer, place, 2, 3, 0])
    job(text_of([entry(20)], [[65536]], start=9, subject=9), [13, 0, 9, 1, 0])
    # 4 with the lowest bad node below the mark
    for place, nodes in ((1, [[1], [65536]]), (1, [[1], [MOST]]), (1, [[1], [1, 1]]), (1, [[1], [1, 2], [1]]), (0, [[1, 0]]),
                         (2, [[1], [1, 0], [1, 0, MOST], [65536]]), (1023, [[1]] * 1023 + [[1, 0, 0, 0, 0, 0, 1023]])):
        job(text_of(ok, nodes), [4, place, len(nodes) - 1, len(nodes), 0])
    job(text_of(ok, [[65536]], start=9, subject=9), [4, 0, 9, 1, 0])
    # 5
    for more in (dict(start=1), dict(start=MOST), dict(subject=3), dict(subject=MOST), dict(bound=[(0, 0), (63, 3)]),
            dict(bound=[(7, 131071)])):
        job(text_of(ok, THREE, **more), [5, 0, more.get("subject", 2), 3, 0])
    job(text_of([YES, X], THREE, start=1), [5, 0, 2, 3, 0])
    job(text_of([YES, entry(PCON, 1)], THREE, start=1), [5, 0, 2, 3, 0])
    job(text_of(ok, []), [5, 0, 0, 0, 0])
    job(text_of(ok, [], room=0), [5, 0, 0, 0, 0])


HEAD = b"job\t10\t0\t0\t4\n"
BODY = HEAD + b"e\t0\t0\nn\t1\n"


def bad_texts():
    """Each way in which a text can be bad, and its line."""
    for place, text in (
            # nothing, and what is no line
            (1, b""), (1, b"\n"), (1, b"\n\n"), (1, b" "), (1, b"job"), (1, b"job\n"), (1, bytes(range(256))), (1, b"\0\n"),
            (1, b"\xff" * 40),
            (1, b"\xef\xbb\xbf" + BODY), (4, BODY + b"\0"), (4, BODY + b"\n"), (3, HEAD + b"e\t0\t0\n\nn\t1\n"),
            (4, BODY + b"# end\n"),
            # a line feed
            (1, HEAD[:-1]), (3, BODY[:-1]), (4, BODY + b"n"), (4, BODY + b"b\t0\t0"), (1, BODY.replace(b"\n", b"\r\n")),
            (1, BODY.replace(b"\n", b"\r")), (3, BODY[:-1] + b"\r\n"), (3, BODY[:-1] + b"\0\n"),
            # a tab
            (1, BODY.replace(b"\t", b" ")), (1, b"job\t\t10\t0\t0\t4\n"), (1, b"job\t10\t0\t\t0\t4\n"),
            (1, b"job\t10\t0\t0\t4\t\n"),
            (1, b"\tjob\t10\t0\t0\t4\n"), (2, HEAD + b"e\t0\t0\t\n"), (2, HEAD + b"e\t\t0\t0\n"), (3, BODY[:-1] + b"\t\n"),
            (2, HEAD + b"\n"),
            (2, HEAD + b"\t\n"),
            # a name
            (1, b"JOB\t10\t0\t0\t4\n"), (1, b"jo\t10\t0\t0\t4\n"), (1, b"jobs\t10\t0\t0\t4\n"), (2, HEAD + b"E\t0\t0\n"),
            (2, HEAD + b"x\t0\t0\n"),
            (2, HEAD + b"ee\t0\t0\n"), (2, HEAD + b"e0\t0\n"), (2, HEAD + b" e\t0\t0\n"), (2, HEAD + b"\t0\t0\n"),
            # a number
            (1, b"job\t010\t0\t0\t4\n"), (1, b"job\t10\t00\t0\t4\n"), (1, b"job\t10\t0\t0\t04\n"), (1, b"job\t+1\t0\t0\t4\n"),
            (1, b"job\t-1\t0\t0\t4\n"), (1, b"job\t1a\t0\t0\t4\n"), (1, b"job\t0x1\t0\t0\t4\n"), (1, b"job\t1.\t0\t0\t4\n"),
            (1, b"job\t1,000\t0\t0\t4\n"), (1, b"job\t 1\t0\t0\t4\n"), (1, b"job\t1/\t0\t0\t4\n"), (1, b"job\t1:\t0\t0\t4\n"),
            (1, b"job\t4294967296\t0\t0\t4\n"), (1, b"job\t1\t4294967296\t0\t4\n"), (1, b"job\t1\t0\t4294967296\t4\n"),
            (1, b"job\t42949672950\t0\t0\t4\n"), (1, b"job\t18446744073709551617\t0\t0\t4\n"),
            (1, b"job\t" + b"9" * 400 + b"\t0\t0\t4\n"),
            (1, b"job\t\xd9\xa1\t0\t0\t4\n"), (1, b"job\t10\t0\t0\t1025\n"), (1, b"job\t10\t0\t0\t4294967296\n"),
            (2, HEAD + b"e\t256\t0\n"), (2, HEAD + b"e\t0\t4294967296\n"), (2, HEAD + b"e\t2\t0\t4294967296\n"), (2, HEAD + b"e\t16\t18446744073709551616\t1\n"),
            (2, HEAD + b"e\t16\t0\t4294967296\n"), (2, HEAD + b"e\t4294967312\t0\t1\n"), (2, HEAD + b"e\t17\t4294967296\t1\n"),
            (2, HEAD + b"e\t18\t4294967296\n"), (2, HEAD + b"e\t16\t018446744073709551615\t1\n"), (2, HEAD + b"e\t16\n"), (2, HEAD + b"e\t16\t\t1\n"),
            (2, HEAD + b"e\t16\t1\t1\t1\t1\t1\t1\t1\t1\n"), (3, HEAD + b"e\t16\t18446744073709551615\t1\ne\t15\t4294967296\t2\n"),
            (3, HEAD + b"e\t0\t0\nn\t16\t4294967296\n"), (4, BODY + b"b\t1\t4294967296\n"),
            (2, HEAD + b"e\t00\t0\n"),
            (3, HEAD + b"e\t0\t0\nn\t4294967296\n"), (3, HEAD + b"e\t0\t0\nn\t1\t01\n"), (4, BODY + b"b\t64\t0\n"),
            (4, BODY + b"b\t0\t131072\n"),
            (4, BODY + b"b\t0\t4294967296\n"), (4, BODY + b"b\t00\t0\n"), (4, BODY + b"b\t4294967296\t0\n"),
            # how many numbers
            (1, b"job\t10\t0\t0\n"), (1, b"job\t10\t0\t0\t4\t0\n"), (1, b"job" + b"\t1" * 8 + b"\n"),
            (1, b"job" + b"\t1" * 9 + b"\n"),
            (2, HEAD + b"e\n"), (2, HEAD + b"e\t0\n"), (2, HEAD + b"e\t10\t1" + b"\t1" * 7 + b"\n"),
            (2, HEAD + b"e\t10\t1" + b"\t1" * 8 + b"\n"),
            (2, HEAD + b"n\n"), (2, HEAD + b"n\t1" + b"\t0" * 7 + b"\n"), (2, HEAD + b"n\t1" + b"\t0" * 8 + b"\n"),
            (4, BODY + b"b\t0\n"), (4, BODY + b"b\n"),
            (4, BODY + b"b\t0\t0\t0\n"),
            # the order
            (1, BODY[len(HEAD):]), (1, b"n\t1\n"), (1, b"b\t0\t0\n"), (2, HEAD + HEAD), (4, BODY + HEAD), (4, BODY + b"e\t0\t0\n"),
            (5, BODY + b"b\t0\t0\nn\t1\n"), (5, BODY + b"b\t0\t0\ne\t0\t0\n"), (5, BODY + b"b\t3\t0\nb\t3\t0\n"),
            (5, BODY + b"b\t3\t0\nb\t2\t0\n"),
            (6, BODY + b"b\t3\t0\nb\t63\t0\nb\t0\t0\n"),
            # how many lines
            (514, HEAD + b"e\t0\t0\n" * 513), (514, HEAD + b"e\t0\t0\n" * 513 + b"n\t1\n"),
            (1027, HEAD + b"e\t0\t0\n" + b"n\t1\n" * 1025),
            (1538, HEAD + b"e\t0\t0\n" * 512 + b"n\t1\n" * 1025),
            # the first of two
            (2, HEAD + b"x\n" + b"\n" * 50), (2, HEAD + b"e\t0\t0\r\nn\t1\r\n")):
        job(text, [9, place, 0, 0, 0])


def long_texts():
    """60,000 bytes are read, and no more."""
    def filled(n):
        nodes = [[1]] + [[65535] + [0] * 6 for _ in range(1023)]
        shape = lambda: text_of([entry(SCOPE, MOST, 1), YES], nodes, room=1024, subject=0)
        more = n - len(shape())
        for k in reversed(range(6, 6144)):
            wide = min(more, 9)
            if wide:
                nodes[k // 6][1 + k % 6] = 10**wide
                more -= wide
        assert len(shape()) == n
        return shape()
    job(filled(60000), answer=4, place=292)
    job(filled(60001), [9, 0, 0, 0, 0])
    job(b"\n" * 65536, [9, 0, 0, 0, 0])
    job(FIRST + b"x" * (60000 - len(FIRST)), [9, 13, 0, 0, 0])


def wide():
    """A scope's argument of 64 bits, and variables of both halves (wish 9)."""
    for mask in (0, 1, MOST, MOST + 1, 2**63, MASK - 1, MASK):
        hides = mask >> 63 & 1
        table = [entry(SCOPE, mask, 1), entry(MATCH, 0, 2), entry(PVAR, 63)]
        job(text_of(table, THREE), [0, 0, 2, 3, 3], KEPT + (b"" if hides else b"b\t63\t2\n"))
        job(text_of(table, THREE, bound=[(31, 0), (63, 1)]), [0, 0, 2, 3, 3] if hides else [1, 2, 2, 3, 4],
            KEPT + b"b\t31\t0\nb\t63\t1\n")
    # A scope with another count than one is no good entry, whatever the row has room for
    for n in (0, 2, 5, 6):
        job(text_of([[257 - 1 + n, 1, 1, *[1] * n], YES], THREE), [13, 0, 2, 3, 0])
    every = [(v, v % 3) for v in range(VARIABLES)]
    job(text_of([YES], THREE, bound=every), [0, 0, 2, 3, 1], KEPT + b"".join(line("b", *p) for p in every))
    job(text_of([entry(BUILD, 0, 1), entry(PVAR, 32)], THREE, bound=[(0, 1)]), [12, 32, 2, 3, 2], KEPT + b"b\t0\t1\n")


def large():
    """The most entries, nodes, bindings and room; the longest numbers."""
    full = [[65535, *range(max(k - 6, 0), k)] for k in range(1024)]
    chain = [entry(SEQ, 0, e + 1, 511) for e in range(510)] + [YES, YES]
    every = [(v, 1023 - v) for v in range(VARIABLES)]
    job(text_of(chain, full, room=1024, bound=every, units=MOST), [0, 0, 1023, 1024, 1021])
    job(text_of([entry(ALL, 0, 1), YES], full, room=1024, bound=every), [7, 0, 1023, 1024, 7])
    job(text_of([entry(ALL, 0, 1), YES], full[:1023], room=1024, bound=[(63, 1022)]), [0, 0, 1023, 1024, 7])
    wide = [entry(CONG, 65535, *[511] * 6) for _ in range(511)] + [YES]
    job(text_of(wide, full, room=1024, bound=every, units=MOST), [7, 0, 1023, 1024, 7])
    down = [entry(REC, 0, 1), entry(ALL, 0, 2), entry(CALL, 0, 0)]
    job(text_of(down, [[1]] + [[1, k - 1, k - 1] for k in range(1, 10)], room=1024), [6, 0, 9, 10, 1000])
    job(text_of(down, [[1]] + [[1, k - 1, k - 1] for k in range(1, 10)], room=1024, units=100000), [0, 0, 520, 521, 3068])
    job(text_of(down, [[1]] + [[1, k - 1, k - 1] for k in range(1, 11)], room=1024, units=100000), answer=7)
    job(text_of(down, [[1]] + [[1, k - 1] for k in range(1, 512)], room=1023, units=100000), answer=0)
    job(text_of([entry(SCOPE, MASK, 1), YES], THREE, bound=[(v, 2) for v in range(VARIABLES)], units=MOST), [0, 0, 2, 3, 2])
    job(text_of([YES], THREE, room=1024, units=0), [6, 0, 2, 3, 0])
    job(text_of([YES] * 512, [[0]] * 1024, start=511, room=1024), [0, 0, 1023, 1024, 1])


def generated():
    """Jobs made at random, and texts in which a few bytes or lines of such a job are changed."""
    rng = random.Random(20261116)
    made = []
    while len(made) < 200:
        table, rows = table_of(rng, rng.randint(4, 12)), []
        for _ in range(rng.randint(2, 6)):
            term(rng, rows, (1, 2, 3))
        nodes = [[r[0], *r[2:]] for r in rows]
        text = text_of(table, nodes, units=rng.choice((5, 8, 12, 20, 40, 400, 400, 5000)),
                room=len(nodes) + rng.choice((0, 1, 2, 4, 8)),
                       bound=[(v, rng.randrange(len(nodes))) for v in range(3) if rng.random() < 0.4])
        five, _ = five_of(text)
        if five[4] < 4:
            continue
        made.append(text)
        job(text)
    alphabet = b"\t\n\r 0123456789ebnjo"
    for text in made:
        cut = bytearray(text)
        for _ in range(rng.randint(1, 3)):
            k = rng.randrange(len(cut))
            what = rng.randrange(5)
            if what == 0:
                del cut[k]
            elif what == 1:
                cut.insert(k, rng.choice(alphabet))
            elif what == 2:
                cut[k] = rng.choice(alphabet)
            elif what == 3:
                digits = [j for j, c in enumerate(cut) if 48 <= c < 58]
                cut[rng.choice(digits)] = rng.choice(b"0123456789")
            else:
                lines = bytes(cut).splitlines(True)
                j = rng.randrange(len(lines))
                lines.insert(rng.randrange(len(lines)), lines.pop(j)) if rng.random() < 0.5 else lines.insert(j, lines[j])
                cut = bytearray(b"".join(lines))
        job(bytes(cut))


def write():
    for part in (small_runs, refusals, bad_texts, long_texts, wide, large, generated):
        part()
