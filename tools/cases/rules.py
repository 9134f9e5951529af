"""Rules as text: a model of the translator and of the writer, from document 02's text, and their cases.

A term is a variable's number or a pair of constructor and children; a rule is its left term, its right term and its conditions. A rule
becomes a tree of entries, which is then numbered in preorder. The writer follows the operands back to a rule, and prints it where that
rule's own entries are the ones that stand there.
"""
import random
import re

from lend import add, shown, summed
from model import (ALL, BUILD, CALL, FAIL, ID, LEFT, MATCH, MOST, PCON, PVAR, REC, SCOPE, SEQ, TEST, VARIABLES, WHERE, bad_entry, entry, first, is_free,
                   table_fits)

NUMBER = re.compile(rb"0|[1-9][0-9]*")


class Refused(Exception):
    """An answer, and the bad field of 18."""


# The text.

def number(fields, at, most, prefix=b""):
    """The number of field `at`, counted from 0; 18 where the field is missing or bad."""
    field = fields[at] if at < len(fields) else b""
    digits = field[len(prefix):]
    if not field.startswith(prefix) or not NUMBER.fullmatch(digits) or len(digits) > 10 or int(digits) > most:
        raise Refused(18, at + 1)
    return int(digits)


def term_at(fields, at):
    """The term that begins at a field, and the field after it."""
    if at < len(fields) and fields[at][:1] == b"v":
        return number(fields, at, MOST, b"v"), at + 1
    con, count, at, children = number(fields, at, 65535), number(fields, at + 1, 6), at + 2, []
    for _ in range(count):
        child, at = term_at(fields, at)
        children.append(child)
    return (con, children), at


def rule_of(line, ended):
    fields = line.split(b"\t")
    left, at = term_at(fields, 0)
    right, at = term_at(fields, at)
    conditions = []
    while at < len(fields):
        rec = number(fields, at, MOST)
        start, at = term_at(fields, at + 1)
        pattern, at = term_at(fields, at)
        conditions.append((rec, start, pattern))
    if not ended:
        raise Refused(18, len(fields) + 1)
    return left, right, conditions


def written(term):
    if isinstance(term, int):
        return ["v%d" % term]
    return ["%d" % term[0], "%d" % len(term[1])] + [f for child in term[1] for f in written(child)]


def line_of(left, right, conditions):
    fields = written(left) + written(right)
    for rec, start, pattern in conditions:
        fields += ["%d" % rec] + written(start) + written(pattern)
    return "\t".join(fields).encode() + b"\n"


# What refuses a rule.

def names(term):
    return {term} if isinstance(term, int) else set().union(*map(names, term[1]))


def all_names(left, right, conditions):
    return set().union(names(left), names(right), *(names(t) for c in conditions for t in c[1:]))


def is_bound(left, right, conditions):
    bound = names(left)
    for _, start, pattern in conditions:
        if names(start) - bound:
            return False
        bound |= names(pattern)
    return not names(right) - bound


def is_closed_rec(t, e):
    return e < len(t) // 8 and t[8 * e] // 16 == REC and not any(is_free(t, e, v) for v in range(VARIABLES))


def judge(t, rule):
    """19, 20 or 22 over the entries in use."""
    if not is_bound(*rule):
        raise Refused(19, 0)
    if max(all_names(*rule), default=0) >= VARIABLES:
        raise Refused(20, 0)
    if not all(is_closed_rec(t, rec) for rec, _, _ in rule[2]):
        raise Refused(22, 0)


# The entries. A tree is a kind, an argument and trees; the operand of a CALL is a number.

def pattern_tree(term):
    return (PVAR, term, []) if isinstance(term, int) else (PCON, term[0], [pattern_tree(c) for c in term[1]])


def seq(*steps):
    return steps[0] if len(steps) == 1 else (SEQ, 0, [steps[0], seq(*steps[1:])])


def rule_tree(left, right, conditions):
    def match(term):
        return MATCH, 0, [pattern_tree(term)]

    def build(term):
        return BUILD, 0, [pattern_tree(term)]
    where = [(WHERE, 0, [seq(build(start), (CALL, 0, [rec]), match(pattern))]) for rec, start, pattern in conditions]
    return SCOPE, sum(1 << v for v in all_names(left, right, conditions)), [seq(match(left), *where, build(right))]


def numbered(tree, at, rows):
    """Adds the tree's entries, of which the first is entry `at` + len(rows); that entry's number."""
    kind, argument, operands = tree
    row, here = len(rows), at + len(rows)
    rows.append(None)
    rows[row] = entry(kind, argument, *[o if isinstance(o, int) else numbered(o, at, rows) for o in operands])
    return here


def words_of(rule, at):
    rows = []
    numbered(rule_tree(*rule), at, rows)
    return [w for row in rows for w in (row + [0] * 8)[:8]]


# The two calls.

def table_refusal(t, used):
    return bad_entry(t[:8 * used]) if table_fits(t) and used <= len(t) // 8 else (2, 0)


def translate(t, used, text):
    """Answer, line, field and the entries in use, and the table."""
    answer, place = table_refusal(t, used)
    if answer:
        return (answer, place, 0, used), t
    *lines, rest = text.split(b"\n")
    made = []
    for k, (line, ended) in enumerate([(line, True) for line in lines] + ([(rest, False)] if rest else []), 1):
        try:
            rule = rule_of(line, ended)
            judge(t[:8 * used], rule)
            made += words_of(rule, used + len(made) // 8)
            if 8 * used + len(made) > len(t):
                raise Refused(23, 0)
        except Refused as refused:
            return (refused.args[0], k, refused.args[1], used), t
    return (0, 0, 0, used + len(made) // 8), t[:8 * used] + made + t[8 * used + len(made):]


class NoRule(Exception):
    """The entries are no rule's."""


class Reader:
    """Follows operands, through at most as many entries as the table has."""

    def __init__(self, t):
        self.t, self.left = t, len(t) // 8

    def row(self, e, *kinds):
        """The kind and the operands of an entry that has one of these kinds."""
        self.left -= 1
        if self.left < 0 or e >= len(self.t) // 8:
            raise NoRule
        word = self.t[8 * e:8 * e + 8]
        kind, count = divmod(word[0], 16)
        if kind not in kinds:
            raise NoRule
        return kind, word[first(kind):first(kind) + count]

    def term(self, e):
        kind, operands = self.row(e, PVAR, PCON)
        return self.t[8 * e + 1] if kind == PVAR else (self.t[8 * e + 1], [self.term(o) for o in operands])

    def of(self, kind, e):
        """The term of a MATCH or a BUILD."""
        return self.term(self.row(e, kind)[1][0])

    def condition(self, e):
        build, rest = self.row(self.row(e, WHERE)[1][0], SEQ)[1]
        call, match = self.row(rest, SEQ)[1]
        start, rec = self.of(BUILD, build), self.row(call, CALL)[1][0]
        return rec, start, self.of(MATCH, match)

    def rule(self, e):
        match, rest = self.row(self.row(e, SCOPE)[1][0], SEQ)[1]
        left, conditions = self.of(MATCH, match), []
        while self.t[8 * rest] // 16 == SEQ:
            where, rest = self.row(rest, SEQ)[1]
            conditions.append(self.condition(where))
        return left, self.of(BUILD, rest), conditions


def write_rule(t, used, e, buffer):
    """Answer, place and length, and the buffer."""
    answer, place = table_refusal(t, used)
    if answer:
        return (answer, place, 0), buffer
    t = t[:8 * used]
    try:
        rule = Reader(t).rule(e)
        judge(t, rule)
        made = words_of(rule, e)
        if t[8 * e:8 * e + len(made)] != made:
            raise NoRule
    except (NoRule, Refused):
        return (5, 0, 0), buffer
    line = line_of(*rule)
    return ((0, 0, len(line)), line + buffer[len(line):]) if len(line) <= len(buffer) else ((26, 0, 0), buffer)


# The cases as bytes. The number of entries in use stands in the place of SUBJECT. Of the translator START is the length of the text, which
# stands before the label; of the writer it is the entry, and the buffer has a byte in each word of the store.

def slice_shown(words):
    return shown(words) if len(words) <= 512 else " %d" % summed(words)


def body_of(t, fill, buffer, start, used, rest):
    """fill: the word that most of the table has. Every byte of the buffer is 0 or every one 255, or it is short."""
    full = len(buffer) > 0 and buffer.count(255) * 2 > len(buffer)
    patches = [(0, i, w) for i, w in enumerate(t) if w != fill] + [(1, i, b) for i, b in enumerate(buffer) if b != 255 * full]
    numbers = [len(t), len(buffer), 0, 0, start, used, 0, 16 + full, 0, 0, fill, len(patches), *[x for p in patches for x in p]]
    return " ".join(map(str, numbers)).encode() + b" " + rest


def add_translation(label, t, fill, used, text, line, after):
    """line: the four numbers. after: the text that shows the table."""
    add("a", body_of(t, fill, b"", len(text), used, text + label.encode()), ("%s %d %d %d %d%s\n" % (label, *line, after)).encode())


def add_writing(label, t, fill, used, e, buffer, line, after):
    add("w", body_of(t, fill, buffer, e, used, label.encode()), ("%s %d %d %d%s\n" % (label, *line, after)).encode())


labels = set()


def tabbed(text):
    return text.replace(" ", "\t").encode() if isinstance(text, str) else text


def rows(*entries):
    return [w for row in entries for w in (row + [0] * 8)[:8]]


def case(label, base, text, *want, room=60, used=None, fill=77, length=None, gives=None):
    """Translates into a table whose first words are base, with room for so many entries more, every word of them `fill`. want: answer, line and
    field. gives: the rows that must be added. The table after it.
    """
    assert label not in labels, label
    labels.add(label)
    used = len(base) // 8 if used is None else used
    t = base + [fill] * (8 * room)
    t = t if length is None else (t + [fill] * length)[:length]
    line, after = translate(t, used, tabbed(text))
    assert line[:3] == (want or (0, 0, 0)), (label, line, want)
    assert gives is None or after[8 * used:8 * line[3]] == gives, label
    add_translation(label, t, fill, used, tabbed(text), line, slice_shown(after))
    return after[:8 * line[3]]


def back(label, t, e, *want, used=None, buffer=None, soil=0, above=()):
    """Writes the rule at entry e. buffer: its length. want: answer and place, or the line."""
    assert label not in labels, label
    labels.add(label)
    used = len(t) // 8 if used is None else used
    lent = bytes([soil]) * (200 if buffer is None else buffer)
    words = t + list(above)
    line, after = write_rule(words, used, e, lent)
    if isinstance(want[0], str):
        assert line == (0, 0, len(want[0])) and after[:line[2]] == tabbed(want[0]), (label, line, after)
    else:
        assert line == (*want, 0), (label, line, want)
    add_writing(label, words, 0, used, e, lent, line, slice_shown(after))


# Entry 0 is a REC without free variables, 2 one whose variable 9 is free, 5 one that calls it, 7 one that hides it; 10 is a BUILD of
# variable 40 and 12 a REC of itself alone.
BASE = rows(entry(REC, 0, 1), entry(ID), entry(REC, 0, 3), entry(MATCH, 0, 4), entry(PVAR, 9), entry(REC, 0, 6), entry(CALL, 0, 2), entry(REC, 0, 8),
            entry(SCOPE, 1 << 9, 9), entry(CALL, 0, 5), entry(BUILD, 0, 11), entry(PVAR, 40), entry(REC, 0, 13), entry(CALL, 0, 12))
SWAP = "5 2 v0 v1 5 2 v1 v0\n"
TWO = "v0 v2 0 v0 4 1 v1 7 v1 v2\n"


def entries():
    """What a rule becomes."""
    case("the swap rule", [], SWAP, gives=rows(
        entry(SCOPE, 3, 1), entry(SEQ, 0, 2, 6), entry(MATCH, 0, 3), entry(PCON, 5, 4, 5), entry(PVAR, 0), entry(PVAR, 1),
        entry(BUILD, 0, 7), entry(PCON, 5, 8, 9), entry(PVAR, 1), entry(PVAR, 0)))
    for v in (0, 31, 32, 63):
        case("variable %d to itself" % v, [], "v%d v%d\n" % (v, v), gives=rows(
            entry(SCOPE, 1 << v, 1), entry(SEQ, 0, 2, 4), entry(MATCH, 0, 3), entry(PVAR, v), entry(BUILD, 0, 5), entry(PVAR, v)))
    case("a rule without variables", [], "65535 0 0 0\n", gives=rows(
        entry(SCOPE, 0, 1), entry(SEQ, 0, 2, 4), entry(MATCH, 0, 3), entry(PCON, 65535), entry(BUILD, 0, 5), entry(PCON, 0)))
    case("two conditions", BASE[:80], TWO, gives=rows(
        entry(SCOPE, 7, 11), entry(SEQ, 0, 12, 14), entry(MATCH, 0, 13), entry(PVAR, 0), entry(SEQ, 0, 15, 24), entry(WHERE, 0, 16),
        entry(SEQ, 0, 17, 19), entry(BUILD, 0, 18), entry(PVAR, 0), entry(SEQ, 0, 20, 21), entry(CALL, 0, 0), entry(MATCH, 0, 22),
        entry(PCON, 4, 23), entry(PVAR, 1), entry(SEQ, 0, 25, 33), entry(WHERE, 0, 26), entry(SEQ, 0, 27, 29), entry(BUILD, 0, 28),
        entry(PVAR, 1), entry(SEQ, 0, 30, 31), entry(CALL, 0, 7), entry(MATCH, 0, 32), entry(PVAR, 2), entry(BUILD, 0, 34), entry(PVAR, 2)))
    case("a variable that only a condition has", BASE, "1 0 1 0 0 1 0 v40\n")
    case("prefix form, six children", BASE, "1 6 v0 2 1 v1 3 0 v0 4 2 5 0 v2 v1 6 3 v2 v1 v0\n")
    comb = "".join("1 2 v%d " % v for v in range(63)) + "v63"
    case("all 64 variables", BASE, comb + " v63\n", room=200)
    case("the variables of five conditions", BASE, "v0 2 5 v10 v21 v32 v43 v54 0 v0 v10 7 v10 v21 12 v21 v32 0 v32 v43 7 v43 v54\n", room=90)
    case("empty text", BASE, "")
    case("empty text, none in use", [], "", room=1)
    case("several rules", BASE, SWAP + TWO + "1 0 2 0\n" + SWAP, room=80)
    case("none in use of many", BASE, "v3 v3\n", used=0)
    case("some in use, a bad entry above them", BASE[:16] + [MOST] * 24, SWAP, used=2)
    deep = 700
    case("a left term %d deep" % deep, BASE, "1 1 " * deep + "v0 v0\n", room=deep + 40)
    case("both terms 1000 deep", BASE, "1 1 " * 1000 + "v0 " + "7 1 " * 1000 + "v0\n", room=2020)
    case("children of children to the right", BASE, "1 6 v0 v0 v0 v0 v0 " * 60 + "v1 v1\n", room=500)
    case("children of children to the left", BASE, "1 6 " * 60 + "v1 " + "v0 " * 300 + "v1\n", room=500)


def bad_fields():
    """18 with the line and the first bad field."""
    for text, field in (("\n", 1), ("\n\n", 1), ("v0\n", 2), ("1\n", 2), ("1 2\n", 3), ("1 2 v0\n", 4), ("1 2 v0 v1\n", 5), ("v0 v0 0\n", 4),
                        ("v0 v0 0 v0\n", 5), ("v0 v0 0 v0 1\n", 6), ("v0 v0 0 v0 1 1\n", 7), ("v0 v0 0 v0 v0 0\n", 7), (" v0 v0\n", 1), ("v0  v0\n", 2),
                        ("v0 v0 \n", 3), ("v0 v0\r\n", 2), ("V0 v0\n", 1), ("x v0\n", 1), ("v v0\n", 1), ("vv0 v0\n", 1), ("v0x v0\n", 1), ("+1 0 v0\n", 1),
                        ("-1 0 v0\n", 1), ("v-1 v0\n", 1), ("v+1 v0\n", 1), ("v00 v0\n", 1), ("v01 v0\n", 1), ("00 0 v0\n", 1), ("0 00 v0\n", 2),
                        ("v0 v0 00 v0 v0\n", 3), ("65536 0 1 0\n", 1), ("1 7 v0 v0 v0 v0 v0 v0 v0 v0\n", 2), ("1 v0 v0\n", 2), ("1 1 65536 0 v0\n", 3),
                        ("v4294967296 v0\n", 1), ("v18446744073709551616 v0\n", 1), ("v0 v0 4294967296 v0 v0\n", 3), ("v0 v0 v0 v0 v0\n", 3),
                        ("v0 v0 18446744073709551616 v0 v0\n", 3), ("4294967296 0 v0\n", 1), ("1 4294967296 v0\n", 2), ("v0 x y\n", 2), ("1 1 x\n", 3),
                        ("v0 v0 x v0 v0\n", 3), ("v0 v0 0 x v0\n", 4), ("v0 v0 0 v0 x\n", 5), ("v0 v0 0 v0 v0 0 v0 v0 \n", 9), ("v0 v1 1 v64 v65 x\n", 6),
                        ("v0 v0", 3), ("v0", 2), ("v", 1), ("v0 x", 2), ("v0 v1", 3), ("v0 v0 1 v64 v0", 6), ("1 1", 3), ("e 0 0\n", 1)):
        case("18 in %r" % text, BASE, text, 18, 1, field)
    for byte in (0, 11, 32, 47, 58, 128, 255):
        case("byte %d as a field" % byte, BASE, b"v0\t%c\n" % byte, 18, 1, 2)
        case("byte %d after a digit" % byte, BASE, b"v0\tv1%c\n" % byte, 18, 1, 2)
    case("a number of 5000 digits", BASE, "v" + "9" * 5000 + " v0\n", 18, 1, 1)
    case("a number of 5000 zeros", BASE, "v0 " + "0" * 5000 + " 0\n", 18, 1, 2)
    case("18 in the third line", BASE, "v0 v0\nv0 v0\nx\n", 18, 3, 1)
    case("a blank line between", BASE, "v0 v0\n\nv0 v0\n", 18, 2, 1)
    case("a last line without its line feed", BASE, "v0 v0\n1 1 v0 v0", 18, 2, 5)
    case("a long line without its line feed", BASE, "v0 " + "1 1 " * 900 + "v0", 18, 1, 1803)
    case("1800 fields, the last bad", BASE, "v0 " + "1 1 " * 900 + "x\n", 18, 1, 1802)


def refusals():
    """19, 20, 22 and 23, and their order."""
    for text in ("v0 v1\n", "1 0 2 1 v0\n", "v0 v0 0 v1 v0\n", "v0 v0 0 v1 v1\n", "v0 v0 0 v1 v2 0 v0 v1\n", "v0 v1 0 v1 v0\n", "v64 v1\n", "v0 v65 1 v64 v65\n",
                 "v0 v4294967295\n", "v31 v63\n", "v0 v32\n", "v0 v64\n", "v0 v0 1 v1 v64\n"):
        case("19 in %r" % text, BASE, text, 19, 1, 0)
    for text in ("v0 v1 0 v0 v1\n", "v0 v2 0 v0 v1 0 v1 v2\n", "2 2 v0 v0 1 0 0 1 0 v5\n", "v0 v0 0 v0 v0\n"):
        case("bound in %r" % text, BASE, text)
    for text in ("v64 v64\n", "v64 1 0\n", "v0 v0 0 v0 v64\n", "v0 v64 0 v0 v64\n", "v4294967295 v4294967295\n", "v0 v65 1 v0 v65\n", "1 1 v96 v96\n", "v0 v0 0 v0 v64 1 v0 v0\n"):
        case("20 in %r" % text, BASE, text, 20, 1, 0)
    # Variables that share their lowest twelve bits, and then some more of them.
    for name, far in (("close by", [64 + i for i in range(150)]), ("twelve bits shared", [64 + 4096 * i for i in range(150)]),
                      ("one bit apart", [64] + [64 + 2 ** i for i in range(12, 32)]), ("the greatest", [4294967295 - i for i in range(150)])):
        there = " ".join("1 2 v%d" % v for v in far) + " 1 0"
        turned = " ".join("1 2 v%d" % v for v in reversed(far)) + " 1 0"
        for way, text in (("left", there + " " + turned), ("outcome", "v0 " + turned + " 0 v0 " + there),
                          ("start", there + " v%d 0 " % far[-1] + turned + " v1")):
            case("20, many variables out of range, %s, %s" % (name, way), BASE, text + "\n", 20, 1, 0)
        for one in (far[0], far[len(far) // 2], far[-1]):
            gap = there.replace("v%d " % one, "v0 ")
            case("19, v%d of many not bound, %s" % (one, name), BASE, gap + " " + turned + "\n", 19, 1, 0)
            case("19, v%d of many bound too late, %s" % (one, name), BASE, gap + " v0 0 " + turned + " v%d\n" % one, 19, 1, 0)
    for e in (1, 2, 3, 4, 5, 6, 8, 9, 10, 11, 13, 14, 15, 73, 74, 4095, 4096, 4294967295):
        case("22 for entry %d" % e, BASE, "v0 v0 %d v0 v0\n" % e, 22, 1, 0)
    for e in (0, 7, 12):
        case("the REC at entry %d" % e, BASE, "v0 v0 %d v0 v0\n" % e)
    case("22 in the second condition", BASE, "v0 v0 0 v0 v0 1 v0 v0\n", 22, 1, 0)
    case("a REC above those in use", BASE, "v0 v0 12 v0 v0\n", 22, 1, 0, used=12)
    case("none in use, a condition", BASE, "v0 v0 0 v0 v0\n", 22, 1, 0, used=0)
    case("a rule's own entries are no REC", BASE, "v0 v0\nv0 v0 14 v0 v0\n", 22, 2, 0)
    case("22 before 23", BASE, "v0 v0 1 v0 v0\n", 22, 1, 0, room=0)
    case("20 before 23", BASE, "v64 v64\n", 20, 1, 0, room=0)
    case("19 before 23", BASE, "v0 v1\n", 19, 1, 0, room=5)
    case("18 before 23", BASE, "v0 v1 x\n", 18, 1, 3, room=0)
    case("19 in line 2 before 18 in line 3", BASE, "v0 v0\nv0 v1\nx\n", 19, 2, 0)
    case("22 in line 1 before 18 in line 2", BASE, "v0 v0 1 v0 v0\nx", 22, 1, 0)
    case("23 in line 1 before 18 in line 2", BASE, "v0 v0\nx\n", 23, 1, 0, room=5)
    for room in (0, 1, 5):
        case("room for %d of six entries" % room, BASE, "v0 v0\n", 23, 1, 0, room=room)
    case("room for six of six entries", BASE, "v0 v0\n", room=6)
    case("room for one rule of two", BASE, "v0 v0\nv0 v0\n", 23, 2, 0, room=11)
    case("room for two rules of two", BASE, "v0 v0\nv0 v0\n", room=12)
    case("no room, no rule", BASE, "", room=0)
    case("4092 of 4096 entries", [], "v0 v0\n" * 682, length=32768)
    case("4096 entries and two", [], "v0 v0\n" * 683, 23, 683, 0, length=32768)
    case("exactly 4096 entries", BASE, "v0 v0\n" * 679 + "1 2 v0 v1 1 0\n", length=32768)
    case("one more than 4096 entries", BASE, "v0 v0\n" * 679 + "1 2 v0 v1 1 1 v0\n", 23, 680, 0, length=32768)
    case("5000 rules", [], "v0 v0\n" * 5000, 23, 683, 0, length=32768)


def tables():
    """2 and 13 to 17 over the entries in use, before any line."""
    for length in (0, 1, 7, 9, 111, 113, 32767, 32769, 32776):
        case("a lent table of %d words" % length, [], "v0 v0\n", 2, 0, 0, length=length, room=0)
        case("a lent table of %d words, no text" % length, [], "", 2, 0, 0, length=length, room=0)
    for used in (75, 76, 4096, 4294967295):
        case("%d in use of 74" % used, BASE, "v0 v0\n", 2, 0, 0, used=used)
    case("all in use", BASE, "", room=0)
    case("no multiple of 8, a bad entry, a bad line", [MOST] * 8, "x", 2, 0, 0, length=12, used=1)
    good = entry(ID)
    for label, row, answer in (("an unknown kind", [320], 13), ("a wrong count", [16 * ID + 1, 0, 2], 13), ("variable 64", entry(PVAR, 64), 14),
                               ("an argument of ID", entry(ID, 1), 14), ("an operand below", entry(TEST, 0, 0), 15), ("an operand above those in use", entry(TEST, 0, 3), 15),
                               ("an operand outside", entry(TEST, 0, 4000), 15), ("an operand that is a pattern", entry(ALL, 0, 2), 16), ("a CALL of no REC", entry(CALL, 0, 0), 16),
                               ("a CALL above those in use", entry(CALL, 0, 3), 15), ("an unused word", [16 * FAIL, 0, 0, 0, 0, 0, 0, 1], 17),
                               ("a scope's operand one word late", [16 * SCOPE + 1, 1, 0, 0, 2], 15)):
        t = rows(good, row, entry(PVAR, 3), entry(REC, 0, 4), good)
        case(label + " in use", t, "x\n", answer, 1, 0, used=3)
        back(label + ", writing", t, 0, answer, 1, used=3)
    two = rows(good, [320], entry(FAIL, 1))
    case("two bad entries", two, "v0 v1\n", 13, 1, 0)
    case("the bad entries are not in use", two[8:], "v0 v0\n", used=0)


def writing():
    t = case("rules to write back", BASE, SWAP + TWO + "1 0 65535 0\n" + "v63 v63 12 v63 4 2 v62 v61\n", room=90)
    a, b, c, d = 14, 24, 49, 55
    back("the swap rule back", t, a, SWAP)
    back("two conditions back", t, b, TWO)
    back("no variables back", t, c, "1 0 65535 0\n")
    back("high variables back", t, d, "v63 v63 12 v63 4 2 v62 v61\n")
    for soil in (0, 7, 255):
        back("an exact buffer of %d" % soil, t, a, SWAP, buffer=len(SWAP), soil=soil)
        back("a byte more of %d" % soil, t, a, SWAP, buffer=len(SWAP) + 1, soil=soil)
        back("a byte too short of %d" % soil, t, a, 26, 0, buffer=len(SWAP) - 1, soil=soil)
        back("a long buffer of %d" % soil, t, b, TWO, buffer=400, soil=soil)
    back("an empty buffer", t, a, 26, 0, buffer=0)
    back("no rule, an empty buffer", t, 0, 5, 0, buffer=0)
    for e in sorted({*range(len(t) // 8)} - {a, b, c, d}):
        back("no rule at entry %d" % e, t, e, 5, 0, buffer=30, soil=9)
    for e in (len(t) // 8, 4095, 4096, 536870912, 4294967295):
        back("no rule at entry %d, which is not in use" % e, t, e, 5, 0)
    back("a rule that is not in use", t, d, 5, 0, used=d)
    back("a rule of which the last entry is not in use", t, a, 15, 21, used=b - 1)
    back("bad words above those in use", t, b, TWO, above=[MOST] * 16)
    back("more in use than lent, writing", t, a, 2, 0, used=len(t) // 8 + 1)
    back("a length of no multiple of 8, writing", t, a, 2, 0, above=[0])
    back("an empty table, writing", [], 0, 2, 0)
    back("none in use, writing", t, 0, 5, 0, used=0)

    def changed(label, e, j, w, answer=(5, 0), start=None):
        other = list(t)
        other[8 * e + j] = w
        back(label, other, b if start is None else start, *answer)
    changed("a mask of one variable more", b, 1, 15)
    changed("a mask of one variable less", b, 1, 3)
    changed("a mask of variable 32 more", b, 2, 1)
    changed("a mask of high variables less", d, 2, 1 << 31, start=d)
    changed("another constructor", 36, 1, 5, ("v0 v2 0 v0 5 1 v1 7 v1 v2\n",))
    changed("a CALL of a REC with a free variable", 34, 2, 2)
    changed("a CALL of another REC", 34, 2, 12, ("v0 v2 12 v0 4 1 v1 7 v1 v2\n",))
    changed("TEST for WHERE", 29, 0, 16 * TEST + 1)
    changed("LEFT for SEQ", 28, 0, 16 * LEFT + 2)
    changed("MATCH for BUILD", 31, 0, 16 * MATCH + 1)
    changed("BUILD for MATCH", 35, 0, 16 * BUILD + 1)
    changed("a starting variable that is not bound", 32, 1, 1)
    changed("a right-hand variable that is not bound", 48, 1, 3)
    changed("a right-hand variable that is bound", 48, 1, 0, ("v0 v0 0 v0 4 1 v1 7 v1 v2\n",))
    changed("a shared pattern", 47, 2, 48, ("v0 v2 0 v0 4 1 v1 7 v1 v2\n",))
    changed("a pattern of another rule", 47, 2, 52)
    changed("a pattern below in the order", 36, 2, 42)
    changed("the conditions in another place", 28, 3, 47)
    swapped = list(t)
    swapped[8 * a + 8 * 3 + 2], swapped[8 * a + 8 * 3 + 3] = t[8 * a + 8 * 3 + 3], t[8 * a + 8 * 3 + 2]
    back("children in another order", swapped, a, 5, 0)
    # Conditions after the build, and SEQs nested to the left.
    after = rows(entry(REC, 0, 1), entry(ID), entry(SCOPE, 1, 3), entry(SEQ, 0, 4, 6), entry(MATCH, 0, 5), entry(PVAR, 0), entry(SEQ, 0, 7, 9), entry(BUILD, 0, 8),
                 entry(PVAR, 0), entry(WHERE, 0, 10), entry(SEQ, 0, 11, 13), entry(BUILD, 0, 12), entry(PVAR, 0), entry(SEQ, 0, 14, 15), entry(CALL, 0, 0),
                 entry(MATCH, 0, 16), entry(PVAR, 0))
    back("a condition after the build", after, 2, 5, 0)
    # The rule first, its REC behind it.
    behind = words_of(((1, []), 3, [(15, (2, []), 3)]), 0)
    assert len(behind) == 8 * 15
    back("a REC behind the rule", behind + rows(entry(REC, 0, 16), entry(ID)), 0, "1 0 v3 15 2 0 v3\n")
    back("a REC behind the rule, with a free variable", behind + rows(entry(REC, 0, 16), entry(MATCH, 0, 17), entry(PVAR, 3)), 0, 5, 0)
    back("a REC around the rule", rows(entry(REC, 0, 1)) + words_of((0, 0, [(0, 0, 0)]), 1), 1, "v0 v0 0 v0 v0\n")
    shared = rows(entry(SCOPE, 1, 1), entry(SEQ, 0, 2, 4), entry(MATCH, 0, 3), entry(PVAR, 0), entry(BUILD, 0, 5), entry(PCON, 2, 6, 6), entry(PVAR, 0))
    back("two children that are one entry", shared, 0, 5, 0)
    shared = rows(entry(SCOPE, 1, 1), entry(SEQ, 0, 2, 3), entry(MATCH, 0, 4), entry(BUILD, 0, 4), entry(PVAR, 0))
    back("both terms one entry", shared, 0, 5, 0)
    towers = [entry(SCOPE, 1, 1), entry(SEQ, 0, 2, 43), entry(MATCH, 0, 3)] + [entry(PCON, 1, *[e] * 6) for e in range(4, 42)]
    towers += [entry(PVAR, 0), entry(ID), entry(BUILD, 0, 44), entry(PVAR, 0)]
    back("a tower of shared entries", rows(*towers), 0, 5, 0)
    deep = case("a deep rule to write", [], "1 1 " * 500 + "v0 " + "2 1 " * 500 + "v0\n", room=1010)
    back("a deep rule back", deep, 0, "1 1 " * 500 + "v0 " + "2 1 " * 500 + "v0\n", buffer=5000)
    back("a deep rule, a byte too short", deep, 0, 26, 0, buffer=4005)


def generated():
    """Texts at random over BASE; every rule of an accepted one is written back. Then one word of its entries is changed."""
    rng = random.Random(20261116)

    def term(names_, depth):
        if names_ and (depth == 0 or rng.random() < 0.4):
            return rng.choice(names_)
        return rng.choice((0, 1, 2, 65535)), [term(names_, depth - 1) for _ in range(rng.choice((0, 1, 2, 2, 3, 6)) if depth > 0 else 0)]

    def rule():
        pool = rng.sample(range(64), rng.randint(1, 4))
        left, conditions = term(pool, 2), []
        bound = sorted(names(left))
        for _ in range(rng.choice((0, 0, 1, 1, 2, 3))):
            start, pattern = term(bound, 1), term(pool, 1)
            conditions.append((rng.choice((0, 7, 12)), start, pattern))
            bound = sorted({*bound, *names(pattern)})
        return left, term(bound, 2), conditions
    for k in range(120):
        made = [rule() for _ in range(rng.randint(1, 3))]
        text = b"".join(line_of(*r) for r in made)
        need = sum(len(words_of(r, 14)) // 8 for r in made)
        label = "random rules %d" % k
        t = case(label, BASE, text, room=need + rng.choice((0, 0, 1, 4)))
        e = 14
        for j, r in enumerate(made):
            back("%s, rule %d back" % (label, j), t, e, line_of(*r).decode().replace("\t", " "), buffer=len(line_of(*r)) + rng.choice((0, 0, 3)), soil=rng.choice((0, 255)))
            e += len(words_of(r, e)) // 8
        spoilt = list(t)
        spoilt[rng.randrange(8 * 14, len(t))] = rng.choice((0, 1, 2, 14, 15, 16, 17, 18, 20, 66, 225, 241, 273, 288, MOST))
        lent = bytes(100)
        line, after = write_rule(spoilt, len(t) // 8, 14, lent)
        add_writing("%s, a word changed" % label, spoilt, 0, len(t) // 8, 14, lent, line, slice_shown(after))
        cut = bytearray(text)
        for _ in range(rng.randint(1, 2)):
            at = rng.randrange(len(cut))
            what = rng.randrange(3)
            if what == 0:
                del cut[at]
            elif what == 1:
                cut.insert(at, rng.choice(b"\t\n\r 0123456789vvx"))
            else:
                cut[at] = rng.choice(b"\t\n0123456789v")
        words = BASE + [77] * (8 * (need + rng.choice((-1, 0, 0, 30))))
        line, after = translate(words, 14, bytes(cut))
        add_translation("%s, bytes changed" % label, words, 77, 14, bytes(cut), line, slice_shown(after))


def write():
    for part in (entries, bad_fields, refusals, tables, writing, generated):
        part()
