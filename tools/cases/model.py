"""A model of document 01, with what document 02 changes in it, written from their texts and sharing nothing with the crates: the
two checks, the question of free variables, the run, also with a signature, an index or counts, on many subjects and in steps, the collection, and
the job text.
What the executed cases must answer comes from it.
"""
import re

MOST = 2**32 - 1
VARIABLES = 64
MASK = 2**VARIABLES - 1
NAMES = ("ID FAIL TEST NOT SEQ CHOICE LEFT REC CALL PATH CONG ALL ONE SOME MATCH BUILD SCOPE WHERE PVAR PCON").split()
(ID, FAIL, TEST, NOT, SEQ, CHOICE, LEFT, REC, CALL, PATH, CONG, ALL, ONE, SOME, MATCH, BUILD, SCOPE, WHERE, PVAR,
 PCON) = range(20)
# The least and the most operands, and the least and the highest argument; (1, 1) and (0, 0) where a kind is not named.
COUNTS = {ID: (0, 0), FAIL: (0, 0), SEQ: (2, 2), CHOICE: (2, 2), LEFT: (2, 2), CONG: (0, 6), PVAR: (0, 0), PCON: (0, 6)}
ARGUMENTS = {PATH: (1, 6), CONG: (0, 65535), SCOPE: (0, MASK), PVAR: (0, VARIABLES - 1), PCON: (0, 65535)}


def counts(kind):
    return COUNTS.get(kind, (1, 1))


def arguments(kind):
    return ARGUMENTS.get(kind, (0, 0))


def sort(kind):
    return "strategy" if kind <= 17 else "pattern" if kind <= 19 else None


def takes(kind):
    """The sort of its operands."""
    return "pattern" if kind in (MATCH, BUILD, PCON) else "strategy"


def entry(kind, argument=0, *operands, count=None):
    """The words of an entry that are used. A scope's mask has two, its lower half first."""
    words = [argument & MOST, argument >> 32] if kind == SCOPE else [argument]
    return [16 * kind + (len(operands) if count is None else count), *words, *operands]


def first(kind):
    """The word of the first operand."""
    return 3 if kind == SCOPE else 2


def mask(word):
    """The mask of a scope's words."""
    return word[1] | word[2] << 32


# The two checks.

def fault(t, e):
    """13 to 17, the first in this order that entry e has, each asked of the whole entry; 0 where it has none."""
    word = t[8 * e:8 * e + 8]
    kind, count = divmod(word[0], 16)
    if kind > 19 or not counts(kind)[0] <= count <= counts(kind)[1]:
        return 13
    low, high = arguments(kind)
    if not low <= word[1] <= high:
        return 14
    operands = word[first(kind):first(kind) + count]
    if any(o >= len(t) // 8 or kind != CALL and o <= e for o in operands):
        return 15
    kinds = [t[8 * o] // 16 for o in operands]
    if any(of != REC if kind == CALL else sort(of) != takes(kind) for of in kinds):
        return 16
    return 17 if any(word[first(kind) + count:]) else 0


def good_node(s, k):
    con, count, *rest = s[8 * k:8 * k + 8]
    return con <= 65535 and count <= 6 and all(c < k for c in rest[:count]) and not any(rest[count:])


def table_fits(t):
    return 0 < len(t) <= 32768 and len(t) % 8 == 0


def store_fits(s, mark):
    return len(s) <= 1048576 and len(s) % 8 == 0 and mark <= len(s) // 8


def bad_entry(t):
    """The fault of the lowest bad entry, and its place; or 0."""
    return next(((fault(t, e), e) for e in range(len(t) // 8) if fault(t, e)), (0, 0))


def bad_node(s, mark):
    """4 with the lowest bad node below the mark, or 0."""
    return next(((4, k) for k in range(mark) if not good_node(s, k)), (0, 0))


def check_table(t):
    return bad_entry(t) if table_fits(t) else (2, 0)


def check_store(s, mark):
    return bad_node(s, mark) if store_fits(s, mark) else (2, 0)


def is_start(t, e):
    return e < len(t) // 8 and sort(t[8 * e] // 16) == "strategy"


# The question of free variables: a variable is free in a strategy when one of its positions can be reached through operands
# without entering a SCOPE that masks it.

def is_free(t, start, v):
    seen, rest = {start}, [start]
    while rest:
        e = rest.pop()
        kind, count = divmod(t[8 * e], 16)
        if kind == PVAR and t[8 * e + 1] == v:
            return True
        if kind == SCOPE and mask(t[8 * e:8 * e + 8]) >> v & 1:
            continue
        for o in t[8 * e + first(kind):8 * e + first(kind) + count]:
            if o not in seen:
                seen.add(o)
                rest.append(o)
    return False


def free_variables(t, e):
    answer, place = check_table(t)
    if answer:
        return answer, place, 0
    if not is_start(t, e):
        return 5, 0, 0
    return 0, 0, sum(1 << v for v in range(VARIABLES) if is_free(t, e, v))


# The run. A state is a term and a dictionary of bindings; a failure is None.

def signature_fits(signature):
    return len(signature) <= 65536 and all(w <= 7 for w in signature)


def declared(signature, con, count):
    """7 declares nothing, and is no count."""
    return con < len(signature) and signature[con] == count < 7


def disobeying(t, s, mark, signature):
    """10 with the lowest CONG or PCON, then 11 with the lowest node below the mark, that does not obey; or 0."""
    for e in range(len(t) // 8):
        kind, count = divmod(t[8 * e], 16)
        if kind in (CONG, PCON) and not declared(signature, t[8 * e + 1], count):
            return 10, e
    return next(((11, k) for k in range(mark) if not declared(signature, *s[8 * k:8 * k + 2])), (0, 0))


def work_fits(words):
    """80 words for each of 4,096 levels."""
    return words >= 80 * 4096


def repeated(s, mark):
    """21 with the lowest node below the mark that has the words of an earlier one."""
    seen = set()
    for k in range(mark):
        row = tuple(s[8 * k:8 * k + 8])
        if row in seen:
            return 21, k
        seen.add(row)
    return 0, 0


# The highest count that may be lent.
MOST_COUNT = 18446744069414584320


def full_count(counts):
    """24 with the lowest entry that has a count above the highest; or 0."""
    return next(((24, i // 4) for i, w in enumerate(counts) if w > MOST_COUNT), (0, 0))


def refusal(t, s, b, mark, start, subjects, signature=None, results=None, work=None, index=None, counts=None):
    """The answer and the place; 0 where nothing is refused. No signature is None, and not an empty one. A list of results is lent
    where there are many subjects, a work list, of which the length is given, where a run is stepped, and counts where it is counted.
    """
    if not table_fits(t) or not store_fits(s, mark) or len(b) != VARIABLES:
        return 2, 0
    if results is not None and len(results) != 5 * len(subjects) or signature is not None and not signature_fits(signature):
        return 2, 0
    if work is not None and not work_fits(work):
        return 2, 0
    if index is not None and len(index) < 2 * (len(s) // 8):
        return 2, 0
    if counts is not None and len(counts) != 4 * (len(t) // 8):
        return 2, 0
    bad = bad_entry(t)
    if bad == (0, 0):
        bad = bad_node(s, mark)
    if bad == (0, 0) and signature is not None:
        bad = disobeying(t, s, mark, signature)
    if bad == (0, 0) and index is not None:
        bad = repeated(s, mark)
    if bad == (0, 0) and (not is_start(t, start) or any(k >= mark for k in subjects) or any(w > mark for w in b)):
        bad = 5, 0
    if bad == (0, 0) and counts is not None:
        bad = full_count(counts)
    return bad


class Cut(Exception):
    """What ends the run, caught by nothing: its answer and its place."""


class Run:
    def __init__(self, t, s, mark, units, aside=None, shared=False, counts=None):
        # Whether a node that stands with the same words is not made again.
        self.shared = shared
        self.entries = [t[i:i + 8] for i in range(0, len(t), 8)]
        self.nodes = [(s[i], tuple(s[i + 2:i + 2 + s[i + 1]])) for i in range(0, 8 * mark, 8)]
        self.room, self.units, self.used = len(s) // 8, units, 0
        # The pattern at which the last match gave up, caught or not.
        self.miss = 4096
        # The visits after which it is set aside, before the next one's limit test.
        self.aside = aside
        # Four counts for each entry: visits as a strategy, successes, failures, visits in flight; and the other visits.
        self.counts = [0] * len(t) if counts is None else counts
        self.patterns = self.pairs = 0

    def visit(self, nesting):
        if self.used == self.aside:
            raise Cut(25, 0)
        if self.used == self.units:
            raise Cut(6, 0)
        if nesting > 4096:
            raise Cut(8, 0)
        self.used += 1

    def make(self, con, kids):
        if self.shared and (con, tuple(kids)) in self.nodes:
            return self.nodes.index((con, tuple(kids)))
        if len(self.nodes) == self.room:
            raise Cut(7, 0)
        self.nodes.append((con, tuple(kids)))
        return len(self.nodes) - 1

    def attempt(self, e, t, b, n):
        """An operand whose failure the run survives: the mark then returns."""
        mark = len(self.nodes)
        got = self.strategy(e, t, b, n)
        if got is None:
            del self.nodes[mark:]
        return got

    def strategy(self, e, t, b, n):
        """A visit as a strategy, counted. A cut-off finds it in flight, whatever it is that ends the run."""
        self.visit(n)
        self.counts[4 * e] += 1
        ended = 3
        try:
            got = self.apply(e, t, b, n)
            ended = 2 if got is None else 1
        finally:
            self.counts[4 * e + ended] += 1
        return got

    def apply(self, e, t, b, n):
        word = self.entries[e]
        kind, count = divmod(word[0], 16)
        argument = mask(word) if kind == SCOPE else word[1]
        ops = word[first(kind):first(kind) + count]
        con, kids = self.nodes[t]
        down = n + 1
        if kind == ID:
            return t, b
        if kind == FAIL:
            return None
        if kind == TEST:
            mark = len(self.nodes)
            got = self.strategy(ops[0], t, b, down)
            del self.nodes[mark:]
            return None if got is None else (t, b)
        if kind == NOT:
            got = self.attempt(ops[0], t, b, down)
            return (t, b) if got is None else None
        if kind == WHERE:
            got = self.strategy(ops[0], t, b, down)
            return None if got is None else (t, got[1])
        if kind == SEQ:
            got = self.strategy(ops[0], t, b, down)
            return None if got is None else self.strategy(ops[1], got[0], got[1], down)
        if kind in (CHOICE, LEFT):
            return self.attempt(ops[0], t, b, down) or self.strategy(ops[1], t, b, down)
        if kind in (REC, CALL):
            return self.strategy(ops[0], t, b, down)
        if kind == PATH:
            if argument > len(kids):
                return None
            got = self.strategy(ops[0], kids[argument - 1], b, down)
            if got is None:
                return None
            kids = list(kids)
            kids[argument - 1] = got[0]
            return self.make(con, kids), got[1]
        if kind in (CONG, ALL):
            if kind == CONG and (con, len(kids)) != (argument, count):
                return None
            new = []
            for j, c in enumerate(kids):
                got = self.strategy(ops[j] if kind == CONG else ops[0], c, b, down)
                if got is None:
                    return None
                new.append(got[0])
                b = got[1]
            return (self.make(con, new) if kids else t), b
        if kind == ONE:
            for j, c in enumerate(kids):
                got = self.attempt(ops[0], c, b, down)
                if got is not None:
                    return self.make(con, kids[:j] + (got[0],) + kids[j + 1:]), got[1]
            return None
        if kind == SOME:
            new, won = [], False
            for c in kids:
                got = self.attempt(ops[0], c, b, down)
                if got is None:
                    new.append(c)
                else:
                    won = True
                    new.append(got[0])
                    b = got[1]
            return (self.make(con, new), b) if won else None
        if kind == MATCH:
            b = self.match(ops[0], t, b, down)
            return None if b is None else (t, b)
        if kind == BUILD:
            return self.build(ops[0], b, down), b
        assert kind == SCOPE
        inner = {v: k for v, k in b.items() if not argument >> v & 1}
        got = self.strategy(ops[0], t, inner, down)
        if got is None:
            return None
        outer = {v: k for v, k in got[1].items() if not argument >> v & 1}
        outer.update({v: k for v, k in b.items() if argument >> v & 1})
        return got[0], outer

    def match(self, p, t, b, n):
        self.visit(n)
        self.patterns += 1
        word = self.entries[p]
        if word[0] // 16 == PVAR:
            v = word[1]
            if v in b:
                return b if self.same(b[v], t, n + 1) else self.give_up(p)
            return {**b, v: t}
        con, kids = self.nodes[t]
        if (con, len(kids)) != (word[1], word[0] % 16):
            return self.give_up(p)
        for q, c in zip(word[2:], kids):
            b = self.match(q, c, b, n + 1)
            if b is None:
                return None
        return b

    def give_up(self, p):
        self.miss = p

    def same(self, x, y, n):
        self.visit(n)
        self.pairs += 1
        a, b = self.nodes[x], self.nodes[y]
        if (a[0], len(a[1])) != (b[0], len(b[1])):
            return False
        return all(self.same(c, d, n + 1) for c, d in zip(a[1], b[1]))

    def build(self, p, b, n):
        self.visit(n)
        self.patterns += 1
        word = self.entries[p]
        if word[0] // 16 == PVAR:
            if word[1] not in b:
                raise Cut(12, word[1])
            return b[word[1]]
        return self.make(word[1], [self.build(q, b, n + 1) for q in word[2:2 + word[0] % 16]])


def run(t, s, b, mark, start, subject, units, signature=None, aside=None, index=None):
    """The five numbers, the store and the bindings at return. index: the words of one, where it is lent. Where a run is set aside after so
    many visits, the memory means nothing.
    """
    bad = refusal(t, s, b, mark, start, [subject], signature, index=index)
    if bad[0]:
        return [*bad, subject, mark, 0], s, b
    return accepted(Run(t, s, mark, units, aside, index is not None), s, b, mark, start, subject)


def run_counted(t, s, b, mark, start, subject, units, counts, signature=None, index=None):
    """The five numbers and the visits of patterns and of pairs; store, bindings and counts at return."""
    bad = refusal(t, s, b, mark, start, [subject], signature, index=index, counts=counts)
    if bad[0]:
        return [*bad, subject, mark, 0, 0, 0], s, b, counts
    r = Run(t, s, mark, units, None, index is not None, list(counts))
    five, after, bound = accepted(r, s, b, mark, start, subject)
    return [*five, r.patterns, r.pairs], after, bound, r.counts


def accepted(r, s, b, mark, start, subject):
    """What a run that nothing refuses gives and leaves."""
    clean = s[:8 * mark] + [0] * (len(s) - 8 * mark)
    try:
        got = r.strategy(start, subject, {v: w - 1 for v, w in enumerate(b) if w}, 1)
    except Cut as c:
        return [*c.args, subject, mark, r.used], clean, b
    if got is None:
        return [1, r.miss, subject, mark, r.used], clean, b
    for k in range(mark, len(r.nodes)):
        con, kids = r.nodes[k]
        clean[8 * k:8 * k + 2 + len(kids)] = [con, len(kids), *kids]
    return [0, 0, got[0], len(r.nodes), r.used], clean, [got[1].get(v, -1) + 1 for v in range(VARIABLES)]


def run_many(t, s, b, mark, start, subjects, units, results, signature=None, index=None):
    """Answer and place, and the words of results and store at return: those of single calls in turn, each with the bindings given
    and the mark left by the one before. Where there are no subjects, or the call is refused, nothing is written.
    """
    bad = refusal(t, s, b, mark, start, subjects, signature, results, index=index)
    if bad[0]:
        return bad, results, s
    numbers = []
    for subject in subjects:
        assert refusal(t, s, b, mark, start, [subject], signature, index=index) == (0, 0)
        five, s, _ = run(t, s, b, mark, start, subject, units, signature, index=index)
        numbers += five
        mark = five[3]
    return (0, 0), numbers, s


def stepped(t, s, b, work, mark, start, subject, units, steps, signature=None):
    """The five numbers of the start call and of each step; then store, bindings and work list. Where the start is not refused, the steps
    listed are made, then at most two of the greatest number of visits, until the run ends; and then one of one visit, which finds a work
    list of zeros. Where it is refused and the work list is all zero, there is that last one alone. A step runs the beginning again: what it
    keeps between is the visits done.
    """
    zero = not any(work)
    none = [27, 0, 0, 0, 0] if work_fits(len(work)) and table_fits(t) and store_fits(s, 0) and len(b) == VARIABLES else [2, 0, 0, 0, 0]
    bad = refusal(t, s, b, mark, start, [subject], signature, work=len(work))
    if bad[0]:
        return [[*bad, subject, mark, 0]] + ([none] if zero else []), s, b, work
    fives, done = [[25, 0, subject, mark, 0]], 0
    for visits in [*steps, MOST, MOST]:
        five, after, bound = run(t, s, b, mark, start, subject, units, signature, done + visits)
        fives.append(five)
        if five[0] != 25:
            break
        done = five[4]
    return [*fives, none], after, bound, [0] * len(work)


# The collection.

def reached(s, roots):
    """The nodes that the roots reach."""
    seen, rest = set(), list(roots)
    while rest:
        k = rest.pop()
        if k not in seen:
            seen.add(k)
            rest += s[8 * k + 2:8 * k + 2 + s[8 * k + 1]]
    return seen


def collect(s, b, w, mark, subject):
    """Answer, place, subject and mark, and the words of store, bindings and work list."""
    given = [subject, mark, s, b, w]
    if not store_fits(s, mark) or len(b) != VARIABLES or len(w) < len(s) // 8:
        return [2, 0, *given]
    bad = bad_node(s, mark)
    if bad != (0, 0):
        return [*bad, *given]
    if subject >= mark or any(x > mark for x in b):
        return [5, 0, *given]
    kept = sorted(reached(s, [subject] + [x - 1 for x in b if x]))
    number = {k: n for n, k in enumerate(kept)}
    words = []
    for k in kept:
        con, count, *rest = s[8 * k:8 * k + 8]
        words += [con, count, *[number[c] for c in rest[:count]], *[0] * (6 - count)]
    words += [0] * (len(s) - len(words))
    return [0, 0, number[subject], len(kept), words, [number[x - 1] + 1 if x else 0 for x in b], [0] * len(w)]


# The job: the job of a text, and the text of an answer.

class Bad(Exception):
    """The number of the first bad line."""


def numbers(fields):
    if not all(re.fullmatch(rb"0|[1-9][0-9]*", f) for f in fields):
        raise ValueError
    return [int(f) for f in fields]


def within(name, v):
    """Every number is within 32 bits; a scope's argument is within 64."""
    scope = name == b"e" and v[:1] == [SCOPE]
    return all(x <= (MASK if scope and i == 1 else MOST) for i, x in enumerate(v))


def take(job, name, v):
    """One more line, or ValueError."""
    need = lambda fact: fact or numbers([b"-"])
    need(within(name, v))
    if name == b"job":
        need(job["section"] == 0 and len(v) == 4 and v[3] <= 1024)
        job.update(section=1, units=v[0], start=v[1], subject=v[2], room=v[3])
        return
    need(job["section"] > 0)
    if name == b"e":
        need(job["section"] == 1 and 2 <= len(v) <= 8 and v[0] <= 255 and len(job["e"]) < 512)
        job["e"].append((entry(v[0], v[1], *v[2:]) + [0] * 8)[:8])
    elif name == b"n":
        need(job["section"] <= 2 and 1 <= len(v) <= 7 and len(job["n"]) < 1024)
        job["section"] = 2
        job["n"].append([v[0], len(v) - 1] + v[1:] + [0] * (7 - len(v)))
    elif name == b"b":
        need(len(v) == 2 and v[0] < VARIABLES and v[1] < 131072 and v[0] > max(job["b"], default=-1))
        job["section"] = 3
        job["b"][v[0]] = v[1]
    else:
        need(False)


def read(text):
    if len(text) > 60000:
        raise Bad(0)
    lines = text.split(b"\n")
    job = dict(section=0, e=[], n=[], b={})
    for k, line in enumerate(lines[:-1], 1):
        name, *fields = line.split(b"\t")
        try:
            take(job, name, numbers(fields))
        except ValueError:
            raise Bad(k)
    if lines[-1] or len(lines) == 1:
        raise Bad(len(lines))
    return job


def line(name, *v):
    return b"\t".join([name.encode()] + [b"%d" % x for x in v]) + b"\n"


def five_of(text):
    """The five numbers, and the text of what is left."""
    try:
        job = read(text)
    except Bad as bad:
        return [9, bad.args[0], 0, 0, 0], b""
    mark, room = len(job["n"]), job["room"]
    store = [w for row in job["n"] for w in row] + [0] * 8192
    bound = [job["b"].get(v, -1) + 1 for v in range(VARIABLES)]
    five, store, bound = run([w for row in job["e"] for w in row], store[:8 * room], bound, mark, job["start"],
                             job["subject"], job["units"])
    if five[0] not in (0, 1, 6, 7, 8, 12):
        return five, b""
    nodes = [store[8 * k:8 * k + 8] for k in range(five[3])]
    return five, b"".join([line("n", r[0], *r[2:2 + r[1]]) for r in nodes]
                          + [line("b", v, w - 1) for v, w in enumerate(bound) if w])
