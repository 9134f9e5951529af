"""The cases of the collection. The work list is lent in the table's place."""
import random

from lend import add, lend, memory, rows_of, shown
from model import MOST, VARIABLES, collect


def case(label, *, store, mark, subject, bindings=VARIABLES, work=None, patches=(), fill=0, soil=0):
    """store is a number of words, and work too: as many as the store's nodes if not given; soil is what every word of it holds."""
    work = store // 8 if work is None else work
    dirt = [(0, i, soil) for i in range(work)] if soil else []
    w, s, b, body = lend(label, table=work, store=store, bindings=bindings, mark=mark, subject=subject, fill=fill, patches=dirt + list(patches))
    *numbers, s, b, w = collect(s, b, w, mark, subject)
    add("c", body, ("%s %s%s :%s\n" % (label, " ".join(map(str, numbers)), memory(s, b), shown(w))).encode())


def bound(**variables):
    """Patches of the bindings: v3=5 binds variable 3 to node 4."""
    return [(2, int(v[1:]), word) for v, word in variables.items()]


# 0 and 1 are constants, 2 names both, 3 is the old pair, 4 names 3 and 1, 5 names 2 twice, 6 has six children.
STORE = [[1], [2], [3, 2, 0, 1], [5, 2, 0, 0], [7, 2, 3, 1], [5, 2, 2, 2], [9, 6, 0, 1, 2, 3, 4, 5]]
ROWS = rows_of(1, STORE)


def sound():
    for subject in range(7):
        case("collect from %d" % subject, store=64, mark=7, subject=subject, patches=ROWS)
    case("only a dropped node names it", store=56, mark=7, subject=1, patches=ROWS)
    case("a bound variable is a root", store=64, mark=7, subject=0, patches=ROWS + bound(v0=6))
    case("the last variable is a root", store=64, mark=7, subject=0, patches=ROWS + bound(v31=5))
    case("a binding of the highest node", store=64, mark=7, subject=1, patches=ROWS + bound(v4=7))
    case("bindings of one node", store=64, mark=7, subject=3, patches=ROWS + bound(v1=4, v2=4, v30=1))
    case("rubbish above the mark", store=80, mark=7, subject=5, fill=1, patches=ROWS, soil=MOST)
    case("a long work list, full of rubbish", store=64, mark=7, subject=2, work=41, patches=ROWS, soil=77)
    case("all is reachable", store=56, mark=7, subject=6, patches=ROWS, soil=1)
    case("one node", store=8, mark=1, subject=0)
    case("one node of many", store=512, mark=64, subject=0)
    case("equal terms both stay", store=40, mark=4, subject=3, patches=rows_of(1, [[1], [1], [8], [5, 2, 0, 1]]))
    case("a chain", store=800, mark=100, subject=99, fill=2)
    case("the middle of a chain", store=800, mark=100, subject=50, fill=3, patches=bound(v9=21))
    case("six children each", store=4000, mark=500, subject=499, fill=4)
    case("six children each, from below", store=4000, mark=500, subject=77, fill=5, soil=3, patches=bound(v0=12, v31=78))
    case("a store of 32776 nodes", store=262208, mark=32776, subject=32775, fill=4, patches=bound(v3=32000))
    case("half of a chain of 30000", store=240000, mark=30000, subject=15000, fill=3)


def refused():
    for length, mark in ((0, 0), (7, 0), (9, 1), (57, 7), (56, 8), (56, MOST)):
        case("collect %d words, mark %d" % (length, mark), store=length, mark=mark, subject=0, work=16, soil=5)
    case("too long a store", store=1048584, mark=7, subject=0, work=32776)
    for n in (0, 32, 63, 65, 72):
        case("collect with %d bindings" % n, store=56, mark=7, subject=0, bindings=n, patches=ROWS)
    for n in (0, 6):
        case("a work list of %d words" % n, store=56, mark=7, subject=0, work=n, patches=ROWS, soil=9)
    case("a work list as long as the mark", store=64, mark=7, subject=0, work=7, patches=ROWS, soil=9)
    case("a child at its own node", store=56, mark=7, subject=0, patches=ROWS + [(1, 19, 2)], soil=2)
    case("two bad nodes", store=56, mark=7, subject=0, patches=ROWS + [(1, 8, 65536), (1, 24, MOST)])
    case("an unused word", store=56, mark=7, subject=6, patches=ROWS + [(1, 47, 1)])
    case("a bad node above the mark", store=56, mark=6, subject=5, patches=ROWS + [(1, 49, 7)], soil=2)
    case("the subject at the mark", store=56, mark=7, subject=7, patches=ROWS, soil=2)
    case("the highest subject", store=56, mark=7, subject=MOST, patches=ROWS)
    case("mark 0", store=56, mark=0, subject=0, soil=4)
    case("a binding at the mark", store=56, mark=6, subject=0, patches=ROWS + bound(v8=7))
    case("a binding far above", store=56, mark=7, subject=0, patches=ROWS + bound(v8=MOST))
    case("2 before 4", store=56, mark=7, subject=0, work=6, patches=ROWS + [(1, 8, 65536)])
    case("4 before 5", store=56, mark=7, subject=9, patches=ROWS + [(1, 8, 65536)])


def mixed(r, k):
    """A random store, its bindings and its work list; now and then one word of it is wrong."""
    nodes = 1 + r.randrange(12)
    rows = [[r.randrange(4), n, *[r.randrange(j) for _ in range(n)]] for j in range(nodes) for n in [r.randrange(4) if j else 0]]
    patches = rows_of(1, rows) + [(2, r.randrange(VARIABLES), r.randrange(nodes + 1)) for _ in range(r.randrange(4))]
    length = nodes + r.randrange(3)
    if k % 5 == 4:
        patches.append((1, r.randrange(8 * nodes), r.choice([0, 1, 7, 65536, MOST])))
    case("mixed %d" % k, store=8 * length, mark=nodes, subject=r.randrange(nodes), work=length + r.randrange(2), patches=patches,
         fill=r.randrange(2), soil=r.choice([0, 1, MOST]))


def write():
    sound()
    refused()
    r = random.Random(7)
    for k in range(100):
        mixed(r, k)
