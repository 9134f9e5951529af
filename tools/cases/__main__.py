"""cases DIR TWIN: writes DIR/stdin, the cases that the program vectors executes, and DIR/stdout, what it must write.

The cases of checks.py, free.py, runs.py, signed.py, many.py, indexed.py, steps.py, counted.py, collects.py and jobs.py come with the answers of model.py,
those of rules.py with the answers of the model in it. After those of a call
stands a sample of what the program TWIN of rust/twin generates, with its own answers; last the jobs of examples/, with the answers stored there.
A further call has a module here with a function write, and a line in CALLS.
"""
import pathlib
import subprocess
import sys
import threading

sys.dont_write_bytecode = True

import checks
import collects
import counted
import free
import indexed
import jobs
import lend
import many
import rules
import runs
import signed
import steps

SEED = "20261115"
# The longest store that vectors lends.
STORE_WORDS = 1048584
EXAMPLES = pathlib.Path(__file__).resolve().parent.parent.parent / "examples"


def framed(stream):
    """The texts of a stream of lines `# LENGTH`, each before so many bytes."""
    while stream:
        line, _, stream = stream.partition(b"\n")
        n = int(line[2:])
        yield stream[:n]
        stream = stream[n:]


def sample(twin, kind, count):
    """Cases that TWIN generates, and its answers, in its own form."""
    made = subprocess.run([twin, "generate", kind, SEED, str(count)], stdout=subprocess.PIPE, check=True).stdout
    said = subprocess.run([twin, "answer", kind], input=made, stdout=subprocess.PIPE, check=True).stdout
    part = framed if kind == "jobs" else bytes.splitlines
    pairs = list(zip(part(made), part(said)))
    assert len(pairs) == count
    return pairs


def free_sample(twin):
    """A question is a line `t LENGTH ENTRY PATCHES (WORD VALUE).. LABEL`."""
    for case, answer in sample(twin, "free", 100):
        _, length, entry, count, *words, label = case.split()
        pairs = list(map(int, words))
        assert len(pairs) == 2 * int(count)
        patches = [(0, *p) for p in zip(pairs[::2], pairs[1::2])]
        lend.add("f", lend.lend(label.decode(), table=int(length), start=int(entry), patches=patches)[3], answer + b"\n")


def run_sample(twin):
    for case, answer in sample(twin, "run", 1000):
        lend.add("r", case, answer + b"\n")


def call_of(case):
    """A call is a line `TAG MARK START SUBJECT UNITS SLICES (SLICE LENGTH FILL).. PATCHES (SLICE WORD VALUE).. LABEL`: the first four
    numbers, the length and the fill of each slice, the patches and the label.
    """
    _, mark, start, subject, units, count, *words, label = case.split()
    numbers = list(map(int, words))
    slices = {numbers[i]: tuple(numbers[i + 1:i + 3]) for i in range(0, 3 * int(count), 3)}
    rest = numbers[3 * int(count) + 1:]
    return tuple(map(int, (mark, start, subject, units))), slices, list(zip(rest[::3], rest[1::3], rest[2::3])), label.decode()


def lent_by(mark, slices, triples):
    """The memory of a call as vectors has it, where slice 3, the signature, stands behind the table: the numbers TABLE STORE BINDINGS
    and FILL HEAD ARGUMENT SECOND, and the patches.
    """
    (at, zero), (store, above), (bindings, none) = (slices[k] for k in range(3))
    length, fill = slices.get(3, (0, 0))
    # Only the words from the mark on may begin as another word than 0: here as the greatest.
    assert zero == none == 0
    patches = [(1, i, above) for i in range(8 * mark, store)] if above not in (0, 2**32 - 1) else []
    patches += [(0, at + w, v) if k == 3 else (k, w, v) for k, w, v in triples if k <= 3]
    return [at + length, store, bindings], [16 * (3 in slices) + (above == 2**32 - 1), 0, at, fill], patches


def store_shown(text, words):
    """A long store is shown by a sum modulo 2^64 there, and modulo 2^32 here."""
    return b" %d" % (int(text) % 2**32) if words > 512 else text


def signed_sample(twin):
    for case, answer in sample(twin, "signed", 300):
        (mark, start, subject, units), slices, triples, label = call_of(case)
        lengths, fills, patches = lent_by(mark, slices, triples)
        body = [*lengths, mark, start, subject, units, *fills, len(patches), *[x for p in patches for x in p]]
        text = (" ".join(map(str, body)) + " " + label).encode()
        head, _, store = answer.partition(b" :")
        if len(text) <= 131072:
            lend.add("g", text, head + b" :" + store_shown(store, lengths[1]) + b"\n")


def many_sample(twin):
    """Slices 4 and 5 are the subjects and the results, of which every word is the greatest before the call. An answer is `LABEL ANSWER
    PLACE`, the bindings, ` :`, the store, ` :`, the results that are not 0.
    """
    for case, answer in sample(twin, "many", 300):
        (mark, start, _, units), slices, triples, label = call_of(case)
        lengths, fills, patches = lent_by(mark, slices, triples)
        (count, first), (words, most) = slices[4], slices[5]
        subjects = [first] * count
        for k, w, v in triples:
            assert k != 5
            if k == 4:
                subjects[w] = v
        assert most == 2**32 - 1 or words == 0
        body = many.bytes_of([*lengths, mark, start, count, units, *fills], patches, words, subjects, label)
        head, store, after = answer.split(b" :")
        bound = head.split(b" ", 3)[3:]
        results = [0] * words
        for shown in after.split():
            at, _, value = shown.partition(b"=")
            results[int(at)] = int(value)
        line = lend.say(*head.decode().split(" ")[:3], *results)[:-1] + b"".join(b" " + b for b in bound)
        if len(body) <= 131072:
            lend.add("n" if 3 in slices else "m", body, line + b" :" + store_shown(store, lengths[1]) + b"\n")


def sum_of(text, words):
    """The sum of a slice of so many words that an answer shows."""
    if words > 512:
        return int(text) % 2**32
    shown = dict(map(int, pair.split(b"=")) for pair in text.split())
    return lend.summed([shown.get(i, 0) for i in range(words)])


def indexed_sample(twin):
    """Slice 7 is the index, which stands behind the store here. An answer is that of a run, ` :` and the index. Runs alone, without a
    signature.
    """
    for case, answer in sample(twin, "indexed", 300):
        (mark, start, subject, units), slices, triples, label = call_of(case)
        if case[:1] != b"l" or 3 in slices:
            continue
        own, size, each = slices[1][0], *slices[7]
        lengths, fills, patches = lent_by(mark, slices, [t for t in triples if t[0] < 3])
        above = 2**32 - 1 if fills[0] & 1 else 0
        index = [each] * size
        for k, w, v in triples:
            if k == 7:
                index[w] = v
        patches += [(1, own + i, v) for i, v in enumerate(index) if v != (above if own + i >= 8 * mark else 0)]
        body = [lengths[0], own + size, lengths[2], mark, start, subject, units, fills[0], 0, own, 0, len(patches), *[x for p in patches for x in p]]
        text = (" ".join(map(str, body)) + " " + label).encode()
        head, store, after = answer.split(b" :")
        if own + size > 512:
            words = b" %d" % ((sum_of(store, own) * 31**size + sum_of(after, size)) % 2**32)
        else:
            words = store + b"".join(b" %d=%s" % (own + int(i), v) for i, v in (pair.split(b"=") for pair in after.split()))
        if len(text) <= 131072 and own + size <= STORE_WORDS:
            lend.add("i", text, head + b" :" + words + b"\n")


def stepped_sample(twin):
    """Slices 6 and 9 are the work list, of which each word is the same before the call, and the steps. An answer is the label, the numbers of
    each call, ` :`, the bindings, ` :`, the store, ` :`, the work list.
    """
    for case, answer in sample(twin, "stepped", 300):
        (mark, start, subject, units), slices, triples, label = call_of(case)
        assert all(k != 6 for k, _, _ in triples)
        lengths, fills, patches = lent_by(mark, slices, triples)
        (work, first), (count, visits) = slices[6], slices.get(9, (0, 0))
        listed = [visits] * count
        for k, w, v in triples:
            if k == 9:
                listed[w] = v
        body = steps.bytes_of([*lengths, mark, start, subject, units, *fills], patches, work, first, listed, label)
        numbers, bound, store, after = answer.split(b" :")
        line = numbers + bound + b" :" + store_shown(store, lengths[1]) + b" :" + store_shown(after, work)
        if len(body) <= 131072:
            lend.add("q" if 3 in slices else "p", body, line + b"\n")


def counted_sample(twin):
    """Slice 8 is the counts, of 64 bits, and slice 7 the index, which stands behind the store here. An answer is the label, seven numbers, the
    bindings, ` :`, the store, ` :`, the index where one is lent, ` :`, the counts.
    """
    for case, answer in sample(twin, "counted", 500):
        (mark, start, subject, units), slices, triples, label = call_of(case)
        lengths, fills, patches = lent_by(mark, slices, [t for t in triples if t[0] <= 3])
        own, (size, each) = lengths[1], slices.get(7, (0, 0))
        above = 2**32 - 1 if fills[0] & 1 else 0
        index = [each] * size
        counts = [slices[8][1]] * slices[8][0]
        for k, w, v in triples:
            if k == 7:
                index[w] = v
            elif k == 8:
                counts[w] = v
        patches += [(1, own + i, v) for i, v in enumerate(index) if v != (above if own + i >= 8 * mark else 0)]
        lengths[1] += size
        body = counted.bytes_of([*lengths, mark, start, subject, units, *fills], patches, own, counts, slices[8][1], label)
        head, store, *found, after = answer.split(b" :")
        words = store_shown(store, own)
        if size and lengths[1] > 512:
            words = b" %d" % ((sum_of(store, own) * 31**size + sum_of(found[0], size)) % 2**32)
        elif size:
            words = store + b"".join(b" %d=%s" % (own + int(i), v) for i, v in (pair.split(b"=") for pair in found[0].split()))
        line = head + b" :" + words + b" :" + store_shown(after, len(counts))
        if len(body) <= 131072 and lengths[1] <= STORE_WORDS:
            lend.add(counted.tag_of(3 in slices, 7 in slices), body, line + b"\n")


def rules_sample(twin):
    """Tag `r` is the translator, with the text in slice 10, and `w` the writer, with the buffer in slice 11; MARK is the number of entries
    in use. An answer is the label, four numbers or three, and the words of the table or the buffer.
    """
    for case, answer in sample(twin, "rules", 500):
        (used, start, _, _), slices, triples, label = call_of(case)
        words = {k: [fill] * n for k, (n, fill) in slices.items()}
        for k, w, v in triples:
            words[k][w] = v
        count = 4 if case[:1] == b"r" else 3
        fields = answer.decode().split(" ")
        numbers, after = tuple(map(int, fields[1:1 + count])), "".join(" " + f for f in fields[1 + count:])
        lent = words[0] if count == 4 else words[11]
        after = store_shown(after.encode(), len(lent)).decode()
        if len(case) > 131072:
            continue
        if count == 4:
            rules.add_translation(label, words[0], slices[0][1], used, bytes(words[10]), numbers, after)
        else:
            rules.add_writing(label, words[0], slices[0][1], used, start, bytes(words[11]), numbers, after)


def job_sample(twin):
    for case, answer in sample(twin, "jobs", 600):
        lend.add("j", case, jobs.framed(answer))
    for path in sorted(EXAMPLES.glob("*.job")):
        lend.add("j", path.read_bytes(), jobs.framed(path.with_suffix(".answer").read_bytes()))


CALLS = ((checks.write, None), (free.write, free_sample), (runs.write, run_sample), (signed.write, signed_sample), (many.write, many_sample),
         (indexed.write, indexed_sample), (steps.write, stepped_sample), (counted.write, counted_sample), (collects.write, None), (rules.write, rules_sample), (jobs.write, job_sample))


def write(folder, twin):
    for ours, theirs in CALLS:
        ours()
        if theirs:
            theirs(twin)
    for name, part in (("stdin", 0), ("stdout", 1)):
        (folder / name).write_bytes(b"".join(case[part] for case in lend.cases))
    tags = [case[0][:1].decode() for case in lend.cases]
    print("%d cases: %s" % (len(tags), ", ".join("%d %s" % (tags.count(t), t) for t in sorted(set(tags)))))


def deeply(work):
    """Does the work on a stack that holds a run nested 4,096 deep; the exit status."""
    done = []
    threading.stack_size(512 * 2**20)
    sys.setrecursionlimit(100000)
    worker = threading.Thread(target=lambda: done.append(work()))
    worker.start()
    worker.join()
    return 0 if done else 1


def main(words):
    if len(words) != 2 or not pathlib.Path(words[0]).is_dir():
        print("usage: python3 tools/cases DIR TWIN\n" + __doc__.strip(), file=sys.stderr)
        return 2
    return deeply(lambda: write(pathlib.Path(words[0]), words[1]))


if __name__ == "__main__":
    sys.exit(main(sys.argv[1:]))
