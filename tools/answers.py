#!/usr/bin/env python3
"""answers.py: compares the lists of answers that stand in this repository, and ends with 1 where two differ.

An answer has a number of document 01 or 02. It is named in the C header, in the Rust crate over the archive (twice: read and written; those of
rules as text in src/rule_text.rs, the others in src/answer.rs),
in rust/twin, and in the definitions of crates/*/specs. LIST says under which name. What stands in one of these places and is not
in LIST, or is in LIST and not there, is a difference. docs/REFERENCE.md has a row for each number, and include/marshtrundle_build.h words
for each answer of the header.
"""
import pathlib
import re
import sys

ROOT = pathlib.Path(__file__).resolve().parent.parent

# number: the name in the header, in the crate, in rust/twin, and in the definitions
LIST = {
    0: ("MT_DONE", "Done", "DONE", "returned"),
    1: ("MT_FAILED", "Failed", "FAILED", "as_given"),
    2: ("MT_BAD_SIZES", "RefusedSizes", "BAD_LENGTH", "checked"),
    4: ("MT_BAD_NODE", "BadNode", "BAD_NODE", "found"),
    5: ("MT_BAD_START", "BadStart", "BAD_START", "checked"),
    6: ("MT_OUT_OF_UNITS", "OutOfUnits", "NO_UNITS", "number units"),
    7: ("MT_OUT_OF_ROOM", "OutOfRoom", "NO_ROOM", "number room"),
    8: ("MT_TOO_DEEP", "TooDeep", "NO_NESTING", "number nesting"),
    9: (None, None, "BAD_TEXT", "answered"),  # of the job program alone
    10: ("MT_DISOBEYING_ENTRY", "DisobeyingEntry", "SIGNED_ENTRY", "found"),
    11: ("MT_DISOBEYING_NODE", "DisobeyingNode", "SIGNED_NODE", "found"),
    12: ("MT_UNBOUND", "Unbound", "UNBOUND", "number unbound"),
    13: ("MT_BAD_KIND", "Kind", "BAD_KIND", "of-count"),
    14: ("MT_BAD_ARGUMENT", "Argument", "BAD_ARGUMENT", "of-argument"),
    15: ("MT_BAD_OPERAND", "Operand", "BAD_OPERAND", "of-place"),
    16: ("MT_BAD_SORT", "Sort", "BAD_SORT", "of-sort"),
    17: ("MT_BAD_WORD", "Word", "BAD_WORD", "of-unused"),
    # of rules as text alone
    18: ("MT_BAD_RULE", "Text", "BAD_RULE", "told"),
    19: ("MT_RULE_UNBOUND", "NothingBinds", "NOT_BOUND", "variables_answer"),
    20: ("MT_RULE_VARIABLE", "NoSuchVariable", "BAD_VARIABLE", "variables_answer"),
    21: ("MT_TWIN_NODE", "TwinNode", "REPEATED_NODE", "found"),  # with an index alone
    22: ("MT_RULE_CALL", "NoSuchStrategy", "BAD_REC", "rule_answer"),
    23: ("MT_NO_ENTRIES", "TooManyEntries", "FULL_TABLE", "told"),
    24: ("MT_FULL_COUNT", "FullCount", "FULL_COUNT", "found"),  # with counts alone
    26: ("MT_SHORT_BUFFER", "ShortBuffer", "SHORT_BUFFER", "wrote"),
    # of a run in steps alone
    25: ("MT_UNFINISHED", "Unfinished", "UNFINISHED", "numbers"),
    27: ("MT_NO_RUN", "NoRun", "NO_RUN", "numbers"),
}


def part(path, start, end):
    """The text of a file from one mark to another."""
    text = (ROOT / path).read_text()
    return text[text.index(start):text.index(end, text.index(start))]


def pairs(text, pattern, number_first=False):
    """The names and numbers that a pattern finds."""
    found = re.findall(pattern, text)
    return {(name, int(n)) for n, name in found} if number_first else {(name, int(n)) for name, n in found}


def specs():
    """The answers that the definitions give: by a name, or by the function that takes the number."""
    answer = (ROOT / "crates/meaning/specs/Answer.antt").read_text()
    found = {("number " + name, int(n)) for name, n in pairs(answer, r"(?m)^number \(?(\w+)(?: \w+\))? = (\d+)$")}
    found |= {("returned", int(n)) for n in re.findall(r"\banswer = (\d+);", answer)}
    found |= pairs(answer, r"\b(as_given) i (\d+) ")
    for path in ("crates/checks/specs/Checked.antt", "crates/checks/specs/Signature.antt", "crates/calls/specs/Refused.antt", "crates/calls/specs/Indexed.antt",
                 "crates/counting/specs/Counted.antt"):
        found |= pairs((ROOT / path).read_text(), r"\b(checked|found) (\d+) ")
    found |= pairs((ROOT / "crates/checks/specs/Plain.antt").read_text(), r"\b(of-\w+) : .*Faulty(?:By)? (\d+)")
    found |= pairs((ROOT / "crates/whole_job/specs/Whole.antt").read_text(), r"\b(answered) (\d+) ")
    found |= pairs((ROOT / "crates/check_rules/specs/Check.antt").read_text(), r"\b(told) used (\d+) ")
    bound = (ROOT / "crates/check_rules/specs/Bound.antt").read_text()
    found |= {("variables_answer", int(n)) for n in re.findall(r"(?m)^variables_answer r = .* (\d+)\) else (\d+)$", bound)[0]}
    found |= pairs((ROOT / "crates/check_rules/specs/Line.antt").read_text(), r"(?m)^(rule_answer) f r = .* else (\d+)\) else ")
    found |= pairs((ROOT / "crates/write_rules/specs/Written.antt").read_text(), r"\b(wrote) (\d+) 0 0\b")
    found |= pairs((ROOT / "crates/stepping/specs/Stepping.antt").read_text(), r"\b(numbers) (\d+) 0 ")
    # nothing is refused; and the writer's 5 and the 2 of a run in steps are the run's numbers
    return found - {("checked", 0), ("wrote", 5), ("numbers", 2)}


def of_rules(found):
    """The answers that rules as text alone get: the others are the run's too, and stand in its list."""
    return {(name, n) for name, n in found if n > 17}


def main(words):
    if words:
        print("usage: tools/answers.py\n" + __doc__.strip(), file=sys.stderr)
        return 2
    crate = "rust/marshtrundle/src/answer.rs"
    faults = "rust/marshtrundle/src/fault.rs"
    rules = "rust/marshtrundle/src/rule_text.rs"
    rules_read = of_rules(pairs(part(rules, "fn told", "other =>"), r"(\d+) => RuleError::(\w+)", True))
    rules_written = of_rules(pairs(part(rules, "fn number", "fn advice"), r"RuleError::(\w+)(?:\(_\)| \{ \.\. \})? => (\d+)"))
    places = (
        ("include/marshtrundle.h", 0, pairs(part("include/marshtrundle.h", "enum mt_answer", "};"), r"(MT_\w+) = (\d+)")),
        (crate + ", read", 1, pairs(part(crate, "fn told", "other =>"), r"(\d+) => Answer::(?:BadEntry\(place, Fault::)?(\w+)", True) | rules_read),
        (crate + ", written", 1, pairs(part(crate, "fn number", "fn place") + part(faults, "fn number", "impl"), r"(?:Answer|Fault)::(\w+)(?:\(_\))? => (\d+)") | rules_written),
        ("rust/twin/src", 2, pairs(part("rust/twin/src/checks.rs", "pub const DONE", "pub mod kind")
                                   + part("rust/twin/src/rules.rs", "pub const BAD_RULE", "/// One position of a term"),
                                   r"pub const (\w+): u32 = (\d+);")),
        ("crates/*/specs", 3, specs()),
    )
    differ = 0
    for place, column, found in places:
        wanted = {(names[column], n) for n, names in LIST.items() if names[column]}
        for name, n in sorted(found ^ wanted, key=lambda p: p[1]):
            differ = 1
            print("%s: %s = %d %s" % (place, name, n, "is not in tools/answers.py" if (name, n) in found else "is missing"))
    rows = {int(n) for n in re.findall(r"(?m)^\| (\d+) \|", part("docs/REFERENCE.md", "## Answers", "\n## "))}
    for n in sorted(rows ^ set(LIST)):
        differ = 1
        print("docs/REFERENCE.md: %d %s" % (n, "is not in tools/answers.py" if n in rows else "has no row"))
    words = set(re.findall(r"case (MT_\w+): return", part("include/marshtrundle_build.h", "mt_answer_text", "default:")))
    for name in sorted(words ^ {names[0] for names in LIST.values() if names[0]}):
        differ = 1
        print("include/marshtrundle_build.h: %s %s" % (name, "is not in tools/answers.py" if name in words else "has no words"))
    print("answers: %d numbers, %d places%s" % (len(LIST), len(places) + 2, ", they differ" if differ else " agree"))
    return differ


if __name__ == "__main__":
    sys.exit(main(sys.argv[1:]))
