#!/usr/bin/env python3
"""places.py [COMMIT] [-l]: counts the places in crates/*/src that docs/DESIGN-PASS.md speaks of, by patterns, point by point.

With a commit it reads that commit's files, else those that lie here. With -l it prints each place. A place with a line that begins
'// As it is:' in the same function, or in the lines just above it, counts as kept."""
import re
import subprocess
import sys

POINTS = [
    (
        "1",
        "enums of the shape of Option or Result",
        r"^\s*(pub )?enum (Found|Field|Value|Parsed|Attempt|Node|Head)\b",
    ),
    ("1", "a flag with values beside it: fields", r"^\s*pub (good|found|late): bool"),
    ("1", "a flag with a value beside it: parameters", r"^\s*signed: bool"),
    (
        "1",
        "functions that return a refusal by number",
        r"\) -> (crate::)?(Checked|Outcome|Written|Translated|FreeVariables|Collected|Counted|Line)$"
        r"|fn (operands_fault|entry_fault|variables_answer|far_answer|cut_answer|cut_place)\(.*-> u32$",
    ),
    (
        "1",
        "refusals passed on by hand",
        r"^\s*if \w+\.answer != 0 \{",
    ),
    (
        "1",
        "other codes in a number: functions and fields",
        r"fn (letter|name|children|saved_mark|saved_mask|come_to|note_of|visits_to_failure)\(|^\s*pub (section|name|what|mode): u32|won: u32|pub struct Hint\(",
    ),
    ("1", "constants that number kinds", r"^(pub )?const [A-Z_]+: u32 = [0-9]+;"),
    (
        "2",
        "twins",
        r"fn \w+_signed\(|fn twin_of_(few|many)\(|fn (at|mask_at|note_of|end_at)\(\w+: &\[u(32|64)\]"
        r"|fn (lowest_bad_node|lowest_node|lowest_entry|lowest_full|lowest_fault|standing)\(|fn (start_fits|starts_fit)\("
        r"|fn (eight_words|row|row_at|row_inside)\(|fn (clear|clear_list)\(|fn (number|number_within)\(|fn run(_\w+)?\(given: Given"
        r"|fn copy_words\(",
    ),
    ("3", "loops", r"^\s*(while|loop)\b"),
    (
        "4",
        "equality, order, conversion, printing by hand",
        r"fn (same|has|same_words|few|store_words|level_in|farther|answered|answer_of|attempt_of|numbers_of|told|refused|refusal|lost|broken|none)\("
        r"|std::num::wrapping_|^\s*if \w+ < \w+ \{ \w+ \} else \{ \w+ \}",
    ),
    (
        "5",
        "a fact in three or more contracts",
        r"requires \{.*(RuleLine line\.now|GoodTableBy ours table\.now|327680 ≤ length work|r \+ 10 ≤ 409[56]0|Ready table\.now store\.old|length bindings\.(old|now) ≡ (variables|64))",
    ),
    (
        "5",
        "parameters that travel together: functions with seven or more",
        None,
    ),
    (
        "6",
        "a length beside a buffer, arrays in parallel, arenas",
        r"^\s*pub count: u32|numbers: \[u32; 8\]|n: (usize|u32), at: \[u32; 8\]|keys: (&mut )?(&)?\[u32\]",
    ),
    (
        "7",
        "switches on which step to run",
        r"^\s*match (kind|what|a|k|kind_of\(.*\)|m\.mode|h\.what) \{",
    ),
]


def files(commit):
    if commit:
        names = subprocess.run(
            ["git", "ls-tree", "-r", "--name-only", commit, "crates"],
            capture_output=True,
            text=True,
            check=True,
        ).stdout.split()
    else:
        names = subprocess.run(
            ["git", "ls-files", "crates"], capture_output=True, text=True, check=True
        ).stdout.split()
    for name in names:
        if not re.search(r"/src/.*\.rt$", name):
            continue
        if commit:
            text = subprocess.run(
                ["git", "show", f"{commit}:{name}"],
                capture_output=True,
                text=True,
                check=True,
            ).stdout
        else:
            with open(name, encoding="utf-8") as file:
                text = file.read()
        yield name, text.split("\n")


def kept(lines, i):
    """Whether a reason stands beside line i: in its function, or in the lines just above."""
    j = i
    while j >= 0 and not lines[j].startswith("}"):
        if re.match(r"\s*// As it is:", lines[j]):
            return True
        j -= 1
    j = i
    while j < len(lines) and not lines[j].startswith("}"):
        if re.match(r"\s+// As it is:", lines[j]):
            return True
        j += 1
    return False


def long_lists(lines):
    """The functions with seven parameters or more."""
    text = "\n".join(lines)
    for found in re.finditer(r"^(pub(\(crate\))? )?(extern \"C\" )?fn \w+(<[^>]*>)?\(([^)]*)\)", text, re.M):
        if len([p for p in found.group(5).split(",") if ":" in p]) >= 7:
            yield text[: found.start()].count("\n")


def main():
    words = [w for w in sys.argv[1:] if w != "-l"]
    listed = "-l" in sys.argv
    if len(words) > 1 or any(w.startswith("-") for w in words):
        print("usage: tools/places.py [COMMIT] [-l]\n" + __doc__.strip(), file=sys.stderr)
        sys.exit(2)
    commit = words[0] if words else None
    every = list(files(commit))
    for point, what, pattern in POINTS:
        places = []
        for name, lines in every:
            if pattern is None:
                hits = long_lists(lines)
            else:
                hits = [i for i, line in enumerate(lines) if re.search(pattern, line)]
            places += [(name, i, lines[i].strip(), kept(lines, i)) for i in hits]
        print(f"{point}. {what}: {len(places)}, {sum(p[3] for p in places)} with a reason")
        if listed:
            for name, i, line, reason in places:
                print(f"    {name}:{i + 1}: {line}{'  (kept)' if reason else ''}")


main()
