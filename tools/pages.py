#!/usr/bin/env python3
"""Runs what stands on the pages: every block of Rust, of C and of commands.

pages.py [--programs FOLDER | --no-commands] PAGE...
    one line for each block, 'N passed, M failed' last; exit status 1 where one fails

The blocks marked ```rust of a page, one after the other, are one program, run from the repository's root. A block marked ```c is a
program by itself. Each must end with status 0. A block marked ```console has commands after '$ ', run from the repository's root by sh,
and what they print: both outputs, line by line. A line '..' there stands for any number of lines, and '[exit status N]' is the last line
where a command ends with another status than 0. FOLDER is put before PATH. With --no-commands the blocks of commands and of C are left
out. The programs need cargo, a C compiler and the archive, as tools/library_tests.sh says.
"""
import os
import pathlib
import re
import subprocess
import sys

ROOT = pathlib.Path(__file__).resolve().parent.parent
SECONDS = 300
MANIFEST = """[package]
name = "{name}"
version = "0.1.0"
edition = "2021"

[workspace]

[dependencies]
marshtrundle = {{ path = "{crate}" }}

[profile.dev]
opt-level = 2
"""


def blocks(text, mark):
    """The blocks of a page with this mark, each with its first line's number and its lines."""
    found, lines = [], text.split("\n")
    at = 0
    while at < len(lines):
        if lines[at] == "```" + mark:
            end = lines.index("```", at + 1)
            found.append((at + 2, lines[at + 1:end]))
            at = end
        at += 1
    return found


def program(page, text):
    """Compiles and runs the page's Rust as one program. What is wrong, or nothing."""
    parts = blocks(text, "rust")
    name = "page_" + re.sub(r"\W", "_", page.stem.lower())
    folder = ROOT / "target" / "pages" / name
    (folder / "src").mkdir(parents=True, exist_ok=True)
    (folder / "Cargo.toml").write_text(MANIFEST.format(name=name, crate=ROOT / "rust/marshtrundle"))
    uses, body = [], []
    for first, lines in parts:
        body.append(f"    // {page.name}, line {first}")
        for line in lines:
            (uses if line.startswith("use ") else body).append(line)
    main = "\n".join(body)
    (folder / "src/main.rs").write_text(
        "\n".join(uses)
        + "\n#[allow(unused)]\nfn page() -> Result<(), Box<dyn std::error::Error + Send + Sync>> {\n"
        + main
        + "\n    Ok(())\n}\nfn main() {\n    marshtrundle::with_stack(page).unwrap().unwrap();\n}\n"
    )
    ran = subprocess.run(
        [os.environ.get("CARGO", "cargo"), "run", "--quiet", "--offline", "--manifest-path", folder / "Cargo.toml"],
        cwd=ROOT, stdout=subprocess.PIPE, stderr=subprocess.STDOUT, timeout=SECONDS,
    )
    return None if ran.returncode == 0 else ran.stdout.decode("utf-8", "replace")


def c_program(lines):
    """Compiles and runs a block of C over the archive. What is wrong, or nothing."""
    folder = ROOT / "target" / "pages"
    folder.mkdir(parents=True, exist_ok=True)
    (folder / "block.c").write_text("\n".join(lines) + "\n")
    archive = pathlib.Path(os.environ.get("MARSHTRUNDLE_LIB", ROOT / "target/staticlib")) / "libmarshtrundle.a"
    compiler = [os.environ.get("CC", "cc"), "-std=c99", "-pedantic", "-Wall", "-Wextra", "-Werror", "-I", ROOT / "include"]
    for command in (compiler + [folder / "block.c", archive, "-o", folder / "block"], [folder / "block"]):
        ran = subprocess.run(command, cwd=ROOT, stdout=subprocess.PIPE, stderr=subprocess.STDOUT, timeout=SECONDS)
        if ran.returncode:
            return ran.stdout.decode("utf-8", "replace") + f"[exit status {ran.returncode}]"
    return None


def matches(wanted, found):
    """Whether lines are as wanted, where '..' stands for any number of lines."""
    if not wanted:
        return not found
    if wanted[0] == "..":
        return any(matches(wanted[1:], found[skip:]) for skip in range(len(found) + 1))
    return bool(found) and wanted[0] == found[0] and matches(wanted[1:], found[1:])


def session(lines):
    """The commands of a block, each with the lines that it must print."""
    commands = []
    for line in lines:
        if line.startswith("$ "):
            commands.append((line[2:], []))
        else:
            commands[-1][1].append(line)
    return commands


def console(lines):
    """Runs a block of commands. What is wrong, or nothing."""
    for command, wanted in session(lines):
        ran = subprocess.run(
            ["sh", "-c", command], cwd=ROOT, stdout=subprocess.PIPE, stderr=subprocess.STDOUT, timeout=SECONDS
        )
        found = ran.stdout.decode("utf-8", "replace").split("\n")
        found = found[:-1] if found[-1] == "" else found
        if ran.returncode:
            found.append(f"[exit status {ran.returncode}]")
        if not matches(wanted, found):
            return "$ " + command + "\n" + "\n".join(found)
    return None


def main(words):
    if words[:1] == ["--programs"] and len(words) > 1:
        os.environ["PATH"] = words[1] + os.pathsep + os.environ["PATH"]
        words = words[2:]
    commands = words[:1] != ["--no-commands"]
    words = words if commands else words[1:]
    if not words or words[0].startswith("-"):
        print("usage: tools/pages.py [--programs FOLDER | --no-commands] PAGE..\n" + __doc__.strip(), file=sys.stderr)
        return 2
    passed = failed = 0
    for word in words:
        page = pathlib.Path(word).resolve()
        text = page.read_text(encoding="utf-8")
        sessions = blocks(text, "console") if commands else []
        results = [(f"{word}, line {first}", console(lines)) for first, lines in sessions]
        if commands:
            results += [(f"{word}, line {first}", c_program(lines)) for first, lines in blocks(text, "c")]
        if blocks(text, "rust"):
            results.insert(0, (f"{word}, its program", program(page, text)))
        for what, wrong in results:
            print(f"{what}: {'passed' if wrong is None else 'FAILED' + chr(10) + wrong}", flush=True)
            passed, failed = passed + (wrong is None), failed + (wrong is not None)
    print(f"{passed} passed, {failed} failed")
    return 1 if failed or not passed else 0


if __name__ == "__main__":
    sys.exit(main(sys.argv[1:]))
