#!/usr/bin/env python3
"""Respells the repository's own definitions and lemmas in snake case, with underscores for dashes.

Run once, right after the port script of the toolchain. It touches names that specs/ and proofs/ declare, where
they are declared and cited: in .antt files outside comments, in ghost lines and clauses of .rt files, and, between
backquotes, in README.md and docs/. Names that the toolchain makes (goals, steps, arms) keep their dashes.
With --look it writes nothing and prints the names, and those that would fall together with another.
"""
import pathlib
import re
import sys

WORD = r"[A-Za-z0-9_'ℕ-]"
TOKEN = re.compile(rf"(?<![A-Za-z0-9_'·-]){WORD}*[A-Za-z]{WORD}*")
DECLARED = re.compile(r"\s*(?:(?:abbrev|unfoldable|pub|record|ruleset)\s+)*([^\s:(){}.]+)\s*:\s+(\S+)")
GHOST = re.compile(r"\s*(?:pub\s+)?(?:ghost|requires|ensures)\b")


def antt_files():
    return sorted(f for part in ("specs", "proofs") for f in pathlib.Path("crates").glob(f"*/{part}/**/*.antt"))


def declared():
    """The names with a dash that the repository declares, and where."""
    names = {}
    for file in antt_files():
        for line in file.read_text().splitlines():
            found = DECLARED.match(line)
            if found and "-" in found[1] and not found[2].startswith(("goal.", "given.")):
                names.setdefault(found[1], set()).add(str(file))
    return names


def respelt(text, names):
    def turn(found):
        return found[0].replace("-", "_") if found[0] in names else found[0]

    return TOKEN.sub(turn, text)


def turn_antt(text, names):
    lines = []
    for line in text.splitlines(keepends=True):
        code, dashes, comment = line.partition("-- ")
        lines.append(respelt(code, names) + dashes + comment)
    return "".join(lines)


def turn_rt(text, names):
    return "".join(respelt(l, names) if GHOST.match(l) else l for l in text.splitlines(keepends=True))


def turn_page(text, names):
    return re.sub(r"`[^`\n]*`", lambda found: respelt(found[0], names), text)


def tokens(text):
    return set(TOKEN.findall(text))


def look(names):
    rust = set()
    for file in pathlib.Path("crates").glob("*/src/**/*.rt"):
        rust |= set(re.findall(r"\b(?:fn|let|mut|const|struct|mod)\s+(\w+)|\b(\w+):", file.read_text()))
    rust = {name for pair in rust for name in pair if name}
    for name in sorted(names):
        new = name.replace("-", "_")
        where = [str(f) for f in antt_files() if new in tokens(f.read_text())]
        note = (f"; stands already in {where}" if where else "") + ("; a name of src/" if new in rust else "")
        print(name + note)


def main():
    names = declared()
    if "--look" in sys.argv[1:]:
        return look(names)
    for file in antt_files():
        file.write_text(turn_antt(file.read_text(), names))
    for file in pathlib.Path("crates").glob("*/src/**/*.rt"):
        file.write_text(turn_rt(file.read_text(), names))
    for file in [pathlib.Path("README.md"), *pathlib.Path("docs").glob("*.md")]:
        file.write_text(turn_page(file.read_text(), names))


main()
