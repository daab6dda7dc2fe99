#!/usr/bin/env python3
"""Spells this repository's own definitions and lemmas as the library spells its own: words in snake case.

usage: python3 tools/spelling.py [FOLDER]    once, behind the toolchain's own script for older repositories

The names stand in tools/spelling.txt, a line each: the old one, and the new. A lemma whose new name another
definition has keeps its dash. Names of Rattle code are left as they are, and so is what stands in quotes.
"""
import re
import sys
from pathlib import Path

HERE = Path(__file__).resolve().parent
NAME = re.compile(r"[^\s(){}\[\],;.\"`]+")

# lemmas that would take the new name of a definition that they speak of, and the files where they stand
LEMMAS = {
    "all_digits": ("all-digits", ["ids/specs/laws/Fields.antt"]),
    "all_sound": ("all-sound", ["layout/specs/laws/Sound.antt"]),
    "is_digit": ("is-digit", ["digits/specs/laws/Strings.antt", "digits/specs/laws/Moduli.antt"]),
    "on_line": ("on-line", ["answer/specs/laws/Only.antt", "promises/specs/laws/Tabled.antt", "writer/specs/laws/Numbers.antt"]),
    "taken_as": ("taken-as", ["fields/specs/laws/AsBefore.antt"]),
}


def table():
    lines = (HERE / "spelling.txt").read_text(encoding="utf-8").splitlines()
    return dict(line.split(" ") for line in lines)


def spelled(text, names):
    return NAME.sub(lambda found: names.get(found[0], found[0]), text)


def outside_quotes(text, names):
    parts = text.split('"')
    return '"'.join(part if i % 2 else spelled(part, names) for i, part in enumerate(parts))


def line_of(line, names, comment):
    """In a comment only names that no sentence has: those with a capital inside."""
    code, mark, said = line.partition(comment)
    plain = {old: new for old, new in names.items() if "-" not in old}
    return outside_quotes(code, names) + mark + spelled(said, plain)


def main():
    top = Path(sys.argv[1] if len(sys.argv) > 1 else ".")
    names = table()
    for path in sorted(top.glob("crates/*/**/*")):
        comment = {".antt": "--", ".rt": "//"}.get(path.suffix)
        if not comment or not path.is_file():
            continue
        at = path.relative_to(top / "crates").as_posix()
        first = {old: new for old, (new, where) in LEMMAS.items() if at in where}
        text = path.read_text(encoding="utf-8")
        lines = [line_of(line_of(line, first, comment), names, comment) for line in text.split("\n")]
        path.write_text("\n".join(lines), encoding="utf-8")


if __name__ == "__main__":
    main()
