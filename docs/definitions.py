"""Writes DEFINITIONS.md: each public definition of the product's crates, with the first sentence of the comment above it.

    python3 docs/definitions.py            writes the page, and prints how many definitions have no comment
    python3 docs/definitions.py --check    writes nothing; ends with status 1 where the page is stale

The crates and their order are those of crates.txt, up to the last numbered room. What stands above the definitions is
definitions-head.md.
"""

import pathlib
import re
import sys

DOCS = pathlib.Path(__file__).resolve().parent
ROOT = DOCS.parent
PAGE = DOCS / "DEFINITIONS.md"
DEFINITION = re.compile(r"\s*(?:(?:abbrev|unfoldable|def) pub|pub (?:def|abbrev|record|data))\s+([^\s:({]+)")
ROOM = re.compile(r"# (\d+\. .*)")
SENTENCE_END = re.compile(r"(?<=[^.]\.)\s+(?=[A-Z`])")


def rooms():
    """The product's crates, each room with its heading."""
    found = []
    for line in (ROOT / "crates.txt").read_text().splitlines():
        room = ROOM.match(line)
        if room:
            found.append((room.group(1), []))
        elif line.startswith("#") and found:
            break
        elif found and ":" in line:
            found[-1][1].append(line.split(":")[0])
    return found


def comment_text(line):
    """What a comment line says; nothing of a line that is no comment, or that parts a file."""
    stripped = line.strip()
    return stripped[2:].strip() if stripped.startswith("--") and not stripped.startswith("-- --") else None


def comment_above(lines, place):
    """The comment that ends on the line before this place, as one text."""
    first = place
    while first > 0 and comment_text(lines[first - 1]) is not None:
        first -= 1
    return " ".join(comment_text(line) for line in lines[first:place])


def first_sentence(text):
    """The first sentence of a text, without the dot at its end."""
    return SENTENCE_END.split(text)[0].rstrip(".")


def head_of(lines):
    """The comment that a file begins with, whole."""
    place = 0
    while place < len(lines) and comment_text(lines[place]) is not None:
        place += 1
    return comment_above(lines, place)


def definitions_of(lines):
    """The names that lines define, each with its sentence, or with nothing."""
    found = []
    for place, line in enumerate(lines):
        definition = DEFINITION.match(line)
        if definition:
            found.append((definition.group(1), first_sentence(comment_above(lines, place))))
    return found


def file_part(path, module):
    """What the page has of a file, and how many of its definitions have no comment."""
    lines = path.read_text().splitlines()
    definitions = definitions_of(lines)
    if not definitions:
        return [], 0
    part = [f"#### {module}", "", head_of(lines), ""]
    part += [f"- `{name}`: {sentence}" for name, sentence in definitions if sentence]
    bare = [f"`{name}`" for name, sentence in definitions if not sentence]
    if bare:
        part.append("- " + ", ".join(bare))
    return [line for line in part if line or part[2]] + [""], len(bare)


def page():
    """The whole page, and how many definitions have no comment."""
    text, bare = (DOCS / "definitions-head.md").read_text().splitlines() + [""], 0
    for heading, crates in rooms():
        text += [f"## {heading}", ""]
        for crate in crates:
            specs = ROOT / "crates" / crate / "specs"
            parts = [file_part(path, path.relative_to(specs).with_suffix("")) for path in sorted(specs.rglob("*.antt"))]
            text += [f"### `{crate}`", ""] + [line for part, _ in parts for line in part]
            bare += sum(count for _, count in parts)
    return "\n".join(text).rstrip() + "\n", bare


def first_difference(old, new):
    """The number of the first line that differs, and what it is to be."""
    old, new = old.splitlines(), new.splitlines()
    place = next((n for n, pair in enumerate(zip(old, new)) if pair[0] != pair[1]), min(len(old), len(new)))
    return place + 1, new[place] if place < len(new) else "nothing more"


if __name__ == "__main__":
    written, without_comment = page()
    if "--check" in sys.argv[1:]:
        kept = PAGE.read_text() if PAGE.exists() else ""
        if kept != written:
            number, line = first_difference(kept, written)
            sys.exit(f"docs/DEFINITIONS.md is stale: line {number} is to be: {line}\nwrite it with: python3 docs/definitions.py")
    else:
        PAGE.write_text(written)
        print(f"{without_comment} definitions have no comment")
