"""The index: by groups of crates, as crates.txt has them, a line for each file of a crate's specs/."""
from typing import NamedTuple

from .comments import first_sentence, head_comment

BEGIN = "<!-- The index: tools/definitions writes what is between these two comments. -->"
END = "<!-- The end of the index. -->"

# Crates whose names begin so aren't in the program, and the files of a crate's declarations have no definitions.
OUTSIDE = ("test_", "cases_", "plain_", "bench_")
DECLARATIONS = ("Lib.antt", "inner.antt")


class Group(NamedTuple):
    """Crates that are one below the other in crates.txt, and the comment above them."""

    title: str
    crates: list


def groups_of(text):
    """The groups of crates in a text such as crates.txt, in its order."""
    groups = [Group("Crates", [])]
    for line in text.splitlines():
        if line.startswith("#"):
            groups.append(Group(line.lstrip("# ").rstrip(), []))
        elif ":" in line:
            groups[-1].crates.append(line.partition(":")[0].strip())
    return groups


def specs_of(top, crate):
    """The files of definitions of a crate, by their names; none of a crate that isn't in the program."""
    if crate.startswith(OUTSIDE):
        return []
    return sorted(path for path in (top / "crates" / crate / "specs").glob("*.antt") if path.name not in DECLARATIONS)


def line_of(path, crate):
    """The line of a file: its name, as a link from docs/, and the first sentence of its head."""
    sentence = first_sentence(head_comment(path.read_text(encoding="utf-8")))
    return f"- [`{path.stem}`](../crates/{crate}/specs/{path.name}): {sentence}".rstrip()


def index_of(top):
    """The index of the repository in this folder."""
    parts = []
    for group in groups_of((top / "crates.txt").read_text(encoding="utf-8")):
        lists = [(crate, [line_of(path, crate) for path in specs_of(top, crate)]) for crate in group.crates]
        shown = [f"**{crate}**\n\n" + "\n".join(lines) for crate, lines in lists if lines]
        if shown:
            parts += [f"### {group.title}", *shown]
    return "\n\n".join(parts)


def without_head(top):
    """The files of definitions that say nothing of themselves at their heads."""
    crates = [crate for group in groups_of((top / "crates.txt").read_text(encoding="utf-8")) for crate in group.crates]
    return [path for crate in crates for path in specs_of(top, crate) if not head_comment(path.read_text(encoding="utf-8"))]


def with_index(document, index):
    """The document with this index in place of its own; None where it has no place for one."""
    before, begins, rest = document.partition(BEGIN)
    _, ends, after = rest.partition(END)
    return f"{before}{BEGIN}\n\n{index}\n\n{END}{after}" if begins and ends else None
