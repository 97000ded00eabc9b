"""The paths that the documents name, and which of them aren't there."""
import re
from typing import NamedTuple

CODE = re.compile(r"`([^`]+)`")
LINK = re.compile(r"\]\(([^)\s]+)\)")
PLAIN = re.compile(r"[\w./-]+")
HEADING = re.compile(r"#+ (.+)")

# The folders of the repository, and what a crate has in its own.
FOLDERS = ("bench", "crates", "docs", "examples", "tools")
OF_CRATE = ("data", "must-fail", "proofs", "specs", "src", "stdin", "stdout")
SOURCES = (".antt", ".rt")


class Line(NamedTuple):
    """A line of a document: its number, from 1, its text, and whether it is in a block of code."""

    number: int
    text: str
    in_block: bool

    def words(self):
        """The words of its code that may be paths."""
        codes = [self.text] if self.in_block else CODE.findall(self.text)
        return [word.removeprefix("./") for code in codes for word in code.split() if PLAIN.fullmatch(word)]

    def links(self):
        return [] if self.in_block else LINK.findall(self.text)


def lines_of(document):
    """The lines of a document."""
    in_block = False
    for number, text in enumerate(document.read_text(encoding="utf-8").splitlines(), 1):
        is_fence = text.lstrip().startswith("```")
        if not is_fence:
            yield Line(number, text, in_block)
        in_block ^= is_fence


def anchors_of(document):
    """What a link into a document can name: its headings, in small letters and with hyphens."""
    headings = (HEADING.fullmatch(line.text) for line in lines_of(document) if not line.in_block)
    return {re.sub(r"[^\w -]", "", found[1].lower()).replace(" ", "-") for found in headings if found}


class Paths:
    """The paths of the repository in this folder."""

    def __init__(self, top):
        self.top = top
        self.crates = sorted(path.name for path in (top / "crates").iterdir() if path.is_dir())

    def missing(self, document):
        """The numbers of a document's lines, with what each names that isn't there."""
        for line in lines_of(document):
            words = line.words()
            fronts = {word.removeprefix("crates/").partition("/")[0] for word in words}
            crates = [crate for crate in self.crates if crate in fronts]
            yield from ((line.number, word) for word in words if not self.is_there(word, crates or self.crates))
            yield from ((line.number, target) for target in line.links() if not self.leads_on(document, target))

    def is_there(self, name, crates):
        """Whether a word of code is no path, or that of a file: of one of these crates, where it names none itself."""
        first, _, rest = name.partition("/")
        if first in FOLDERS and rest:
            return (self.top / name).exists()
        if first in OF_CRATE and rest:
            return any((self.top / "crates" / crate / name).exists() for crate in crates)
        if rest.partition("/")[0] in OF_CRATE:
            return (self.top / "crates" / name).exists()
        if not rest and name.endswith(SOURCES) and name not in SOURCES:
            return any(any((self.top / "crates" / crate).rglob(name)) for crate in crates)
        return True

    def leads_on(self, document, target):
        """Whether a link of a document leads out of the repository, or to a file, and there to a heading."""
        if "://" in target:
            return True
        path, _, anchor = target.partition("#")
        file = document.parent / path if path else document
        return file.exists() and (not anchor or anchor in anchors_of(file))
