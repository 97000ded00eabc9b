"""The command line."""
import argparse
import sys
from pathlib import Path

from .entries import undeclared
from .index import index_of, with_index, without_head
from .paths import Paths

TOP = Path(__file__).resolve().parent.parent.parent
DOCUMENT = "docs/DEFINITIONS.md"


def words():
    parser = argparse.ArgumentParser(
        prog="definitions",
        description="Prints the index of the definitions: a line for each file of specs/ of the crates of the program, with the first sentence of its head.",
    )
    which = parser.add_mutually_exclusive_group()
    which.add_argument("--write", action="store_true", help=f"writes the index into {DOCUMENT}")
    check_help = (
        f"says what is missing, with status 1: a line of the index in {DOCUMENT}, a comment at the head of a file of specs/, "
        "a definition in the files of its line, a path that a document names"
    )
    which.add_argument("--check", action="store_true", help=check_help)
    parser.add_argument("--top", metavar="FOLDER", type=Path, default=TOP, help="the folder of the repository, instead of this one")
    return parser


def documents_of(top):
    """README and all pages in docs/."""
    return [top / "README.md", *sorted((top / "docs").glob("*.md"))]


def faults_of(top):
    """What is missing, one line each."""
    text = (top / DOCUMENT).read_text(encoding="utf-8")
    written = with_index(text, index_of(top))
    if written is None:
        yield f"{DOCUMENT}: no place for the index"
    elif written != text:
        old, new = (set(one.splitlines()) for one in (text, written))
        yield from (f"{DOCUMENT}: lacks {line!r}" for line in written.splitlines() if line and line not in old)
        yield from (f"{DOCUMENT}: has {line!r}" for line in text.splitlines() if line and line not in new)
        yield f"{DOCUMENT}: not the index of specs/; `tools/definitions --write` makes it so"
    yield from (f"{path.relative_to(top)}: no comment at its head" for path in without_head(top))
    yield from (f"{DOCUMENT}:{number}: no {name} in its files" for number, name in undeclared(top, top / DOCUMENT))
    paths = Paths(top)
    for document in documents_of(top):
        yield from (f"{document.relative_to(top)}:{number}: no {name}" for number, name in paths.missing(document))


def check(top):
    faults = list(faults_of(top))
    for fault in faults:
        print(f"definitions: {fault}", file=sys.stderr)
    return 1 if faults else 0


def write(top):
    path = top / DOCUMENT
    written = with_index(path.read_text(encoding="utf-8"), index_of(top))
    if written is None:
        print(f"definitions: {DOCUMENT}: no place for the index", file=sys.stderr)
        return 1
    path.write_text(written, encoding="utf-8")
    return 0


def main():
    arguments = words().parse_args()
    if arguments.check:
        return check(arguments.top)
    if arguments.write:
        return write(arguments.top)
    print(index_of(arguments.top))
    return 0
