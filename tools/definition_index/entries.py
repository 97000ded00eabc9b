"""The entries of the definitions: the names that each begins with, and the files in the parentheses at its end."""
import re

from .paths import CODE, lines_of

ENTRY = re.compile(r"- (`[^:]+`): .*\((.+?)\)\.")


def texts_of(top, names):
    """The texts of these files of crates, as far as they are there."""
    paths = [top / "crates" / name for name in names]
    return [path.read_text(encoding="utf-8") for path in paths if path.is_file()]


def declares(text, name):
    """Whether a text has a public definition or type of this name."""
    return re.search(rf"\bpub (?:\w+ )*{re.escape(name)}\b", text) is not None


def undeclared(top, document):
    """The numbers of a document's lines that are entries, with the names that none of an entry's files declares."""
    for line in lines_of(document):
        entry = ENTRY.fullmatch(line.text)
        texts = texts_of(top, CODE.findall(entry[2])) if entry else []
        names = CODE.findall(entry[1]) if entry else []
        yield from ((line.number, name) for name in names if not any(declares(text, name) for text in texts))
