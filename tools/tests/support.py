"""What all tests use: a conversion in memory, and the texts that a small grammar derives."""
import os
import subprocess
import sys
import tempfile
from pathlib import Path

TOOL = Path(__file__).resolve().parent.parent / "plain-grammar"
sys.path.insert(0, str(TOOL.parent))

from plain_grammar import command, matching, reading, tree  # noqa: E402
from plain_grammar.notes import Fault, Notes  # noqa: E402
from plain_grammar.printing import printed  # noqa: E402


class Converted:
    """What came of a conversion: the text, the notes by line, and whether something couldn't be done."""

    def __init__(self, text, notes):
        self.text = text
        self.notes = notes.printed().splitlines()
        self.failed = notes.failed


def convert(*texts, lists=False, start=None):
    """Converts files with these texts."""
    words = [*(["--lists"] if lists else []), *(["--start", start] if start else [])]
    return converted_by(texts, words, lambda arguments, notes: printed(command.converted(arguments, notes))[0])


def convert_pair(*texts, lists=False):
    """Converts files with these texts to a pair. Its text is that of the lexer and that of the parser."""
    words = ["--pair", "L.g4", *(["--lists"] if lists else [])]
    return converted_by(texts, words, lambda arguments, notes: tuple(printed(made)[0] for made in command.converted_pair(arguments, notes)))


def converted_by(texts, words, make):
    """What is made of files with these texts."""
    with tempfile.TemporaryDirectory() as folder:
        files = []
        for number, text in enumerate(texts):
            files.append(os.path.join(folder, f"{number}.g4"))
            Path(files[-1]).write_text(text, encoding="utf-8", newline="")
        arguments = command.words().parse_args([*files, *words])
        notes = Notes([f"{number}.g4" for number in range(len(texts))])
        try:
            text = make(arguments, notes)
        except Fault as fault:
            notes.cannot(fault.place, fault.text)
            text = None
    return Converted(text, notes)


def run(*words, **files):
    """Runs the tool in a folder with these files: status, output and errors."""
    with tempfile.TemporaryDirectory() as folder:
        for name, text in files.items():
            data = text if isinstance(text, bytes) else text.encode("utf-8")
            Path(folder, f"{name}.g4").write_bytes(data)
        done = subprocess.run([str(TOOL), *words], cwd=folder, capture_output=True)
    return done.returncode, done.stdout.decode("utf-8"), done.stderr.decode("utf-8")


def named_tests(case, check, rows):
    """Makes a test of each row: its name, and what the check is called with."""
    for name, *values in rows:
        test = f"test_{check.__name__}_{name.replace(' ', '_').replace('-', '_')}"
        assert not hasattr(case, test), f"two tests {test}"
        setattr(case, test, lambda self, values=values: check(self, *values))


def rules_of(text):
    """The rules of a grammar's text, by their names."""
    return {rule.name.text: rule for rule in reading.read(text, 0, Notes([""])).rules}


def derived(text, name, most):
    """All lists of words of at most this length that a rule derives; a word is a literal or the name of a token."""
    rules = {key: rule for key, rule in rules_of(text).items() if not rule.is_lexer}
    known = {key: set() for key in rules}
    changed = True
    while changed:
        changed = False
        for key, rule in rules.items():
            found = of_body(rule.body, known, most)
            changed |= found != known[key]
            known[key] = found
    return known[name]


def of_body(body, known, most):
    return {words for part in body.alternatives for words in of_sequence(part.elements, known, most)}


def of_sequence(elements, known, most):
    found = {()}
    for element in elements:
        found = joined(found, of_element(element, known, most), most)
    return found


def joined(one, other, most):
    return {a + b for a in one for b in other if len(a) + len(b) <= most}


def of_element(element, known, most):
    once = of_atom(element.atom, known, most)
    if element.suffix is None:
        return once
    if element.suffix.text == "?":
        return once | {()}
    repeated = {()}
    while True:
        more = repeated | joined(repeated, once, most)
        if more == repeated:
            break
        repeated = more
    return repeated if element.suffix.text == "*" else joined(once, repeated, most)


def of_atom(atom, known, most):
    if isinstance(atom, tree.Block):
        return of_body(atom.body, known, most)
    if atom.word.text == "EOF":
        return {()}
    return known[atom.word.text] if atom.word.text in known else {(atom.word.text,)}


def as_pattern(body, rules):
    """The regular expression of a lexer rule's body without non-greedy loops."""
    return "(?:" + "|".join("".join(element_pattern(part, rules) for part in other.elements) for other in body.alternatives) + ")"


def element_pattern(element, rules):
    atom = element.atom
    if isinstance(atom, tree.Block):
        inner = as_pattern(atom.body, rules)
    elif isinstance(atom, tree.Leaf) and atom.word.kind == "name":
        inner = "" if atom.word.text == "EOF" else as_pattern(rules[atom.word.text].body, rules)
    elif isinstance(atom, tree.Leaf) and atom.word.kind == "literal":
        inner = "".join(f"\\U{code:08x}" for code in matching.literal_codes(atom.word.text)[0])
    else:
        ranges = "".join(f"\\U{first:08x}-\\U{last:08x}" for first, last in matching.single(atom))
        inner = f"[{ranges}]"
    return f"(?:{inner})" + (element.suffix.text if element.suffix else "")
