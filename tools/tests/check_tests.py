"""The plain checker of bench/checks over journals that are written by hand."""
import sys
import unittest

from support import TOOL, named_tests

TOP = TOOL.parent.parent
sys.path.insert(0, str(TOP / "bench"))

from histories import each_is_committed, read_journal  # noqa: E402
from plain_checker import Problem, finding  # noqa: E402
from plain_reducer import Language, Layout, Parser, literals, token  # noqa: E402

STATEMENTS = Language(
    """file : file#1 ;
file#1 : stmt* ;
stmt : ID '=' expr ';' | '{' stmt#1 '}' ;
stmt#1 : stmt* ;
expr : expr#1 expr#2 ;
expr#1 : '(' expr ')' | ID | INT ;
expr#2 : expr#3* ;
expr#3 : '+' expr ;""",
    [*literals(*"=;{}+()"), token("ID", "[a-z]+"), token("INT", "[0-9]+"), token("WS", "[ \n]+", True)],
)

# Gap text may lie across tokens.
ACROSS = Language(
    "s : 'a' s#1 'q' ;\ns#1 : '-'? ;",
    [*literals("a", "-", "q"), token("Z", "a q#", True), token("H", "#[a-z]*", True), token("WS", " ", True)],
)

HEAD = b"perses-journal 1\n"
OWN = b"perses-journal 2\nS fe55d574c397b7713a66bb55be32810164343b436e7529075844e43fce81c64e\n"
OTHER = b"perses-journal 2\nS e3b0c44298fc1c149afbf4c8996fb92427ae41e4649b934ca495991b7852b855\n"
START = HEAD + b"R y 12\na=1;b=2;c=3;\nC 1\n"
EMPTY = b"R n 0\n\nC 2\n"
REST = b"R y 8\nb=2;c=3;\nC 4\nR y 5\nb=2;\n\nC 5\nC 2\n"
WHOLE = START + EMPTY + b"R n 5\na=1;\n\nC 3\n" + REST

BY_TREES = Problem(b"a=1;b=2;c=3;", "perses", STATEMENTS)
KEPT = BY_TREES._replace(keeps=(b"2",))
BLOCKS = Problem(b"{{a=1;}}", "perses", STATEMENTS)
LINES = Problem(b"a\nb\nc")
LINE_START = HEAD + b"R y 5\na\nb\nc\nC 1\n"
LINE_RUN = LINE_START + b"R n 0\n\nC 2\nR y 2\na\n\nC 3\nC 2\n"
WIDE = Problem(b"a   =   1;", "perses", STATEMENTS, squeeze=True)
GAPS = Problem(b"a-q#aq", "perses", ACROSS)


class Findings(unittest.TestCase):
    """What is found of a run: the problem, the result, the journal."""

    def found(self, wanted, problem, result, journal):
        self.assertEqual(finding(problem, result, journal), wanted)


named_tests(Findings, Findings.found, [
    ("a run by trees", "yes", BY_TREES, b"b=2;\n", WHOLE),
    ("another result", "other result", BY_TREES, b"b=2;", WHOLE),
    ("a record of another text than is asked", "event 6 is not legal", BY_TREES, b"b=2;\n", START + EMPTY + b"R n 5\nc=1;\n\nC 3\n" + REST),
    ("a record that is no candidate", "record 6 is not a candidate", BY_TREES, b"b=2;\n", WHOLE + b"R n 5\nc=1;\n\n"),
    ("one before a missing end", "record 2 is not a candidate", BY_TREES, b"", START + b"R n 5\nc=1;\n\n"),
    ("an event before one that is no candidate", "event 4 is not legal", BY_TREES, b"", START + b"R n 5\nc=1;\n\nC 2\n"),
    ("a run that was stopped", "unfinished", BY_TREES, b"", START + EMPTY),
    ("no event", "unfinished", BY_TREES, b"", HEAD),
    ("an input that is no", "start is no", Problem(b"a=1;", "perses", STATEMENTS), b"", HEAD + b"R n 4\na=1;\nC 1\n"),
    ("a text that comes twice", "event 12 is not legal", BY_TREES, b"b=2;\n", WHOLE + b"R n 0\n\n"),
    ("a commit after the end", "event 12 is not legal", BY_TREES, b"b=2;\n", WHOLE + b"C 2\nC 2\n"),
    ("a commit without a question", "event 2 is not legal", BY_TREES, b"", HEAD + b"R y 0\n\nC 1\n"),
    ("a verdict that was turned", "event 10 is not legal", BY_TREES, b"b=2;\n", WHOLE.replace(b"R y 8", b"R n 8")),
    ("the last commits are missing", "yes", BY_TREES, b"b=2;\n", WHOLE.removesuffix(b"C 5\nC 2\n")),
    ("a digest of this start", "yes", BY_TREES, b"b=2;\n", WHOLE.replace(HEAD, OWN)),
    ("a digest of another start", "other start", BY_TREES, b"b=2;\n", WHOLE.replace(HEAD, OTHER)),
    ("another start before an event that is wrong", "other start", BY_TREES, b"", WHOLE.replace(HEAD, OTHER) + b"C 1\n"),
    ("a torn one before another start", "torn journal", BY_TREES, b"", WHOLE.replace(HEAD, OTHER)[:-1]),
    ("a torn journal", "torn journal", BY_TREES, b"b=2;\n", WHOLE[:-1]),
    ("a torn one before an event that is wrong", "torn journal", BY_TREES, b"", START + b"C 1\nC"),
    ("another first line", "bad journal head", BY_TREES, b"b=2;\n", WHOLE[1:]),
    ("a commit of no record", "bad journal at byte 17", BY_TREES, b"", HEAD + b"C 1\n"),
    ("a keep text", "yes", KEPT, b"b=2;\n", START + REST.replace(b"C 4\nR y 5", b"C 2\nR y 5").replace(b"C 5\nC 2", b"C 3")),
    ("a record without the keep text", "record 2 is not a candidate", KEPT, b"", START + b"R n 0\n\n"),
    ("a record of both styles", "unfinished", BY_TREES, b"", START + b"R n 8\na = 1 ;\n\nR n 5\na=1;\n\n"),
    ("a record of neither style", "record 2 is not a candidate", BY_TREES, b"", START + b"R n 6\na= 1;\n\n"),
    ("bytes that are no text", "record 2 is not a candidate", BY_TREES, b"", START + b"R n 1\n\xff\n"),
    ("a smaller part in the place of one", "yes", BLOCKS, b"a=1;\n", HEAD + b"R y 8\n{{a=1;}}\nC 1\nR n 0\n\nC 2\n"
     + b"R y 7\n{a=1;}\n\nC 3\nR y 5\na=1;\n\nC 4\nC 2\n"),
    ("mode hdd", "unfinished", BLOCKS._replace(mode="hdd"), b"", HEAD + b"R y 8\n{{a=1;}}\nC 1\nR n 0\n\nC 2\n"),
    ("a squeezed text", "yes", WIDE, b"a = 1 ;\n", HEAD + b"R y 10\na   =   1;\nC 1\nR y 8\na = 1 ;\n\nC 2\nR n 0\n\nC 3\n"),
    ("one that isn't tried", "event 4 is not legal", WIDE._replace(squeeze=False), b"",
     HEAD + b"R y 10\na   =   1;\nC 1\nR y 8\na = 1 ;\n\nC 2\n"),
    ("gap text across tokens", "yes", GAPS, b"a q#aq", HEAD + b"R y 6\na-q#aq\nC 1\nR y 6\na q#aq\nC 2\n"),
    ("a run by lines", "yes", LINES, b"a\n", LINE_RUN),
    ("another result by lines", "other result", LINES, b"a", LINE_RUN),
    ("lines in another order", "record 4 is not a candidate", LINES, b"a\n", LINE_RUN + b"R y 4\nb\na\n\n"),
    ("a part of a line", "record 4 is not a candidate", LINES, b"a\n", LINE_RUN + b"R y 3\na\nb\n"),
    ("the last line without its newline", "yes", LINES, b"a\n", LINE_RUN + b"R y 3\na\nc\n"),
])


class Parts(unittest.TestCase):
    def test_the_preferred_tree_takes_as_much_as_it_can(self):
        language = Language("s : a a ;\na : a#1 ;\na#1 : 'x'* ;", literals("x"))
        root = Parser(language, ["'x'"] * 3).tree()
        self.assertEqual([child.leaves() for child in root.children], [[0, 1, 2], []])

    def test_styles_of_print(self):
        layout = Layout(STATEMENTS, "x=((1));")
        self.assertEqual(layout.printed([0, 1, 4, 7]), "x= 1 ;")
        self.assertEqual(layout.printed([0, 1, 4, 7], True), "x = 1 ;\n")

    def test_what_fits(self):
        language = Language("e : f e#1 ;\ne#1 : g? ;\nf : 'x' | '[' e ']' ;\ng : 'y' | ~'x' ;", literals(*"x[]y"))
        fitting = [("f", "e"), ("'x'", "e"), ("'['", "g"), ("e", "e")]
        other = [("e", "f"), ("g", "e"), ("g", "e#1"), ("'x'", "g")]
        self.assertTrue(all(language.fits(*pair) for pair in fitting))
        self.assertFalse(any(language.fits(*pair) for pair in other))


class Stored(unittest.TestCase):
    """The finished run in examples/scheme, of which the gate checks a copy."""

    FILES = ("scheme/queue.scm", "scheme/reduced.scm", "scheme/reduced.scm.journal", "grammars/SExpression.g4")

    def test_the_copies_are_the_same(self):
        for name in self.FILES:
            copy = TOP / "crates" / "perses_main" / "data" / name.split("/")[1]
            self.assertEqual(copy.read_bytes(), (TOP / "examples" / name).read_bytes(), name)

    def test_its_journal_is_that_of_its_files(self):
        start, result, data = ((TOP / "examples" / name).read_bytes() for name in self.FILES[:3])
        journal = read_journal(data)
        texts = [record.text for record in journal.records()]
        self.assertEqual((texts[0], journal.last_yes().text, journal.torn), (start, result, 0))
        self.assertEqual(len(set(texts)), len(texts))
        self.assertTrue(each_is_committed(journal))


if __name__ == "__main__":
    unittest.main()
