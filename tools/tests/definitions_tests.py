"""The index of the definitions: what it has of a small repository, what a check refuses, and that of this repository."""
import subprocess
import tempfile
import unittest
from pathlib import Path

from support import TOOL

from definition_index.comments import first_sentence, head_comment
from definition_index.index import BEGIN, END, groups_of, index_of

COMMAND = TOOL.parent / "definitions"
TOP = TOOL.parent.parent

CRATES = "# Edge\nfaults: thiserror\n\n# Trees\ntree: faults\nmarks:\n\n# Not in the program: tests\ntest_trees: tree\n"
FILES = {
    "crates.txt": CRATES,
    "README.md": "What to believe: [the definitions](docs/DEFINITIONS.md#the-index).\n",
    "crates/faults/specs/Count.antt": "-- Counts of faults,\n-- which never fall. They are numbers.\nuse A\n-- a count\n",
    "crates/tree/specs/Lib.antt": "pub use B\n",
    "crates/tree/specs/Tree.antt": "-- A tree\n",
    "crates/tree/specs/Edits.antt": "-- Edits, as of `HDD: Hierarchical Delta Debugging`. More.\n",
    "crates/tree/specs/inner.antt": "pub mod Code\n",
    "crates/tree/specs/inner/Code.antt": "use A\n",
    "crates/tree/src/tree.rt": "",
    "crates/marks/src/lib.rt": "",
    "crates/test_trees/specs/Small.antt": "-- A small tree.\n",
}
INDEX = """### Edge

**faults**

- [`Count`](../crates/faults/specs/Count.antt): Counts of faults, which never fall.

### Trees

**tree**

- [`Edits`](../crates/tree/specs/Edits.antt): Edits, as of `HDD: Hierarchical Delta Debugging`.
- [`Tree`](../crates/tree/specs/Tree.antt): A tree."""
DOCUMENT = f"# Definitions\n\n## The index\n\n{BEGIN}\n\n{INDEX}\n\n{END}\nThe end.\n"

# What a document says beside a name that is there, and what isn't there.
NAMES = [
    ("`tree/specs/Tree.antt` and `Edits.antt`", None), ("`tree/specs/Trees.antt`", "tree/specs/Trees.antt"), ("`tree/specs/Tree.antt`, `Count.antt`", "Count.antt"),
    ("`tree`: `src/tree.rt`", None), ("`tree`: `src/count.rt`", "src/count.rt"), ("`src/tree.rt`", None), ("`src/trees.rt`", "src/trees.rt"), ("`Tree.antt`", None),
    ("`crates/tree`, `specs/Tree.antt`", None), ("`crates/trees`", "crates/trees"), ("`docs/DEFINITIONS.md`", None), ("`docs/NONE.md`", "docs/NONE.md"),
    ("`wood/src/tree.rt`", "wood/src/tree.rt"), ("`perses-work/1/`, `specs/`, `a.g4`, `./perses`", None), ("docs/NONE.md", None), ("`man ./docs/none.1`", "docs/none.1"),
    ("[a](DEFINITIONS.md#the-index)", None), ("[a](DEFINITIONS.md#no-index)", "DEFINITIONS.md#no-index"), ("[a](../crates/tree)", None), ("[a](../tree)", "../tree"),
    ("[a](#the-page)", None), ("[a](https://a.b/c)", None),
]


class Heads(unittest.TestCase):
    def test_reads_the_first_sentence(self):
        for head, sentence in [("-- A. B.", "A."), ("-- `a.b` is\n-- one. `c`", "`a.b` is one."), ("-- A\n--\n-- B.", "A."), ("-- Of this:\n", "Of this."), ("use A\n-- A.", ""), ("", "")]:
            with self.subTest(head=head):
                self.assertEqual(first_sentence(head_comment(head)), sentence)

    def test_groups_are_in_the_order_of_crates(self):
        groups = [(group.title, group.crates) for group in groups_of(CRATES)]
        self.assertEqual(groups[1:], [("Edge", ["faults"]), ("Trees", ["tree", "marks"]), ("Not in the program: tests", ["test_trees"])])


class CommandLine(unittest.TestCase):
    def setUp(self):
        folder = tempfile.TemporaryDirectory()
        self.addCleanup(folder.cleanup)
        self.top = Path(folder.name)
        for name, text in FILES.items():
            self.put(name, text)
        self.put("docs/DEFINITIONS.md", DOCUMENT)

    def put(self, name, text):
        (self.top / name).parent.mkdir(parents=True, exist_ok=True)
        (self.top / name).write_text(text)

    def run_on(self, *words):
        done = subprocess.run([str(COMMAND), "--top", str(self.top), *words], capture_output=True, text=True)
        return done.returncode, done.stdout, done.stderr

    def test_prints_the_index(self):
        self.assertEqual(index_of(self.top), INDEX)
        self.assertEqual(self.run_on(), (0, f"{INDEX}\n", ""))

    def test_writes_the_index_between_its_marks(self):
        self.put("docs/DEFINITIONS.md", DOCUMENT.replace(INDEX, "An old one."))
        self.assertEqual(self.run_on("--write"), (0, "", ""))
        self.assertEqual((self.top / "docs/DEFINITIONS.md").read_text(), DOCUMENT)
        self.assertEqual(self.run_on("--check"), (0, "", ""))

    def test_needs_its_marks(self):
        self.put("docs/DEFINITIONS.md", f"## The index\n\n{INDEX}\n")
        for word in ["--write", "--check"]:
            self.assertEqual(self.run_on(word), (1, "", "definitions: docs/DEFINITIONS.md: no place for the index\n"))

    def test_names_a_line_that_is_lacking(self):
        self.put("crates/marks/specs/Marks.antt", "-- Marks.\n")
        status, _, errors = self.run_on("--check")
        self.assertEqual(status, 1)
        self.assertIn("lacks '- [`Marks`](../crates/marks/specs/Marks.antt): Marks.'", errors)

    def test_names_a_file_without_a_head(self):
        self.put("crates/tree/specs/Tree.antt", "use A\n")
        self.run_on("--write")
        self.assertEqual(self.run_on("--check"), (1, "", "definitions: crates/tree/specs/Tree.antt: no comment at its head\n"))

    def test_names_a_definition_that_is_not_in_its_files(self):
        self.put("crates/tree/specs/Tree.antt", "-- A tree\npub data Tree : Type 0\nabbrev pub weight : Tree\n-- heavy\n")
        entry = "- `Tree`, `weight`, `heavy`, `eigh`: a tree: it (is) one (own; `tree/specs/Tree.antt`).\n"
        self.put("docs/DEFINITIONS.md", DOCUMENT + entry)
        errors = "".join(f"definitions: docs/DEFINITIONS.md:{DOCUMENT.count(chr(10)) + 1}: no {name} in its files\n" for name in ["heavy", "eigh"])
        self.assertEqual(self.run_on("--check"), (1, "", errors))

    def test_names_a_path_in_a_block_of_code(self):
        self.put("docs/PAGE.md", "# The page\n\n```sh\n./perses --input examples/none.c --output [a](b) '`x`'\n```\n")
        self.assertEqual(self.run_on("--check"), (1, "", "definitions: docs/PAGE.md:4: no examples/none.c\n"))

    def test_names_a_path_that_is_not_there(self):
        for text, missing in NAMES:
            with self.subTest(text=text):
                self.put("docs/PAGE.md", f"# The page\n\n{text}\n")
                errors = f"definitions: docs/PAGE.md:3: no {missing}\n" if missing else ""
                self.assertEqual(self.run_on("--check"), (1 if missing else 0, "", errors))


class Repository(unittest.TestCase):
    def test_index_and_paths_are_right(self):
        done = subprocess.run([str(COMMAND), "--check"], cwd=TOP, capture_output=True, text=True)
        self.assertEqual((done.returncode, done.stderr), (0, ""))


if __name__ == "__main__":
    unittest.main()
