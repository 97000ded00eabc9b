"""What the headline rests on: in a small repository, and what a check refuses."""
import subprocess
import tempfile
import unittest
from pathlib import Path

from support import TOOL

COMMAND = TOOL.parent / "believed"
TOP = TOOL.parent.parent

FILES = {
    "README.md": "A reader has to believe\n3 files and 15 lines.\n",
    "crates/command_perses/src/call.rt": """ghost use Rattle.command_perses.specs.Call.{Runs, Other};

/// No `Other`.
pub fn perses<G: Gate + Send>(gate: &mut G)
    ensures runs { Runs (G.log gate.new) }
{
    Other
}
""",
    "crates/low/src/gate.rt": "ghost use Rattle.low.specs.Log.{Log, Other};\n\n/// A gate.\npub trait Gate {\n    ghost log: { Self → Log };\n}\n\npub trait Wait { ghost other: { Other } }\n",
    "crates/command_perses/specs/Call.antt": """-- The call.
use Rattle.std.specs.Prelude.{ℕ}
use Rattle.low.specs.Log.{Log, entries as all}
use Rattle.middle.specs.Tree as trees

-- What it does.
pub record Runs (log : Log) : Type 0 where
  pub many : all log ≡ 0
  pub tree : trees.IsTree log

-- Other, which is beside it.
abbrev pub Other : Type 0
Other = ℕ
""",
    "crates/low/specs/Log.antt": """-- Logs.
use Rattle.std.specs.Prelude.{ℕ}

pub data Log : Type 0 where
  none : Log
  more : Log → Log

-- how many entries
abbrev pub entries : Log → ℕ
entries none = 0
entries (more log) = 1

pub data Other : Type 0 where
  other : Other
""",
    "crates/middle/specs/Lib.antt": "pub use Rattle.low.specs.Tree\n",
    "crates/low/specs/Tree.antt": """-- Trees.
use Rattle.low.specs.Log.{Log, more}

mutual
  -- A tree.
  pub data IsTree : Log → Type 0 where
    leaf : (log : Log) → IsTree (more log)
""",
}


class Small(unittest.TestCase):
    def setUp(self):
        folder = tempfile.TemporaryDirectory()
        self.addCleanup(folder.cleanup)
        self.top = Path(folder.name)
        for name, text in FILES.items():
            self.put(name, text)

    def put(self, name, text):
        path = self.top / name
        path.parent.mkdir(parents=True, exist_ok=True)
        path.write_text(text, encoding="utf-8")

    def change(self, name, old, new):
        text = (self.top / name).read_text(encoding="utf-8")
        self.assertEqual(text.count(old), 1)
        self.put(name, text.replace(old, new))

    def run_on(self, *words):
        done = subprocess.run([str(COMMAND), "--top", str(self.top), *words], capture_output=True, text=True)
        return done.returncode, done.stdout, done.stderr

    def test_names_what_the_clauses_reach(self):
        lines = ["    4 crates/command_perses/specs/Call.antt Runs", "    7 crates/low/specs/Log.antt Log entries more none", "    4 crates/low/specs/Tree.antt IsTree leaf"]
        self.assertEqual(self.run_on("--names"), (0, "\n".join([*lines, "3 files and 15 lines", ""]), ""))

    def test_the_name_of_a_field_is_no_definition(self):
        before = self.run_on("--names")
        self.change("crates/low/specs/Log.antt", "entries none = 0", "entries none = (record { Other = 0 }).Other")
        self.assertEqual(self.run_on("--names"), before)

    def test_a_check_says_nothing_where_all_is_right(self):
        self.assertEqual(self.run_on("--check"), (0, "", ""))

    def test_refuses_a_number_that_is_not_in_the_readme(self):
        self.put("README.md", "3 files and 16 lines\n")
        self.assertEqual(self.run_on("--check"), (1, "", "believed: README.md: doesn't have '3 files and 15 lines'\n"))

    def test_refuses_a_proof(self):
        self.change("crates/low/specs/Log.antt", "specs.Prelude.{ℕ}", "proofs.Common.{ℕ}")
        self.assertEqual(self.run_on("--check"), (1, "", "believed: crates/low/specs/Log.antt: the headline rests on it, and it imports a proof\n"))

    def test_refuses_a_file_of_inner(self):
        (self.top / "crates/low/specs/inner").mkdir()
        (self.top / "crates/low/specs/Tree.antt").rename(self.top / "crates/low/specs/inner/Tree.antt")
        self.put("crates/middle/specs/Lib.antt", "pub use Rattle.low.specs.inner.Tree\n")
        self.assertEqual(self.run_on("--check"), (1, "", "believed: crates/low/specs/inner/Tree.antt: the headline rests on it, and it is in inner/\n"))


class Repository(unittest.TestCase):
    def test_is_right(self):
        done = subprocess.run([str(COMMAND), "--check"], cwd=TOP, capture_output=True, text=True)
        self.assertEqual((done.returncode, done.stderr), (0, ""))


if __name__ == "__main__":
    unittest.main()
