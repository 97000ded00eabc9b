"""bench/wrong_bodies over small crates, with an `rt` in place of the prover's, and over this repository."""
import os
import shutil
import subprocess
import tempfile
import unittest
from pathlib import Path

from support import TOOL

TOP = TOOL.parent.parent

# Prints of each edit what its file says after the word `said:`, and notes the folder and what it finds there.
RT = """#!/bin/sh
{ echo "$@"; pwd; find crates* HANDLES -type f | sort; } >"$NOTES"
echo "rt: two of its edits are known"
shift
for crate in "$@"; do
    for edit in crates/$crate/must-fail/*.edit; do
        said=$(sed -n 's/^# said: //p' "$edit")
        [ -z "$said" ] || echo "rt: must-fail $crate/$(basename "$edit"): $said"
    done
done
exit 1
"""

REFUSED = "refused, as it must be: ./proofs/add/Answers.antt:1:1: error: no"
BY_NAMES = "refused, as it must be (only because a proof file names what the edit took away, so this): ./proofs"
BY_LIMIT = "refused, as it must be (only by a limit of the prover, which gave no verdict): src/lib.rt"
MISSED = "NOT REFUSED: the crate is still proved with this edit"

SOURCE = "fn one() {\n    1\n}\nfn two() {\n    1\n}\n"


def edit(said, old="fn one() {", new="fn one(x: u8) {", path="src/lib.rt"):
    comment = f"# said: {said}\n" if said else ""
    return f"{comment}file: {path}\nold: {old}\nnew: {new}\n"


def write(path, text, mode=0o644):
    path.parent.mkdir(parents=True, exist_ok=True)
    path.write_text(text)
    path.chmod(mode)


class Repository:
    """A repository in a folder of its own, with two crates and these edits by their paths."""

    def __init__(self, folder, edits):
        self.top = Path(folder, "top")
        self.notes = Path(folder, "notes")
        for name in ("wrong_bodies", "built.py"):
            write(self.top / "bench" / name, (TOP / "bench" / name).read_text(), 0o755)
        write(self.top / "perses", f'#!/bin/sh\necho "$@" >"{folder}/built"\n', 0o755)
        write(Path(folder, "bin", "rt"), RT, 0o755)
        write(self.top / "crates.txt", "add:\nsub: add\n")
        write(self.top / "HANDLES", "Handles allowed: none.\n")
        for crate in ("add", "sub"):
            write(self.top / "crates" / crate / "src" / "lib.rt", SOURCE)
            write(self.top / "crates" / crate / "out" / "kept", "")
        for path, text in edits.items():
            write(self.top / path, text)
        self.path = f"{folder}/bin:{os.environ['PATH']}"
        self.was_built = Path(folder, "built").exists
        write(self.top / ".gitignore", "out/\n")
        for words in (["init", "-q"], ["add", "."]):
            subprocess.run(["git", *words], cwd=self.top, check=True)

    def run(self, *words):
        """The status of the script with these words, and the lines that it prints."""
        script = self.top / "bench" / "wrong_bodies"
        given = {**os.environ, "PATH": self.path, "NOTES": str(self.notes)}
        done = subprocess.run([script, *words], env=given, capture_output=True, text=True)
        return done.returncode, done.stdout.splitlines()


class WrongBodies(unittest.TestCase):
    def repository(self, edits):
        folder = tempfile.mkdtemp()
        self.addCleanup(shutil.rmtree, folder)
        return Repository(folder, edits)

    def test_tries_the_moved_edits_alone(self):
        there = self.repository(
            {
                "crates/add/must-fail/of_the_gate.edit": edit(MISSED),
                "wrong_bodies/add/first.edit": edit(REFUSED),
                "wrong_bodies/add/second.edit": edit(REFUSED),
                "wrong_bodies/add/README.md": "Why these.\n",
                "wrong_bodies/sub/third.edit": edit(REFUSED),
            }
        )
        status, lines = there.run()
        self.assertEqual(lines, ["add: 2 of 2 refused", "sub: 1 of 1 refused", "3 of 3 wrong bodies refused"])
        self.assertEqual(status, 0)
        self.assertTrue(there.was_built())
        words, folder, *files = there.notes.read_text().splitlines()
        self.assertEqual(words, "must-fail add sub")
        self.assertFalse(folder.startswith(str(there.top)) or Path(folder).exists())
        edits = ["add/must-fail/first.edit", "add/must-fail/second.edit", "sub/must-fail/third.edit"]
        sources = ["add/src/lib.rt", "sub/src/lib.rt"]
        expected = ["HANDLES", "crates.txt", *(f"crates/{name}" for name in edits + sources)]
        self.assertEqual(sorted(files), sorted(expected))

    def test_names_each_edit_that_was_not_refused(self):
        there = self.repository(
            {
                "wrong_bodies/add/a.edit": edit(REFUSED),
                "wrong_bodies/add/b.edit": edit(MISSED),
                "wrong_bodies/add/c.edit": edit("BAD EDIT: the prover cannot read the edited text"),
                "wrong_bodies/sub/d.edit": edit("NOT TRIED: its check was killed"),
                "wrong_bodies/sub/e.edit": edit(None),
            }
        )
        status, lines = there.run()
        expected = [
            "add: 1 of 3 refused",
            f"    add/b.edit: {MISSED}",
            "    add/c.edit: BAD EDIT: the prover cannot read the edited text",
            "sub: 0 of 2 refused",
            "    sub/d.edit: NOT TRIED: its check was killed",
            "    sub/e.edit: NOT TRIED: nothing was said of it",
            "1 of 5 wrong bodies refused",
        ]
        self.assertEqual((status, lines), (1, expected))

    def test_names_what_shows_little(self):
        there = self.repository({"wrong_bodies/add/a.edit": edit(BY_NAMES), "wrong_bodies/add/b.edit": edit(BY_LIMIT)})
        expected = [
            "add: 2 of 2 refused",
            "    add/a.edit: refused, but only because a proof file names what the edit took away",
            "    add/b.edit: refused, but only by a limit of the prover",
            "2 of 2 wrong bodies refused",
        ]
        self.assertEqual(there.run(), (0, expected))

    def test_tries_the_crates_that_are_named(self):
        there = self.repository({"wrong_bodies/add/a.edit": edit(MISSED), "wrong_bodies/sub/b.edit": edit(REFUSED)})
        self.assertEqual(there.run("sub"), (0, ["sub: 1 of 1 refused", "1 of 1 wrong bodies refused"]))
        self.assertFalse(there.was_built())
        self.assertEqual(there.run("add")[0], 1)
        self.assertEqual(there.run("mul")[0], 2)

    def test_tries_something(self):
        there = self.repository({"crates/add/must-fail/a.edit": edit(REFUSED)})
        self.assertEqual(there.run("add"), (1, []))

    def test_lists_the_edits(self):
        there = self.repository({"crates/add/must-fail/a.edit": edit(REFUSED), "wrong_bodies/add/b.edit": edit(REFUSED)})
        self.assertEqual(there.run("--list"), (0, ["add: 1 in the gate, 1 here", "1 in the gate, 1 here"]))
        self.assertFalse(there.notes.exists())

    def test_finds_edits_that_cannot_be_applied(self):
        again = edit(REFUSED) + "old: fn one(x: u8) {\nnew: fn one() {\n"
        faults = {
            "absent.edit": (edit(REFUSED, old="fn six"), "an old text is in src/lib.rt 0 times, and not once"),
            "back.edit": (again, "it changes nothing"),
            "empty.edit": ("", "it changes nothing"),
            "lone.edit": ("file: src/lib.rt\nold: fn one\n", "no 'new:' line follows the last 'old:' line"),
            "nowhere.edit": ("old: fn one\nnew: fn\n", "a 'new:' line comes before a 'file:' or an 'old:' line"),
            "outside.edit": (edit(REFUSED, path="src/../Cargo"), "src/../Cargo is no file in src/, specs/ or proofs/"),
            "stray.edit": (edit(REFUSED) + "and more\n", "this line isn't read: and more"),
            "twice.edit": (edit(REFUSED, old="    1"), "an old text is in src/lib.rt 2 times, and not once"),
            "wrong name.edit": (edit(REFUSED), "its name is not that of an edit"),
        }
        there = self.repository({f"wrong_bodies/add/{name}": text for name, (text, _) in faults.items()})
        expected = [f"wrong_bodies/add/{name}: {fault}" for name, (_, fault) in faults.items()]
        self.assertEqual(there.run("--apply"), (1, [*expected, f"faults: {len(faults)}"]))
        self.assertEqual(there.run()[0], 1)
        self.assertFalse(there.notes.exists())

    def test_finds_two_edits_of_one_name(self):
        there = self.repository({"crates/add/must-fail/a.edit": edit(REFUSED), "wrong_bodies/add/a.edit": edit(REFUSED)})
        expected = ["add/a.edit is in must-fail and in wrong_bodies", "faults: 1"]
        self.assertEqual(there.run("--apply"), (1, expected))

    def test_finds_edits_of_no_crate(self):
        there = self.repository({"wrong_bodies/mul/a.edit": edit(REFUSED)})
        self.assertEqual(there.run("--apply"), (1, ["wrong_bodies/mul is the folder of no crate", "faults: 1"]))

    def test_follows_edits_of_several_changes(self):
        twice = edit(REFUSED) + "old: fn one(x: u8) {\nnew: fn one(y: u8) {\n"
        there = self.repository({"wrong_bodies/add/a.edit": twice})
        self.assertEqual(there.run("--apply"), (0, ["all edits can be applied"]))

    def test_all_edits_of_the_repository_can_be_applied(self):
        done = subprocess.run([TOP / "bench" / "wrong_bodies", "--apply"], capture_output=True, text=True)
        self.assertEqual((done.returncode, done.stdout), (0, "all edits can be applied\n"))


if __name__ == "__main__":
    unittest.main()
