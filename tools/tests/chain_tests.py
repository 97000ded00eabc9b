"""The chain of modes, with a small program in the place of perses."""
import fcntl
import os
import shutil
import subprocess
import sys
import tempfile
import time
import unittest
from pathlib import Path

from support import TOOL

from journal_reader.reading import read_journal

CHAIN = TOOL.parent / "perses-chain"

# Deletes words (mode hdd), takes a word in brackets out of them (mode perses), or deletes lines, one at a time. With --respell
# each word then takes the place of a longer one. A text with the word `odd` is none of its language. It notes its words and
# gives the candidate the input's name, as perses does.
PROGRAM = f"#!{sys.executable} -S" + r'''
import re, subprocess, sys
from pathlib import Path
words = sys.argv[1:]
Path("words").open("a").write(" ".join(words) + "\n")
value = dict(zip(words, words[1:]))
mode, name = value["--mode"], value["--input"]
text = Path(name).read_bytes()
if mode != "lines" and b"odd" in text.split():
    sys.exit(print("perses: input does not parse") or 7)
candidate = Path("perses-work/1", Path(name).name)
candidate.parent.mkdir(parents=True, exist_ok=True)
journal = open(value["--journal"], "wb", buffering=0)
journal.write(b"perses-journal 1\n")
known, used = {}, 0
def parts(text):
    return text.splitlines(True) if mode == "lines" else re.findall(rb"\S+|\s+", text)
def ask(text):
    global used
    used += 1
    if text not in known:
        candidate.write_bytes(text)
        verdict = subprocess.run([value["--script"], str(candidate)]).returncode == 0
        known[text] = len(known) + 1, verdict
        journal.write(b"R %c %d\n%s\n" % (b"ny"[verdict], len(text), text))
    number, verdict = known[text]
    journal.write(b"C %d\n" % number)
    return verdict
if not ask(text):
    sys.exit(print("perses: start is not interesting") or 8)
def tried(part):
    if mode != "perses":
        return b"" if mode == "lines" or part.strip() else part
    return part[1:-1] if part[:1] == b"(" else part
start, rounds, again = text, 0, True
while again:
    rounds, again, at = rounds + 1, False, 0
    while at < len(parts(text)):
        found = parts(text)
        changed = b"".join(found[:at] + [tried(found[at])] + found[at + 1:])
        if changed != text and ask(changed):
            text, again = changed, True
        else:
            at += 1
if "--respell" in words:
    shortest_first = sorted(set(start.split()), key=lambda word: (len(word), word))
    for at, part in enumerate(parts(text)):
        for word in [word for word in shortest_first if part.strip() and len(word) < len(part)]:
            found = parts(text)
            changed = b"".join(found[:at] + [word] + found[at + 1:])
            if ask(changed):
                text = changed
                break
Path(value["--output"]).write_bytes(text)
print(f"units: {len(parts(start))} -> {len(parts(text))}\nbytes: {len(start)} -> {len(text)}\nrounds: {rounds}\nused: {used}\nrecords: {len(known)}")
'''

# Notes each text, and says yes where there is an `x`. At the call that the file `kill_at` names it kills the program that asks it.
SCRIPT = """#!/bin/sh
sha256sum <"$1" >>asked
[ ! -e kill_at ] || [ "$(wc -l <asked)" != "$(cat kill_at)" ] || kill -9 "$PPID"
grep -q x "$1"
"""

INPUT = b"one two\nthree (x) four\n# five\n"
RESULT = " x \n"


class ChainTests(unittest.TestCase):
    def setUp(self):
        self.folder = Path(tempfile.mkdtemp())
        self.addCleanup(shutil.rmtree, self.folder)
        self.write("perses", PROGRAM, 0o755)
        self.write("script", SCRIPT, 0o755)
        self.write("grammar", "grammar G;\n")
        self.write("input", INPUT)

    def write(self, name, data, mode=0o644):
        path = self.folder / name
        path.write_bytes(data if isinstance(data, bytes) else data.encode())
        path.chmod(mode)

    def read(self, name):
        return (self.folder / name).read_text()

    def words(self, *more):
        return [sys.executable, str(CHAIN), "--perses", "./perses", "--grammar", "grammar", "--input", "input", "--output", "out", "--script", "./script", *more]

    def run_chain(self, *more):
        return subprocess.run(self.words(*more), cwd=self.folder, capture_output=True, text=True)

    def modes_run(self):
        return [line.split()[2] for line in self.read("words").splitlines()]

    def asked(self):
        return self.read("asked").splitlines()

    def test_runs_the_modes_until_none_gains(self):
        done = self.run_chain()
        self.assertEqual((done.returncode, self.read("out")), (0, RESULT))
        modes = self.modes_run()
        self.assertEqual(modes, (["hdd", "perses", "lines"] * 3)[:len(modes)])
        lines = done.stdout.splitlines()
        self.assertEqual([line.split(", ")[0] for line in lines[:-3]], [f"step {number}" for number in range(1, len(modes) + 1)])
        self.assertEqual(lines[-3:], ["bytes: 30 -> 4", f"steps: {len(modes)}", f"asked: {len(self.asked())}"])
        self.assertTrue(all(" 4 -> 4, rounds 1, asked 0" in line for line in lines[-5:-3]), lines)

    def test_asks_no_text_twice(self):
        self.run_chain()
        self.assertEqual(len(set(self.asked())), len(self.asked()))

    def test_goes_on_where_it_was_broken_off(self):
        whole = self.run_chain()
        asked = len(self.asked())
        for call in (1, 2, asked // 2, asked):
            with self.subTest(call=call):
                shutil.rmtree(self.folder / "out.chain")
                (self.folder / "asked").unlink()
                (self.folder / "out").unlink()
                self.write("kill_at", f"{call}\n")
                self.assertEqual(self.run_chain().returncode, 137)
                self.assertFalse((self.folder / "out").exists())
                (self.folder / "kill_at").unlink()
                again = self.run_chain()
                # the text that was being asked has no answer, and is asked again
                self.assertEqual((again.returncode, again.stdout, self.read("out")), (0, whole.stdout, RESULT))
                self.assertEqual(len(self.asked()), asked + 1)

    def test_goes_on_after_two_breaks(self):
        whole = self.run_chain()
        asked = len(self.asked())
        shutil.rmtree(self.folder / "out.chain")
        (self.folder / "asked").unlink()
        for call in (asked // 2, asked // 2 + 1):
            self.write("kill_at", f"{call}\n")
            self.assertEqual(self.run_chain().returncode, 137)
        (self.folder / "kill_at").unlink()
        again = self.run_chain()
        self.assertEqual((again.returncode, again.stdout, len(self.asked())), (0, whole.stdout, asked + 2))

    def test_is_not_done_again(self):
        first = self.run_chain()
        runs, asked = self.modes_run(), self.asked()
        (self.folder / "out").unlink()
        again = self.run_chain("--jobs", "4")
        self.assertEqual((again.returncode, again.stdout, self.read("out")), (0, first.stdout, RESULT))
        self.assertEqual((self.modes_run(), self.asked()), (runs, asked))

    def test_passes_options_on(self):
        self.run_chain("--start", "file", "--squeeze", "--keep", "x y", "--work", "w", "--modes", "hdd,lines", "--keep=(")
        # the keep texts mean nothing to the program here
        by_grammar, lines = self.read("words").splitlines()[:2]
        self.assertTrue(by_grammar.startswith("reduce --mode hdd --grammar grammar --start file --squeeze --keep x y --work w --keep=( --input"), by_grammar)
        self.assertTrue(lines.startswith("reduce --mode lines --keep x y --work w --keep=( --input"), lines)

    def test_respells_after_the_last_mode(self):
        self.write("input", "seven six x\n")
        self.write("script", "#!/bin/sh\necho >>asked\ngrep -Eq '[a-z]+ [a-z]+ x' \"$1\"\n", 0o755)
        done = self.run_chain("--respell", "--start", "file", "--modes", "hdd,lines", "--keep", "x")
        self.assertEqual((done.returncode, self.read("out")), (0, "x x x\n"))
        self.assertEqual(self.modes_run(), ["hdd", "lines", "perses"] * 2)
        self.assertTrue(self.read("words").splitlines()[2].startswith("reduce --mode perses --respell --grammar grammar --start file --keep x --input"))
        self.assertIn("step 3, respell: bytes 12 -> 6, ", done.stdout)
        self.assertEqual(self.run_chain("--modes", "hdd,lines", "--start", "file", "--keep", "x").returncode, 2)

    def test_candidates_have_the_name_of_the_input(self):
        self.write("script", '#!/bin/sh\ncase $1 in */1/input) grep -q x "$1" ;; *) exit 1 ;; esac\n', 0o755)
        self.assertEqual((self.run_chain().returncode, self.read("out")), (0, RESULT))

    def test_ends_as_the_run_that_failed(self):
        self.write("input", "one\n")
        self.write("out", "as it was")
        done = self.run_chain()
        self.assertEqual((done.returncode, done.stdout), (8, "perses: start is not interesting\n"))
        self.assertEqual(done.stderr, "perses-chain: step 1 in mode hdd ended with status 8; the same call goes on from there\n")
        self.assertEqual(self.read("out"), "as it was")

    def test_input_has_to_be_derived(self):
        self.write("input", "odd x\n")
        self.assertEqual(self.run_chain().returncode, 7)

    def test_result_of_lines_need_not_be_derived(self):
        self.write("input", b"one\n'\nx odd\n'\n")
        self.write("perses", PROGRAM.replace('b"odd" in text.split()', 'b"odd" in text.split() and b"\'" not in text'), 0o755)
        self.write("script", "#!/bin/sh\ngrep -q 'x odd' \"$1\"\n", 0o755)
        done = self.run_chain("--modes", "perses,lines")
        self.assertEqual((done.returncode, self.read("out")), (0, "x odd\n"))
        self.assertIn("step 3, perses: left out, since the grammar doesn't derive the text\n", done.stdout)

    def test_folder_of_another_call_is_refused(self):
        self.run_chain()
        self.write("input", INPUT + b"x\n")
        done = self.run_chain()
        self.assertEqual((done.returncode, done.stdout), (2, ""))
        self.assertIn("out.chain is of another input, grammar, script or other options", done.stderr)
        self.assertEqual(self.run_chain("--folder", "other").returncode, 0)
        self.assertEqual(self.run_chain("--folder", "other", "--keep", "x").returncode, 2)

    def test_two_at_a_time_are_refused(self):
        (self.folder / "out.chain").mkdir()
        with open(self.folder / "out.chain" / "lock", "w") as held:
            fcntl.flock(held, fcntl.LOCK_EX)
            self.assertEqual(self.run_chain().returncode, 1)
        self.assertEqual(self.run_chain().returncode, 0)

    def test_stopping_it_stops_the_run(self):
        self.write("script", "#!/bin/sh\necho $PPID >running\necho >>asked\nsleep 1\n", 0o755)
        chain = subprocess.Popen(self.words(), cwd=self.folder, stdout=subprocess.DEVNULL, stderr=subprocess.DEVNULL)
        until = time.monotonic() + 20
        while not (self.folder / "running").exists() or not self.read("running"):
            self.assertLess(time.monotonic(), until)
            time.sleep(0.01)
        chain.terminate()
        self.assertEqual(chain.wait(), 143)
        self.assertFalse(os.path.exists(f"/proc/{self.read('running').strip()}"))
        self.assertLess(len(self.asked()), 3)

    def test_refuses_what_it_can_not_do(self):
        for status, more in [(2, ["--mode", "hdd"]), (2, ["--journal=j"]), (2, ["--protect", "1-2"]), (2, ["--only=1-2"]), (2, ["--respell", "--protect-text=x"]), (2, ["--modes", "respell"]), (2, ["--modes", "hdd,hdd"]), (2, ["--modes", ""]), (11, ["--perses", "./none"])]:
            with self.subTest(more=more):
                self.assertEqual(self.run_chain(*more).returncode, status)
        self.write("script", SCRIPT, 0o644)
        self.assertEqual(self.run_chain().returncode, 11)
        (self.folder / "input").unlink()
        self.assertEqual(self.run_chain().returncode, 3)

    def test_keeps_the_journal_of_each_step(self):
        self.run_chain()
        journals = sorted(self.folder.glob("out.chain/*/journal"))
        self.assertEqual(len(journals), len(self.modes_run()))
        self.assertEqual(read_journal(journals[-1].read_bytes()).last_yes().text, RESULT.encode())


if __name__ == "__main__":
    unittest.main()
