"""The journal reader: the worked journal, each of its prefixes, torn tails beside bad records, and its command line."""
import hashlib
import os
import subprocess
import tempfile
import unittest
from pathlib import Path

from support import TOOL

from journal_reader.reading import BadEvent, BadHead, Commit, Record, is_head_front, read_journal

COMMAND = TOOL.parent / "journal"
PROGRAM = Path(os.environ.get("PERSES_PROGRAM", TOOL.parent.parent / "crates/perses_main/out/perses_main"))

# The journal of a reduction of `a=1;b=2;c=3;` whose script says yes where there is a `b`.
WORKED = b"perses-journal 1\nR y 12\na=1;b=2;c=3;\nC 1\nR n 0\n\nC 2\nR n 5\na=1;\n\nC 3\nR y 8\nb=2;c=3;\nC 4\nR y 5\nb=2;\n\nC 5\nC 2\n"
HEAD = b"perses-journal 1\n"
ONE = HEAD + b"R y 1\na\n"

# The same in version 2, with the checksum of the start; and the journal of an empty start.
START = b"a=1;b=2;c=3;"
HEAD_2 = b"perses-journal 2\nS " + hashlib.sha256(START).hexdigest().encode() + b"\n"
WORKED_2 = HEAD_2 + WORKED[len(HEAD):]
ONE_2 = HEAD_2 + b"K y 1\na\n"
EMPTY_START = b"perses-journal 2\nS e3b0c44298fc1c149afbf4c8996fb92427ae41e4649b934ca495991b7852b855\nR y 0\n\nC 1\n"

EVENTS = [
    Record(True, b"a=1;b=2;c=3;"), Commit(1), Record(False, b""), Commit(2), Record(False, b"a=1;\n"), Commit(3),
    Record(True, b"b=2;c=3;"), Commit(4), Record(True, b"b=2;\n"), Commit(5), Commit(2),
]

# What comes after some bytes, and whether it is a torn tail.
TAILS = [
    (ONE, b"C", True), (ONE, b"C ", True), (ONE, b"C 1", True), (ONE, b"C 2", False), (ONE, b"C 0", False), (ONE, b"C 01", False), (ONE, b"C 1 ", False),
    (HEAD, b"C", False), (HEAD, b"R", True), (HEAD, b"R y ", True), (HEAD, b"R y 1048576", True), (HEAD, b"R y 1048577", False), (HEAD, b"R y 00", False),
    (HEAD, b"R x", False), (HEAD, b"R y 0", True), (HEAD, b"R y 0\n", True), (HEAD, b"R y 0\nx", False), (HEAD, b"R y 2\nab", True), (HEAD, b"R y 2\nabc", False),
    (HEAD, b"K", False), (HEAD, b"K y 1\na\n", False), (ONE, b"K n 0\n\n", False),
    (HEAD_2, b"K", True), (HEAD_2, b"K ", True), (HEAD_2, b"K y 1048576", True), (HEAD_2, b"K y 1048577", False), (HEAD_2, b"K y 1\na", True), (HEAD_2, b"K x", False),
    (HEAD_2, b"R", True), (HEAD_2, b"R y 1048576", True), (HEAD_2, b"R y 1048577", False), (HEAD_2, b"R y 1\na", True), (HEAD_2, b"R y 00", False),
    (HEAD_2, b"C", False), (ONE_2, b"C 1", True), (ONE_2, b"C 2", False), (HEAD_2, b"S", False), (HEAD_2, b"k", False),
    (HEAD, b"\n", False), (HEAD, b"r", False), (HEAD, b"R y 1\n\xff", True), (HEAD, b"R  ", False), (HEAD, b"R y -1", False), (HEAD, b"R y 9999999999", False),
]

# What is no head, and whether more bytes could make it one.
NO_HEADS = [
    (b"", True), (b"perses-journal ", True), (b"perses-journal 1", True), (b"perses-journal 1\r\n", False), (b"perses-journal 3\n", False),
    (b"perses-journal 2", True), (b"perses-journal 2\n", True), (b"perses-journal 2\nS ", True), (HEAD_2[:-1], True), (HEAD_2[:-2], True), (HEAD_2[:-2] + b"\n", False),
    (HEAD_2[:19] + HEAD_2[19:].upper(), False), (HEAD_2[:-2] + b"g\n", False), (HEAD_2[:-1] + b"0\n", False), (b"perses-journal 2\nR y 0\n\n", False), (b"x", False),
]


class Reading(unittest.TestCase):
    def test_reads_the_worked_journal(self):
        digest = hashlib.sha256(START).hexdigest()
        self.assertEqual((len(WORKED), len(WORKED_2), len(HEAD_2)), (107, 174, 84))
        self.assertEqual(read_journal(WORKED), (1, digest, EVENTS, 0))
        self.assertEqual(read_journal(WORKED_2), (2, digest, EVENTS, 0))

    def test_reads_the_start(self):
        self.assertEqual(len(EMPTY_START), 95)
        self.assertEqual(read_journal(EMPTY_START), (2, hashlib.sha256(b"").hexdigest(), [Record(True, b""), Commit(1)], 0))
        self.assertEqual(read_journal(HEAD), (1, None, [], 0))
        self.assertEqual(read_journal(HEAD + b"R y 2\na"), (1, None, [], 7))
        self.assertEqual(read_journal(HEAD_2), (2, hashlib.sha256(START).hexdigest(), [], 0))

    def test_reads_kept_records(self):
        journal = read_journal(HEAD_2 + b"K n 0\n\nR y 1\na\nK y 0\n\nC 3\n")
        self.assertEqual(journal.events, [Record(False, b"", True), Record(True, b"a"), Record(True, b"", True), Commit(3)])

    def test_reads_each_prefix_as_its_first_events(self):
        for whole, head in ((WORKED, HEAD), (WORKED_2, HEAD_2), (ONE_2 + WORKED[len(HEAD):], HEAD_2)):
            events = read_journal(whole).events
            for length in range(len(whole) + 1):
                with self.subTest(length=length):
                    if length < len(head):
                        self.assertRaises(BadHead, read_journal, whole[:length])
                        self.assertTrue(is_head_front(whole[:length]))
                        continue
                    journal = read_journal(whole[:length])
                    self.assertEqual(journal.events, events[:len(journal.events)])
                    self.assertLess(journal.torn, 20)

    def test_tells_what_is_no_head(self):
        for data, is_front in NO_HEADS:
            with self.subTest(data=data):
                self.assertRaises(BadHead, read_journal, data)
                self.assertEqual(is_head_front(data), is_front)
        self.assertFalse(is_head_front(HEAD) or is_head_front(HEAD_2))

    def test_tells_torn_tails_from_bad_records(self):
        for front, tail, is_torn in TAILS:
            with self.subTest(tail=tail):
                if is_torn:
                    self.assertEqual(read_journal(front + tail).torn, len(tail))
                    continue
                with self.assertRaises(BadEvent) as caught:
                    read_journal(front + tail)
                self.assertEqual(caught.exception.offset, len(front))

    def test_names_the_place_of_a_bad_record(self):
        with self.assertRaises(BadEvent) as caught:
            read_journal(WORKED[:19] + b"z" + WORKED[20:])
        self.assertEqual(caught.exception.offset, 17)


class CommandLine(unittest.TestCase):
    def run_on(self, data, *words):
        with tempfile.TemporaryDirectory() as folder:
            path = Path(folder, "journal")
            path.write_bytes(data)
            done = subprocess.run([str(COMMAND), str(path), *words], capture_output=True)
        return done.returncode, done.stdout, done.stderr

    def test_prints_a_line_for_each_event(self):
        status, output, errors = self.run_on(WORKED + b"R y 3\nab")
        self.assertEqual((status, errors), (0, b""))
        lines = output.decode().splitlines()
        self.assertEqual(lines[0], "record 1: yes, 12 bytes, 'a=1;b=2;c=3;'")
        self.assertEqual(lines[-2:], ["  answered with record 2", "torn tail of 8 bytes"])
        self.assertEqual(self.run_on(ONE_2)[1], b"record 1: yes, kept, 1 bytes, 'a'\n")

    def test_writes_the_text_of_a_record(self):
        self.assertEqual(self.run_on(WORKED, "--text", "3"), (0, b"a=1;\n", b""))
        self.assertEqual(self.run_on(WORKED, "--text", "6"), (1, b"", b"journal: no such record\n"))

    def test_writes_what_the_reduction_had_come_to(self):
        self.assertEqual(self.run_on(WORKED, "--last-yes"), (0, b"b=2;\n", b""))
        self.assertEqual(self.run_on(WORKED[:79], "--last-yes"), (0, b"a=1;b=2;c=3;", b""))
        self.assertEqual(self.run_on(HEAD, "--last-yes")[0], 1)

    def test_writes_the_best_text_to_a_file(self):
        for data, wanted in ((WORKED, b"b=2;\n"), (WORKED_2, b"b=2;\n"), (WORKED[:WORKED.index(b"C 4")], b"b=2;c=3;"), (ONE + b"R y 1\nb\nR n 0\n\n", b"a")):
            with self.subTest(data=data), tempfile.TemporaryDirectory() as folder:
                best = Path(folder, "best")
                self.assertEqual(self.run_on(data, "--best", str(best)), (0, b"", b""))
                self.assertEqual(best.read_bytes(), wanted)

    def test_writes_no_file_without_a_best_text(self):
        with tempfile.TemporaryDirectory() as folder:
            best = Path(folder, "best")
            self.assertEqual(self.run_on(HEAD + b"R n 1\na\nC 1\n", "--best", str(best)), (1, b"", b"journal: no such record\n"))
            self.assertFalse(best.exists())
            self.assertEqual(self.run_on(WORKED, "--best", folder)[0], 1)

    def test_refuses_what_is_no_journal(self):
        self.assertEqual(self.run_on(b"perses-journal 2\n"), (1, b"", b"journal: no journal: its head isn't there\n"))
        self.assertEqual(self.run_on(HEAD + b"x"), (1, b"", b"journal: no event at byte 17\n"))


@unittest.skipUnless(PROGRAM.exists(), "the program isn't built")
class OfTheProgram(unittest.TestCase):
    """Journals of the program itself: of a whole run, and of one that was killed after each number of questions."""

    def run_in(self, folder, script):
        Path(folder, "i").write_bytes(b"a\nb\nc\nd\n")
        Path(folder, "s").write_text("#!/bin/sh\n" + script)
        Path(folder, "s").chmod(0o755)
        words = [str(PROGRAM), "reduce", "--mode", "lines", "--input", "i", "--output", "o", "--script", "s"]
        subprocess.run(words, cwd=folder, capture_output=True, env={**os.environ, "PERSES_QUIET": "1"})
        return Path(folder, "o.journal").read_bytes()

    def test_reads_a_whole_run(self):
        with tempfile.TemporaryDirectory() as folder:
            journal = read_journal(self.run_in(folder, "grep -q b \"$1\"\n"))
            self.assertEqual((journal.torn, journal.start), (0, hashlib.sha256(b"a\nb\nc\nd\n").hexdigest()))
            self.assertEqual(journal.best().text, Path(folder, "o").read_bytes())
            self.assertEqual(journal.last_yes(), journal.best())
            self.assertTrue(all(record.yes == (b"b" in record.text) for record in journal.records()))

    def test_has_the_best_text_of_a_killed_run(self):
        killed = "echo >>asked; [ $(wc -l <asked) -le {} ] || kill -9 $PPID\ngrep -q b \"$1\"\n"
        for asked in range(1, 5):
            with self.subTest(asked=asked), tempfile.TemporaryDirectory() as folder:
                journal = read_journal(self.run_in(folder, killed.format(asked)))
                self.assertLessEqual(len(journal.records()), asked)
                self.assertEqual(journal.best().text, min((r.text for r in journal.records() if r.yes), key=len))
                self.assertFalse(Path(folder, "o").exists())


if __name__ == "__main__":
    unittest.main()
