"""What the built program says on standard error, with a terminal and without one, and that standard output is the same."""
import os
import pty
import re
import subprocess
import tempfile
import tty
import unittest
from pathlib import Path

TOP = Path(__file__).resolve().parents[2]
PROGRAM = Path(os.environ.get("PERSES_PROGRAM", TOP / "crates/perses_main/out/perses_main"))

GRAMMAR = "grammar G;\nfile : stmt* EOF ;\nstmt : ID '=' INT ';' ;\nID : [a-z]+ ;\nINT : [0-9]+ ;\nWS : [ \\n]+ -> skip ;\n"
REPORT = "units: 3 -> 1\nbytes: 6 -> 2\nrounds: 2\nused: 6\nrecords: 5\n"
LINES = ["--mode", "lines", "--input", "i", "--output", "o"]
TREES = ["--grammar", "g", "--input", "t", "--output", "o"]
DONE = "perses: done after T, P of it in the script: o, journal o.journal\n"
BEST = "perses: the best text so far has {} bytes: tools/journal {} --last-yes >FILE\n"
ENDED = "perses: ended after T, P of it in the script; {} holds {} answers\n"
TRY = "perses: it has to end with 0 there; try it: ./{} perses-work/1/i; echo $?\n"


def masked(text):
    """The text with times, shares and rates masked."""
    text = re.sub(r"\b(\d+:)?\d+:\d\d\b(?!:)", "T", text)
    return re.sub(r"\b\d+\.\d/s", "R/s", re.sub(r"\b\d+%", "P", text))


def without_drawn(text):
    """The text without what is drawn over."""
    return re.sub(r"\r[^\r\n]*?\x1b\[K", "", text)


def read_all(descriptor):
    """What comes from a terminal until its other end is closed."""
    found = b""
    while True:
        try:
            piece = os.read(descriptor, 65536)
        except OSError:
            return found
        if not piece:
            return found
        found += piece


@unittest.skipUnless(PROGRAM.exists(), "the program isn't built")
class Notices(unittest.TestCase):
    def setUp(self):
        folder = tempfile.TemporaryDirectory()
        self.addCleanup(folder.cleanup)
        self.folder = Path(folder.name)
        self.write("i", "a\nb\nc\n")
        self.write("t", "a=1;\n")
        self.write("g", GRAMMAR)
        self.script("s", "grep -q b \"$1\"")

    def write(self, name, text):
        (self.folder / name).write_bytes(text if isinstance(text, bytes) else text.encode())

    def script(self, name, commands, first="#!/bin/sh\n", mode=0o755):
        self.write(name, first + commands + "\n")
        os.chmod(self.folder / name, mode)

    def environment(self, more):
        plain = {name: value for name, value in os.environ.items() if not name.startswith("PERSES_") and name != "COLUMNS"}
        return {**plain, "LC_ALL": "C", **more}

    def run_plain(self, *words, **more):
        """Status, standard output and standard error, without a terminal."""
        done = subprocess.run([PROGRAM, *words], cwd=self.folder, capture_output=True, text=True, stdin=subprocess.DEVNULL, env=self.environment(more))
        return done.returncode, done.stdout, done.stderr

    def run_terminal(self, *words, **more):
        """The same, where standard error is a terminal."""
        master, slave = pty.openpty()
        tty.setraw(slave)
        with subprocess.Popen([PROGRAM, *words], cwd=self.folder, stdout=subprocess.PIPE, stderr=slave, text=True, stdin=subprocess.DEVNULL, env=self.environment(more)) as program:
            os.close(slave)
            drawn = read_all(master).decode()
            os.close(master)
            return program.wait(), program.stdout.read(), drawn

    def says(self, status, text, *words):
        """So it ends, and says this on standard error; a terminal shows the same, and with PERSES_QUIET there is nothing."""
        for run in (self.run_plain, self.run_terminal):
            ended, put, said = run(*words)
            self.assertEqual((ended, masked(without_drawn(said))), (status, text))
            quiet = run(*words, PERSES_QUIET="1")
            self.assertEqual((quiet[0], quiet[2]), (status, ""))
            self.assertEqual(quiet[1], put)
        return put

    def test_done(self):
        self.assertEqual(self.says(0, DONE, "reduce", *LINES, "--script", "s"), REPORT)

    def test_usage(self):
        for words in [], ["--help"], ["-h"], ["reduce", "--help"]:
            with self.subTest(words=words):
                ended, put, said = self.run_plain(*words)
                self.assertEqual((ended, put), (2, "perses: bad command line\n"))
                self.assertIn("usage: perses reduce --input F", said)
                self.assertLessEqual(len(said.splitlines()), 26)

    def test_words(self):
        for words, text in (
            (["shrink"], "no command 'shrink': it is reduce, normal, selftest or check"),
            (["reduce", *LINES, "--scrpt", "s"], "reduce has no option '--scrpt'"),
            (["reduce", *LINES], "reduce lacks --script"),
            (["reduce", *TREES, "--script", "s", "--jobs", "17"], "--jobs wants a number from 1 to 16, without a leading zero: '17'"),
            (["reduce", *TREES, "--script", "s", "--keep"], "--keep lacks its value"),
            (["reduce", *LINES, "--script", "s", "--start", "r"], "--start doesn't go with --mode lines"),
            (["reduce", *LINES, "--script", "s", "--lexer", "l"], "--lexer doesn't go with --mode lines"),
            (["check", *LINES], "check lacks --journal"),
        ):
            with self.subTest(words=words):
                ended, put, said = self.run_plain(*words)
                self.assertEqual((ended, put, said.splitlines()[0]), (2, "perses: bad command line\n", f"perses: {text}"))

    def test_unread_files(self):
        os.remove(self.folder / "t")
        self.says(3, "perses: t: No such file or directory (os error 2)\n", "reduce", *TREES, "--script", "s")
        os.remove(self.folder / "g")
        self.says(3, "perses: g: No such file or directory (os error 2)\n", "normal", "--grammar", "g")

    def test_unwritten_output(self):
        (self.folder / "o").mkdir()
        self.says(4, "perses: o: Is a directory (os error 21)\n" + ENDED.format("o.journal", 5) + BEST.format(2, "o.journal"), "reduce", *LINES, "--script", "s")

    def test_full_standard_output(self):
        with open("/dev/full", "w") as full:
            done = subprocess.run([PROGRAM, "normal", "--grammar", "g"], cwd=self.folder, stdout=full, stderr=subprocess.PIPE, text=True, env=self.environment({}))
        self.assertEqual((done.returncode, done.stderr), (4, "perses: standard output: No space left on device (os error 28)\n"))

    def test_grammars(self):
        for grammar, text in (
            ("grammar G;\na : 'x' {y} ;\n", "g:2:9: unsupported action at byte 19\na : 'x' {y} ;\n        ^\nperses: tools/plain-grammar writes it anew without that"),
            ("grammar G;\na : 'x' ; ;\n", "g:2:11: syntax at byte 21\na : 'x' ; ;\n          ^"),
            ("grammar G;\na : 'x' ;\nb : c ;\n", "g:3:5: no rule c\nb : c ;\n    ^"),
            ("grammar G;\na : b ;\nb : a 'x' | 'y' ;\n", "g:2:1: left recursion in a\na : b ;\n^"),
            ("grammar G;\nT : 'x' ;\n", "g: no start"),
        ):
            with self.subTest(grammar=grammar):
                self.write("g", grammar)
                self.says(5, f"perses: {text}\n", "normal", "--grammar", "g")

    def test_grammars_in_two_files(self):
        lexer = "lexer grammar L;\nA : 'a' ;\nWS : ' ' -> skip ;\n"
        parser = "parser grammar P;\ns : A EOF ;\n"
        anew = "perses: tools/plain-grammar --pair FILE writes both anew without that"
        for first, second, text in (
            ("lexer grammar L;\nA : 'a' {x} ;\n", parser, f"l:2:9: in lexer: unsupported action at byte 25\nA : 'a' {{x}} ;\n        ^\n{anew}"),
            (lexer, "parser grammar P;\ns : A ; ;\n", "g:2:9: in parser: syntax at byte 26\ns : A ; ;\n        ^"),
            ("grammar L;\nA : 'a' ;\n", parser, "l:1:1: not a lexer grammar\ngrammar L;\n^"),
            (lexer, "grammar P;\ns : A ;\n", "g:1:1: not a parser grammar\ngrammar P;\n^"),
            (lexer, "parser grammar P;\noptions { tokenVocab=M; }\ns : A ;\n", "g:2:11: other vocabulary M\noptions { tokenVocab=M; }\n          ^"),
            (lexer + "b : A ;\n", parser, "l:4:1: misplaced rule b\nb : A ;\n^"),
            (lexer, parser + "B : 'b' ;\n", "g:3:1: misplaced rule B\nB : 'b' ;\n^"),
            (lexer, "parser grammar P;\ns : 'b' ;\n", "g:2:5: no token for 'b'\ns : 'b' ;\n    ^"),
            (lexer, "parser grammar P;\ns : b ;\n", "g:2:5: no rule b\ns : b ;\n    ^"),
            ("lexer grammar L;\nA : 'x'* ;\n", parser, "l:2:1: empty token A\nA : 'x'* ;\n^"),
        ):
            with self.subTest(text=text):
                self.write("l", first)
                self.write("g", second)
                self.says(5, f"perses: {text}\n", "normal", "--grammar", "g", "--lexer", "l")

    def test_input_by_a_grammar_in_two_files(self):
        self.write("g", "parser grammar P;\ns : A EOF ;\n")
        words = ["reduce", *TREES, "--lexer", "l", "--script", "s"]
        self.says(3, "perses: l: No such file or directory (os error 2)\n", *words)
        self.write("l", "lexer grammar L;\nA : 'a' ;\n" + "\n" * 1048576)
        self.says(10, "perses: l is too long: an input or a grammar has at most 1048576 bytes, a journal 1073741824\n", *words)
        self.write("l", "lexer grammar L;\nA : 'a' ;\n")
        self.says(6, "perses: t:1:2: no token at byte 1\na=1;\n ^\nperses: no lexer rule of l matches what begins there\n", *words)
        self.write("t", "aa")
        self.says(7, "perses: t:1:2: A can't be here; what can: the end\naa\n ^\n", *words)

    def test_inputs(self):
        for text, said in (
            ("a=1;\nb = $;\n", "2:5: no token at byte 9\nb = $;\n    ^\nperses: no lexer rule of g matches what begins there"),
            (b"a=1;\n \xff;", "2:2: input is not UTF-8 at byte 6\n \ufffd;\n ^\nperses: where it is Latin-1: iconv -f latin1 -t utf8 t >FILE"),
        ):
            with self.subTest(text=text):
                self.write("t", text)
                self.says(6, f"perses: t:{said}\n", "reduce", *TREES, "--script", "s")

    def test_input_that_does_not_parse(self):
        for text, said in (
            ("a=;\n", "1:3: ';' can't be here; what can: INT\na=;\n  ^"),
            ("a=1;\nb=2; 3;\n", "2:6: INT can't be here; what can: the end, ID\nb=2; 3;\n     ^"),
            ("a=1\n", "1:4: the end can't be here; what can: ';'\na=1\n   ^"),
        ):
            with self.subTest(text=text):
                self.write("t", text)
                self.says(7, f"perses: t:{said}\n", "reduce", *TREES, "--script", "s")

    def test_input_without_a_beginning(self):
        self.write("g", "grammar G;\na : 'x' a ;\n")
        self.write("t", "x")
        self.says(7, "perses: t: the first parser rule of g doesn't derive it\n", "reduce", *TREES, "--script", "s")
        self.says(7, "perses: t: rule a of g doesn't derive it\n", "reduce", *TREES, "--script", "s", "--start", "a")

    def test_many_kinds_that_could_follow(self):
        self.write("g", "grammar G;\na : 'z' ('a' | 'b' | 'c' | '\\'' | '\\n' | 'f' | 'g' | 'h' | 'i')? ;\n")
        self.write("t", "zz")
        self.says(7, "perses: t:1:2: 'z' can't be here; what can: the end, 'a', 'b', 'c', '\\'', '\\n', 'f', 'g', 'h', and others\nzz\n ^\n", "reduce", *TREES, "--script", "s")

    def test_limits_of_a_grammar(self):
        self.write("g", "grammar G; a : '" + "x" * 1_000_000 + "' ;")
        lexer = "its lexer would have more than 1000000 states or 4000000 ranges of characters"
        self.says(1, f"perses: g: {lexer}, or there is too little memory\n", "reduce", *TREES, "--script", "s")
        chain = " ".join(f"r{number} : r{number + 1} ;" for number in range(1, 5793))
        self.write("g", f"grammar G; {chain} r5793 : 'x' ;")
        self.write("t", "x")
        symbols = "in its chains of rules more than 16777216 symbols would fit"
        self.says(1, f"perses: g: {symbols}, or there is too little memory\n", "reduce", *TREES, "--script", "s")

    def test_scripts_that_say_no(self):
        for commands, end in (
            ("exit 1", "exit status: 1"),
            ("no-such-command", "exit status: 127: a command in it was not found"),
            ("./i", "exit status: 126: a command in it could not be run"),
            ("kill -9 $$", "signal: 9 (SIGKILL)"),
        ):
            with self.subTest(commands=commands):
                self.script("n", f"exec 2>/dev/null; {commands}")
                self.says(8, f"perses: on the whole input the script ended with {end}\n" + TRY.format("n"), "reduce", *LINES, "--script", "n")

    def test_scripts_that_cannot_start(self):
        there = "perses: it isn't there, or what its first line names isn't (is there a carriage return at that line's end?)\n"
        self.says(11, "perses: ./none: No such file or directory (os error 2)\n" + there, "reduce", *LINES, "--script", "none")
        self.script("n", "exit 0", first="#!/bin/sh\r\n")
        self.says(11, "perses: ./n: No such file or directory (os error 2)\n" + there, "reduce", *LINES, "--script", "n")
        self.script("n", "exit 0", first="")
        self.says(11, "perses: ./n: Exec format error (os error 8)\nperses: its first line names no program: begin it with #!/bin/sh\n", "reduce", *LINES, "--script", "n")
        self.script("n", "exit 0")
        with open(self.folder / "n", "a"):
            self.says(11, "perses: ./n: Text file busy (os error 26)\nperses: it is being written: is it also the journal?\n", "reduce", *LINES, "--script", "n")
        self.script("n", "exit 0", mode=0o644)
        self.says(
            11,
            "perses: warning: the script n isn't executable: chmod +x n\n"
            "perses: ./n: Permission denied (os error 13)\nperses: it isn't executable (chmod +x), or a folder on the way can't be entered\n",
            "reduce",
            *LINES,
            "--script",
            "n",
        )

    def test_keep_texts(self):
        self.says(9, "perses: i doesn't hold 'z z'\n", "reduce", *LINES, "--script", "s", "--keep", "a", "--keep", "z z")

    def test_long_inputs(self):
        self.write("i", "\n" * 1048577)
        self.says(10, "perses: i is too long: an input or a grammar has at most 1048576 bytes, a journal 1073741824\n", "reduce", *LINES, "--script", "s")

    def test_files_of_a_run(self):
        self.run_plain("reduce", *LINES, "--script", "s")
        lines, trees = ["check", *LINES, "--journal"], ["check", *TREES, "--journal"]
        self.assertEqual(self.says(0, "", *lines, "o.journal"), "check: yes\n")
        self.assertEqual(self.says(15, "", *lines, "o.journal", "--keep", "a"), "perses: check: event 4 is not legal\n")
        self.assertEqual(self.says(14, "", *lines, "i"), "perses: bad journal head\n")
        self.says(9, "perses: i doesn't hold 'z z'\n", *lines, "o.journal", "--keep", "z z")
        self.says(3, "perses: n: No such file or directory (os error 2)\n", *lines, "n")
        self.write("o", "\n" * 1048577)
        self.says(10, "perses: o is too long: a result has at most 1048576 bytes, a journal 1073741824\n", *trees, "o.journal")
        os.remove(self.folder / "o")
        self.says(3, "perses: o: No such file or directory (os error 2)\n", *trees, "o.journal")
        os.remove(self.folder / "g")
        self.says(3, "perses: g: No such file or directory (os error 2)\n", *trees, "o.journal")

    def test_journals(self):
        self.says(
            12,
            "perses: warning: the folder none of the output isn't there\nperses: none/o.journal: No such file or directory (os error 2)\n",
            "reduce", "--mode", "lines", "--input", "i", "--output", "none/o", "--script", "s",
        )

    def test_journals_that_are_not_set_aside(self):
        words = ["reduce", *LINES, "--script", "s", "--resume", "o.journal"]
        aside = self.folder / "o.journal.resumed"
        text = "perses: warning: o.journal isn't set aside ({}): where this run is stopped, some of its verdicts may be lost\n" + DONE
        self.run_plain(*words[:-2])
        self.write(aside.name, f"perses-journal 2\nS {'0' * 64}\n")
        self.says(0, text.format("the one that was set aside before is of another input"), *words)
        self.write(aside.name, "notes\n")
        self.says(0, text.format("a file of its name and .resumed or .joined isn't a journal"), *words)
        self.assertEqual(aside.read_bytes(), b"notes\n")
        os.remove(aside)
        self.says(0, DONE, *words)
        self.assertFalse(aside.exists())

    def test_warnings(self):
        self.write("i", "")
        (self.folder / "perses-work").mkdir()
        self.write("perses-work/notes", "")
        text = (
            "perses: warning: the input i is empty\n"
            "perses: warning: the script and the journal are one and the same file, s\n"
            "perses: warning: the work folder perses-work holds notes, which isn't from here\n"
        )
        ended, _, said = self.run_plain("reduce", *LINES, "--script", "s", "--journal", "s")
        self.assertEqual(masked(said)[: len(text)], text)

    def test_candidate_that_is_the_input(self):
        (self.folder / "perses-work/1").mkdir(parents=True)
        self.write("perses-work/1/i", "a\nb\n")
        text = "perses: warning: the input and a candidate are one and the same file, perses-work/1/i\n"
        ended, _, said = self.run_plain("reduce", "--mode", "lines", "--input", "perses-work/1/i", "--output", "o", "--script", "s")
        self.assertEqual((ended, masked(said)), (0, text + DONE))

    def test_journal_of_resume_that_is_written_over(self):
        self.run_plain("reduce", *LINES, "--script", "s", "--journal", "f")
        text = "perses: warning: the journal of --resume and the output are one and the same file, f\n" + DONE
        ended, _, said = self.run_plain("reduce", "--mode", "lines", "--input", "i", "--output", "f", "--journal", "o.journal", "--script", "s", "--resume", "f")
        self.assertEqual((ended, masked(said)), (0, text.replace(" o,", " f,")))
        (self.folder / "perses-work/1/i").write_bytes((self.folder / "o.journal").read_bytes())
        text = "perses: warning: the journal of --resume and a candidate are one and the same file, perses-work/1/i\n" + DONE
        ended, _, said = self.run_plain("reduce", *LINES, "--script", "s", "--resume", "perses-work/1/i")
        self.assertEqual((ended, masked(said)), (0, text))

    def test_line_on_a_terminal(self):
        self.script("n", "sleep 1.2; grep -q b \"$1\"")
        self.write("i", "a\nb\n")
        ended, put, drawn = self.run_terminal("reduce", *LINES, "--script", "n")
        drawn = masked(drawn)
        self.assertTrue(drawn.startswith("\rT lines, asked 0 (R/s), yes 0, busy 1 of 1\x1b[K"), drawn)
        self.assertIn("\rT lines, asked 3 (R/s), yes 1, bytes 4 -> 4, busy 1 of 1\x1b[K", drawn)
        self.assertTrue(drawn.endswith("\r\x1b[K" + DONE), drawn)
        self.assertNotIn("\n", drawn[: -len(DONE)])
        self.assertEqual(put.splitlines()[1], "bytes: 4 -> 2")

    def test_narrow_terminal(self):
        self.script("n", "sleep 1.2; grep -q b \"$1\"")
        self.write("i", "b\n")
        drawn = self.run_terminal("reduce", *LINES, "--script", "n", COLUMNS="20")[2]
        self.assertEqual(masked(drawn.split("\x1b[K")[0]), "\rT lines, asked 0")

    def test_lines_without_a_terminal(self):
        self.script("n", "sleep 11; grep -q b \"$1\"")
        self.write("i", "b\n")
        ended, put, said = self.run_plain("reduce", *LINES, "--script", "n", PERSES_PROGRESS="1")
        self.assertEqual(masked(said), "T lines, asked 0 (R/s), yes 0, busy 1 of 1\nT lines, asked 1 (R/s), yes 1, bytes 2 -> 2, busy 1 of 1\n" + DONE)

    def test_closed_standard_error(self):
        words = " ".join(["reduce", *LINES, "--script", "s"])
        done = subprocess.run(f'"{PROGRAM}" {words} 2>&-', shell=True, cwd=self.folder, capture_output=True, text=True)
        self.assertEqual((done.returncode, done.stdout, done.stderr), (0, REPORT, ""))
        self.assertEqual((self.folder / "o").read_text(), "b\n")
        self.assertTrue((self.folder / "o.journal").read_text().endswith("C 5\nC 2\n"))


if __name__ == "__main__":
    unittest.main()
