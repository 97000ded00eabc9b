"""One step of a chain: a run of perses in a mode, in a folder of its own."""
import hashlib
import re
import shutil
import subprocess
from pathlib import Path
from typing import NamedTuple

from journal_reader.reading import BadEvent, BadHead, read_journal

from .stops import CANNOT_READ, CANNOT_START, Stopped

# The options of each mode's runs; those by a grammar have the grammar and its options too. A run in mode perses comes before what is respelled.
MODES = {"hdd": ["--mode", "hdd"], "perses": ["--mode", "perses"], "lines": ["--mode", "lines"]}
RESPELL = "respell"
OPTIONS = {**MODES, RESPELL: ["--mode", "perses", "--respell"]}
BY_GRAMMAR = ("hdd", "perses", RESPELL)

# What a run by a grammar ends with where the text is none of its language.
NOT_DERIVED = (6, 7)

# The script's place is taken by one that knows the answers of earlier runs, which are files named by the texts' checksums.
SCRIPT = """#!/bin/sh
sum=$(sha256sum <"$1") && sum=${{sum%% *}} || sum=none
[ ! -e {answers}/y/"$sum" ] || exit 0
[ ! -e {answers}/n/"$sum" ] || exit 1
exec {script} "$1"
"""

REPORT = re.compile(rb"units: (\d+) -> (\d+)\nbytes: (\d+) -> (\d+)\nrounds: (\d+)\nused: (\d+)\nrecords: (\d+)\n")


class Run(NamedTuple):
    """What all runs of a chain have in common."""

    program: str
    grammar: str
    script: Path
    grammar_options: list
    passed_on: list

    def words(self, mode):
        """The words of a run in this mode but for its files."""
        by_grammar = ["--grammar", self.grammar, *self.grammar_options] if mode in BY_GRAMMAR else []
        return [self.program, "reduce", *OPTIONS[mode], *by_grammar, *self.passed_on]


class Failed(Exception):
    """A run ended with another status than 0, a signal's counted as shells do, and put this on standard output."""

    def __init__(self, status, line):
        super().__init__(status, line)
        self.status = status if status >= 0 else 128 - status
        self.line = line


class Answers:
    """The answers of the runs so far: for each text that was asked a file."""

    def __init__(self, folder):
        self.folder = folder
        self.known = set()
        for verdict in ("y", "n"):
            (folder / verdict).mkdir(parents=True, exist_ok=True)

    def add(self, journal):
        """Adds those of a journal. Gives how many weren't known."""
        before = len(self.known)
        for record in records_of(journal):
            name = hashlib.sha256(record.text).hexdigest()
            if name not in self.known:
                self.known.add(name)
                (self.folder / ("y" if record.yes else "n") / name).touch()
        return len(self.known) - before

    def write_script(self, path, script):
        path.write_text(SCRIPT.format(answers=quoted(self.folder.absolute()), script=quoted(script)))
        path.chmod(0o755)


def records_of(journal):
    try:
        return read_journal(journal.read_bytes()).records()
    except (FileNotFoundError, BadHead):
        return []
    except BadEvent as bad:
        raise Stopped(CANNOT_READ, f"{journal} has no event at byte {bad.offset}") from bad


def quoted(path):
    return "'" + str(path).replace("'", "'\\''") + "'"


class Step:
    """A step's folder has its result under the input's name, its journal, and at its end its report."""

    def __init__(self, folder, mode, input_file):
        self.folder = folder
        self.mode = mode
        self.input = input_file
        self.result = folder / "result" / input_file.name
        self.journal = folder / "journal"
        self.report = folder / "report"

    def is_done(self):
        return self.report.exists()

    def make(self, run, script, held, may_be_underived):
        """Runs perses. A file that may be none of the grammar's language then stays as it is."""
        self.result.parent.mkdir(parents=True, exist_ok=True)
        files = {"input": self.input, "output": self.result, "journal": self.journal, "script": script}
        words = run.words(self.mode) + [word for name, path in files.items() for word in (f"--{name}", str(path))]
        status, output = ended(words, held)
        if status in NOT_DERIVED and may_be_underived:
            shutil.copyfile(self.input, self.result)
        elif status != 0 or not REPORT.fullmatch(output):
            raise Failed(status, output)
        part = self.folder / "report.part"
        part.write_bytes(output)
        part.rename(self.report)

    def line(self, before, after, asked):
        """The step's line of the chain's report."""
        found = REPORT.fullmatch(self.report.read_bytes())
        if not found:
            return f"{self.mode}: left out, since the grammar doesn't derive the text"
        return f"{self.mode}: bytes {before} -> {after}, rounds {found[5].decode()}, asked {asked}"


def ended(words, held):
    """Runs these words to their end: status and output. Where the chain is stopped, so is the run."""
    try:
        run = subprocess.Popen(words, stdin=subprocess.DEVNULL, stdout=subprocess.PIPE, pass_fds=[held.fileno()])
    except OSError as error:
        raise Stopped(CANNOT_START, f"{words[0]}: {error.strerror}") from error
    try:
        output = run.communicate()[0]
    except BaseException:
        run.terminate()
        run.wait()
        raise
    return run.returncode, output
