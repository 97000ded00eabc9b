"""Small reductions in the three modes, which several benches run, and what may be in a journal of one."""
import re
from pathlib import Path
from typing import Callable, NamedTuple

import mini
from histories import BadEvent, BadHead, answers, has_lines_of, is_head_front, read_journal, wrong_records

INPUT, GRAMMAR, OUTPUT, SCRIPT, JOURNAL = "input", "grammar", "output", "script", "output.journal"

NEEDED = 2

# A grammar of assignments and blocks.
STATEMENTS = r"""grammar E;
file : stmt* EOF ;
stmt : ID '=' expr ';' | '{' stmt* '}' ;
expr : expr '+' expr | '(' expr ')' | ID | INT ;
ID : [a-z]+ ;
INT : [0-9]+ ;
WS : [ \n]+ -> skip ;
"""


class Reduction(NamedTuple):
    """A text that is reduced in a mode, a command for the shell that tests the file "$1", what it says of a text, and a grammar."""

    mode: str
    text: bytes
    test: str
    says_yes: Callable
    grammar: str = mini.GRAMMAR

    def key(self):
        """What tells reductions apart."""
        return self.mode, self.text, self.test, self.grammar

    def words(self):
        """The words of the command line, but those on output, journal and workers."""
        by = [] if self.mode == "lines" else ["--grammar", GRAMMAR]
        return ["reduce", "--mode", self.mode, *by, "--input", INPUT, "--script", f"./{SCRIPT}"]

    def has_parts_of(self, text):
        """Whether a text is some of the input's lines, or tokens, in their order."""
        if self.mode == "lines":
            return has_lines_of(text, self.text)
        rest = iter(mini.tokens(self.text))
        return all(token in rest for token in mini.tokens(text))

    def prepare(self, folder, commands=None):
        """Writes input, grammar and a script, which only tests where no other commands are given."""
        Path(folder, INPUT).write_bytes(self.text)
        Path(folder, GRAMMAR).write_text(self.grammar)
        write_script(folder, commands or f"{self.test}\n")


def write_script(folder, commands):
    """Writes a script for the shell."""
    script = Path(folder, SCRIPT)
    script.write_text(f"#!/bin/sh\n{commands}")
    script.chmod(0o755)


# As many lines as are needed have a pattern. The shell does it without starting anything.
COUNTS = """count=0; while read -r line; do case $line in *{pattern}*) count=$((count + 1)) ;; esac; done <"$1"; [ $count = {needed} ]"""


def counting(mode, text, pattern, expression, test=COUNTS):
    """A reduction whose script says yes while as many lines as are needed have the pattern, which is also written as an expression."""

    def says_yes(other):
        return sum(bool(re.search(expression, line)) for line in other.split(b"\n")) == NEEDED

    return Reduction(mode, text, test.format(pattern=pattern, needed=NEEDED), says_yes)


def lines(count):
    """So many lines, of which two have the needle."""
    needles = (count // 4, count * 2 // 3)
    return b"".join(b"line %d %s %s\n" % (number, b"needle" if number in needles else b"straw", b"-" * 40) for number in range(count))


def in_mode(mode, size):
    """The reduction in a mode of so many lines, or of so many functions of Mini, at least eight."""
    if mode == "lines":
        return counting(mode, lines(size), "needle", b"needle")
    return counting(mode, mini.functions(size).encode(), r"int\ f[27]\(", rb"int f[27]\(")


MODES = ("lines", "perses", "hdd")


class Judged(NamedTuple):
    """What is wrong with a journal, if anything is; its records; and the bytes of its torn tail."""

    wrong: str
    records: list
    torn: int


def judged_journal(data, reduction, jobs, whole):
    """Looks at a journal, or at what a run that was stopped left of one. `whole` is that of a run of one worker to its end."""
    if jobs == 1 and not whole.startswith(data):
        return Judged("its bytes aren't the beginning of the whole journal", [], 0)
    if is_head_front(data):
        return Judged(None, [], len(data))
    try:
        journal = read_journal(data)
    except (BadHead, BadEvent) as bad:
        return Judged(f"it can't be read: {bad!r}", [], 0)
    records = journal.records()
    return Judged(wrong_events(journal, records, reduction, whole), records, journal.torn)


def wrong_events(journal, records, reduction, whole):
    """What is wrong with the events, if anything is. The reducer of the whole run got the same answers, and no fewer."""
    for number, record in enumerate(records, 1):
        if not reduction.has_parts_of(record.text):
            return f"record {number} isn't made of parts of the input in their order"
    got = answers(journal)
    if got != answers(read_journal(whole))[: len(got)]:
        return "the reducer got other answers than in the whole run"
    return wrong_records(records, reduction.text, reduction.says_yes)
