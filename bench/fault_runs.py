"""Runs of the program in which something fails, and what has to come of one."""
import contextlib
import os
import re
import shutil
import subprocess
import tempfile
import threading
from pathlib import Path
from typing import Callable, NamedTuple

from reductions import GRAMMAR, INPUT, JOURNAL, OUTPUT, judged_journal

OLD = b"as handed in\n"
REPORT = re.compile(rb"units: \d+ -> \d+\nbytes: \d+ -> \d+\nrounds: \d+\nused: \d+\nrecords: \d+\n")
KEPT = "kept"
SECONDS = 300

# An ordinary user, whom rights and limits hold for.
NOBODY = 65534

# While a child begins it has this program's open files, and a script that is open for writing can't be started.
STARTING = threading.Lock()

# A script that keeps each candidate, and then its answer. It tests the copy. At the ask of this number,
# or the first one after it, it makes something fail.
SCRIPT = """candidate=$1
cp -- "$1" kept/$$.text || exit 1
set -- kept/$$.text
are_enough() {{ [ $# -ge {number} ]; }}
if are_enough kept/*.text && [ ! -e kept/once ] && mkdir kept/once 2>/dev/null; then
    {event}
fi
if {test}; then
    echo y >kept/$$.answer
    exit 0
fi
echo n >kept/$$.answer
{no}
"""


class Skipped(Exception):
    """Why a row can't be tried here."""


class Came(NamedTuple):
    """What comes of a run. No bytes are those of a file that isn't there. An answer is a text and whether it was yes."""

    status: int
    said: bytes
    errors: bytes
    output: bytes
    journal: bytes
    asked: int
    answers: list
    as_handed_in: bool


class Wanted(NamedTuple):
    """What has to come of a run.

    At status 0 the report is said, else the line. The output is `old`, as it was; the `result`; a `part`
    of it from its beginning; or `unseen`. The journal is `old`; `whole`; `cut`, where each worker may
    have had an answer that isn't in it; or `unseen`. The reason is on standard error. Where no number is
    asked, any is fine.
    """

    status: int
    line: str = ""
    output: str = "old"
    journal: str = "whole"
    reason: str = ""
    asked: int = None


class Reference(NamedTuple):
    """What a run of one worker comes to where nothing fails."""

    output: bytes
    journal: bytes


class Trial(NamedTuple):
    """A folder in which the program reduces a text, with so many workers."""

    program: str
    folder: Path
    reduction: NamedTuple
    jobs: int = 1

    def prepare(self, event=":", number=5, no="exit 1"):
        """Writes the files. The script makes something fail by the event at the ask of the number, and says no by the last."""
        commands = SCRIPT.format(number=number, event=event, test=self.reduction.test, no=no)
        with STARTING:
            self.reduction.prepare(self.folder, commands)
        shutil.rmtree(self.folder / KEPT, ignore_errors=True)
        (self.folder / KEPT).mkdir()
        for path in (self.folder, self.folder / KEPT):
            path.chmod(0o777)
        for name in (OUTPUT, JOURNAL):
            (self.folder / name).write_bytes(OLD)
            (self.folder / name).chmod(0o666)

    def run(self, more=(), words=None, output=OUTPUT, journal=JOURNAL, **how):
        """What comes of a run. More words are added to those of the reduction, or others take their place."""
        every = [*self.reduction.words(), "--output", output, "--jobs", str(self.jobs), *more] if words is None else words
        before = self.handed_in()
        status, said, errors = ended([self.program, *every], self.folder, **how)
        kept = self.folder / KEPT
        answers = [(path.with_suffix(".text").read_bytes(), path.read_bytes() == b"y\n") for path in kept.glob("*.answer")]
        asked = len(list(kept.glob("*.text")))
        output, journal = (bytes_of(self.folder / name) for name in (output, journal))
        return Came(status, said, errors, output, journal, asked, answers, self.handed_in() == before)

    def handed_in(self):
        return [bytes_of(self.folder / name) for name in (INPUT, GRAMMAR)]

    def again(self):
        """What comes of a run in the same folder where nothing fails."""
        self.prepare()
        return self.run()


def started(words, **how):
    """A process that has begun."""
    with STARTING:
        return subprocess.Popen(words, **how)


def bytes_of(path):
    """The bytes of an ordinary file, which is made readable; none where it is another one, or isn't there."""
    if path.is_file() and not os.access(path, os.R_OK):
        path.chmod(0o644)
    return path.read_bytes() if path.is_file() else b""


def ended(words, folder, stdout=None, within=(), **how):
    """How a run ends, which another command may begin, and what it says. No status is that of a run that doesn't end."""
    environment = {**os.environ, "PERSES_QUIET": "0", "LC_ALL": "C"}
    with tempfile.TemporaryFile() as said, tempfile.TemporaryFile() as errors:
        how = {"stdin": subprocess.DEVNULL, "stdout": said if stdout is None else stdout, **how}
        child = started([*within, *words], cwd=folder, stderr=errors, env=environment, **how)
        try:
            status = child.wait(timeout=SECONDS)
        except subprocess.TimeoutExpired:
            child.kill()
            child.wait()
            status = None
        said.seek(0)
        errors.seek(0)
        return status, said.read(), errors.read()


def ordinary_user():
    """How a run is one of an ordinary user."""
    return {"user": NOBODY, "group": NOBODY, "extra_groups": []} if os.geteuid() == 0 else {}


@contextlib.contextmanager
def small_disk(folder, kilobytes):
    """A disk of this size in the folder."""
    folder.mkdir()
    words = ["mount", "-t", "tmpfs", "-o", f"size={kilobytes}k,mode=777", "tmpfs", folder]
    if os.geteuid() != 0 or started(words, stderr=subprocess.DEVNULL).wait() != 0:
        raise Skipped("a small disk can't be mounted here")
    try:
        yield
    finally:
        started(["umount", folder]).wait()


def faults_of(came, wanted, trial, reference):
    """All that is wrong with what came."""
    found = [(came.status != wanted.status, f"status {came.status} in place of {wanted.status}")]
    is_line = REPORT.fullmatch(came.said) if wanted.status == 0 and not wanted.line else came.said == line_of(wanted)
    found.append((not is_line, f"it says {came.said!r}"))
    found.append((wanted.reason.encode() not in came.errors, f"standard error has no '{wanted.reason}': {came.errors!r}"))
    found.append((not output_fits(came.output, wanted.output, reference), f"the output isn't {wanted.output}"))
    found.append((wanted.asked not in (None, came.asked), f"{came.asked} asks in place of {wanted.asked}"))
    found.append((not came.as_handed_in, "the input or the grammar has changed"))
    return [text for wrong, text in found if wrong] + journal_faults(came, wanted, trial, reference)


def line_of(wanted):
    return f"perses: {wanted.line}\n".encode() if wanted.line else b""


def output_fits(output, wanted, reference):
    if wanted == "old":
        return output == OLD
    if wanted == "part":
        return reference.output.startswith(output)
    return wanted == "unseen" or output == reference.output


def journal_faults(came, wanted, trial, reference):
    """All that is wrong with the journal: it has each answer that came, but perhaps the last ones, and no other."""
    if wanted.journal == "unseen":
        return []
    if wanted.journal == "old":
        return [] if came.journal == OLD else ["the journal isn't old"]
    judged = judged_journal(came.journal, trial.reduction, trial.jobs, reference.journal)
    if judged.wrong:
        return [f"the journal: {judged.wrong}"]
    may_lack = trial.jobs if wanted.journal == "cut" else 0
    recorded = {record.text: record.yes for record in judged.records}
    lacking = [text for text, yes in came.answers if recorded.get(text) != yes]
    added = set(recorded) - {text for text, _ in came.answers} if came.asked else set()
    found = []
    if len(lacking) > may_lack:
        found.append(f"{len(lacking)} answers aren't in the journal")
    if added:
        found.append(f"{len(added)} records are no answers")
    if judged.torn and wanted.journal == "whole":
        found.append("the journal has a torn tail")
    return found


def changed(came, wanted):
    """What came, changed in one place each time, where what is wanted says something of it."""
    yield "another status", came._replace(status=came.status + 1)
    yield "another line", came._replace(said=came.said + b"!")
    yield "another input", came._replace(as_handed_in=False)
    if wanted.reason:
        yield "no reason", came._replace(errors=b"")
    if wanted.asked is not None:
        yield "an ask more", came._replace(asked=came.asked + 1)
    if wanted.output != "unseen":
        yield "another output", came._replace(output=came.output + b"!")
    if wanted.journal != "unseen":
        yield "another journal", came._replace(journal=b"!" + came.journal[1:])
    if wanted.journal in ("whole", "cut"):
        if b"R y" in came.journal:
            yield "another verdict", came._replace(journal=came.journal.replace(b"R y", b"R n", 1))
        yield "answers that were lost", came._replace(answers=came.answers + [(b"%d" % number, False) for number in range(17)])


class Row(NamedTuple):
    """A name, and what is tried in a new folder, of what is given: its answer is the trial, what came and what is wanted."""

    name: str
    attempt: Callable
    given: tuple = ()
