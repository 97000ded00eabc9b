"""Chains of runs that are killed, each of which resumes in one file what the one before it left, until one ends."""
import shutil
import signal
import subprocess
import tempfile
import time
from pathlib import Path
from typing import NamedTuple

from histories import BadEvent, BadHead, Record, answers, is_head_front, read_journal
from reductions import INPUT, JOURNAL, OUTPUT

ASKS = "asks"
ASIDE = JOURNAL + ".resumed"
COPY = JOURNAL + ".joined"

# A run first sets its journal aside: some are killed within so many seconds.
FIRST_SECONDS = 0.05

# Some are killed at a call on one of the three files, and at one of so many of these calls.
CALLS = {"openat": 6, "read": 30, "write": 60, "fsync": 2, "rename": 1, "unlink": 1}

# So many seconds a script may run on after its run was killed.
SCRIPT_SECONDS = 20


class Stop(NamedTuple):
    """When a run is killed: at a moment, in seconds, or by the command that it is begun with; not at all where there is neither."""

    moment: float = None
    within: list = []


def tracer():
    """The command that can kill a run at a call; None where it isn't there."""
    found = shutil.which("strace")
    if found is None or subprocess.run([found, "-o", "/dev/null", "true"], stderr=subprocess.DEVNULL).returncode != 0:
        return None
    return found


def some_stop(moments, seconds, strace):
    """When a run is killed that may take so many seconds."""
    way = moments.randrange(2 if strace is None else 3)
    if way < 2:
        return Stop(moment=moments.uniform(0, (seconds, FIRST_SECONDS)[way]))
    call = moments.choice(list(CALLS))
    paths = [word for path in (JOURNAL, ASIDE, COPY) for word in ("-P", path)]
    kill = ["-e", f"trace={call}", "-e", f"inject={call}:signal=KILL:when={moments.randint(1, CALLS[call])}"]
    return Stop(within=[strace, "-f", "-o", "/dev/null", *paths, *kill])


class Left(NamedTuple):
    """What a run leaves: its status, the first four lines of its report, and how many asks it made."""

    status: int
    lines: list
    asks: int


class Whole(NamedTuple):
    """What a run comes to that is never killed, the most asks of several such runs, and the longest time of one in seconds."""

    output: bytes
    lines: list
    events: list
    answers: list
    asks: int
    seconds: float


def asks_in(folder):
    path = Path(folder, ASKS)
    return path.stat().st_size if path.exists() else 0


def in_group(group):
    """Whether a process of the group still runs; one that has ended but isn't waited for doesn't count."""
    for path in Path("/proc").glob("[0-9]*/stat"):
        try:
            fields = path.read_text().rpartition(")")[2].split()
        except OSError:
            continue
        if int(fields[2]) == group and fields[0] not in "ZX":
            return True
    return False


def wait_for_scripts(group):
    """Waits until the scripts have ended that a killed run had started, so that their asks are counted."""
    for _ in range(SCRIPT_SECONDS * 200):
        if not in_group(group):
            return
        time.sleep(0.005)


def as_asked(events):
    """The events, as if each verdict had been asked."""
    return [event._replace(kept=False) if isinstance(event, Record) else event for event in events]


def verdicts_in(path):
    """The first verdict of each text in a journal; none where it isn't there, or its head isn't whole."""
    data = path.read_bytes() if path.exists() else b""
    if is_head_front(data):
        return {}
    found = {}
    for record in read_journal(data).records():
        found.setdefault(record.text, record.yes)
    return found


def known_in(folder):
    """The verdicts that a next run knows: those of the journal, and those that were set aside."""
    return {**verdicts_in(Path(folder, ASIDE)), **verdicts_in(Path(folder, JOURNAL))}


class Chains(NamedTuple):
    """What is reduced, and with how many workers."""

    program: str
    reduction: NamedTuple
    jobs: int

    def prepare(self, folder):
        """Writes the files. The script counts its asks."""
        self.reduction.prepare(folder, f"printf x >>{ASKS}\n{self.reduction.test}\n")

    def run(self, folder, resumes, stop=Stop()):
        """A run, which is killed then, where it hasn't ended before."""
        before = asks_in(folder)
        words = [*stop.within, self.program, *self.reduction.words(), "--output", OUTPUT, "--jobs", str(self.jobs)]
        words += ["--resume", JOURNAL] if resumes else []
        with subprocess.Popen(words, cwd=folder, stdout=subprocess.PIPE, stderr=subprocess.DEVNULL, start_new_session=True) as process:
            if stop.moment is not None:
                time.sleep(stop.moment)
                process.send_signal(signal.SIGKILL)
            said = process.stdout.read()
        wait_for_scripts(process.pid)
        return Left(process.returncode, said.splitlines()[:4], asks_in(folder) - before)

    def whole(self, runs):
        """What runs come to that are never killed."""
        asks, seconds = 0, 0
        for _ in range(runs):
            with tempfile.TemporaryDirectory() as folder:
                self.prepare(folder)
                began = time.monotonic()
                left = self.run(folder, False)
                seconds = max(seconds, time.monotonic() - began)
                asks = max(asks, left.asks)
                journal = read_journal(Path(folder, JOURNAL).read_bytes())
                output = Path(folder, OUTPUT).read_bytes()
        return Whole(output, left.lines, journal.events, answers(journal), asks, seconds)

    def has_ended(self, folder, whole):
        """Whether a run was killed when all was done: the result is written, nothing is set aside, and the journal has all answers."""
        if Path(folder, ASIDE).exists() or Path(folder, COPY).exists():
            return False
        output, journal = Path(folder, OUTPUT), Path(folder, JOURNAL).read_bytes()
        if not output.exists() or output.read_bytes() != whole.output or is_head_front(journal):
            return False
        return texts_of(answers(read_journal(journal))) == texts_of(whole.answers)

    def wrong_stop(self, folder, left, known, later, whole):
        """What is wrong with what a killed run left, if anything is, where this was known before and that later."""
        lost = known.keys() - later.keys()
        if lost and not self.has_ended(folder, whole):
            return f"{len(lost)} verdicts are lost"
        new = len(later.keys() - known.keys())
        if left.asks > new + self.jobs:
            return f"it asked {left.asks} times, and {new} verdicts are new"
        wrong = [text for text, yes in later.items() if yes != self.reduction.says_yes(text)]
        return f"another verdict than the script's: {wrong[0][:60]!r}" if wrong else None

    def wrong_end(self, folder, left, known, whole):
        """What is wrong with the run that ended, if anything is, where this was known before."""
        if left.status != 0 or left.lines != whole.lines:
            return f"status {left.status}, report {left.lines}"
        if Path(folder, OUTPUT).read_bytes() != whole.output:
            return "it comes to another result"
        if Path(folder, ASIDE).exists() or Path(folder, COPY).exists():
            return "what was set aside stays"
        journal = read_journal(Path(folder, JOURNAL).read_bytes())
        asked = [record for record in journal.records() if not record.kept]
        if left.asks != len(asked) or any(record.text in known for record in asked):
            return f"it asked {left.asks} times, recorded {len(asked)}, and knew {sum(record.text in known for record in asked)} of these"
        if answers(journal)[0].text != Path(folder, INPUT).read_bytes() or texts_of(answers(journal)) != texts_of(whole.answers):
            return "the reducer got other answers than in the whole run"
        if self.jobs == 1 and as_asked(journal.events) != whole.events:
            return "its journal isn't that of the whole run"
        return None

    def follow(self, moments, whole, kills, strace):
        """A chain with so many kills at most: what is wrong, if anything is, how many kills there were, and how many asks."""
        with tempfile.TemporaryDirectory(ignore_cleanup_errors=True) as folder:
            self.prepare(folder)
            killed, asks, known = 0, 0, {}
            while True:
                stop = some_stop(moments, whole.seconds, strace) if killed < kills else Stop()
                left = self.run(folder, bool(known), stop)
                asks += left.asks
                if left.status != -signal.SIGKILL:
                    return self.wrong_end(folder, left, known, whole), killed, asks
                killed += 1
                try:
                    later = known_in(folder)
                except (BadHead, BadEvent) as bad:
                    return f"a journal can't be read: {bad!r}", killed, asks
                wrong = self.wrong_stop(folder, left, known, later, whole)
                if wrong:
                    return wrong, killed, asks
                known = later


def texts_of(records):
    """Texts and verdicts, without how they were got."""
    return [(record.text, record.yes) for record in records]


def follow_chains(chains, moments, kills, margin):
    """Follows chains until there were so many kills, and prints each. The answer is whether none is wrong."""
    whole, strace = chains.whole(1 if chains.jobs == 1 else 5), tracer()
    print(f"a run that isn't killed: {whole.asks} asks, {whole.seconds:.2f} s{'' if strace else '; there is no strace here'}")
    good, killed, number = True, 0, 0
    while killed < kills:
        number += 1
        wrong, more, asks = chains.follow(moments, whole, kills - killed, strace)
        most = whole.asks + more * chains.jobs + (margin if chains.jobs > 1 else 0)
        if not wrong and asks > most:
            wrong = f"more than {most} asks"
        killed += more
        good = good and not wrong
        print(f"chain {number}: {more} kills, {asks} asks{f', WRONG: {wrong}' if wrong else ''}", flush=True)
    print(f"{number} chains, {killed} kills: {'none is wrong' if good else 'WRONG'}")
    return good
