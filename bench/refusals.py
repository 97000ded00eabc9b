"""The program with one allocation of a run refused, how many allocations a run makes, and what has to come of it."""
import os
import queue
import re
import shutil
import subprocess
import sys
import tempfile
from pathlib import Path
from typing import NamedTuple

import built
from fault_runs import OLD, STARTING, Came, Trial, Wanted, faults_of
from reductions import JOURNAL, OUTPUT, Reduction, judged_journal

# `rt try --fail-alloc N` compiles N into two functions that every allocation passes through: one for a
# new block, one for a block that gets another size. They count, and compare the count with N. So the
# program is compiled once, with this number, and in a copy of it another number is written over it.
COMPILED = 0x6D69623A

# The bytes of the code before and after the number (x86-64): it is compared, and where the count is
# another one, the next twelve bytes are left out. They begin by setting the answer to none.
COMPARE = b"\x48\x3d"
UNLESS = b"\x75\x0c"
REFUSE = b"\x31\xc0"

# An instruction that kills the program, to see whether a run comes there.
KILL = b"\x0f\x0b"

# The program has tests of each access to memory. They end it by a signal, and not with status 1, which is
# that of a refusal; and what that instruction does is left to the system.
TESTS = "abort_on_error=1:handle_sigill=0"

# A script for the compiled program to ask: it takes a copy of the program that asks it, and the words
# that it is begun with before its own name, as those of a loader.
TAKE = """#!{python}
import os
import shutil

folder = {folder!r}
parent = "/proc/%d" % os.getppid()
with open(parent + "/maps") as maps:
    paths = [line.split(maxsplit=5)[5].strip() for line in maps if line.rstrip().endswith("/program")]
with open(parent + "/cmdline", "rb") as words:
    before = words.read().split(b"\\0reduce\\0")[0].split(b"\\0")[:-1]
with open(folder + "/before", "wb") as file:
    file.write(b"\\0".join(before))
shutil.copy(paths[0], folder + "/taken")
os.rename(folder + "/taken", folder + "/program")
"""

DONE = Wanted(0, output="result")
NO_MEMORY = Wanted(1, "out of memory", journal="cut")


class Compiled(NamedTuple):
    """A program, the words that it is begun with before its name, and where in it the number stands."""

    path: Path
    before: list
    places: list


def compiled_in(folder):
    """The program that `rt try` compiles, kept in this folder; it isn't compiled where it is there."""
    folder = Path(folder).resolve()
    path = folder / "program"
    if not path.exists():
        compile_into(folder)
    before = [os.fsdecode(word) for word in (folder / "before").read_bytes().split(b"\0") if word]
    return Compiled(path, before, places_in(path.read_bytes()))


def compile_into(folder):
    print("rt try compiles the program", file=sys.stderr, flush=True)
    (folder / "input").write_bytes(b"x\n")
    (folder / "take").write_text(TAKE.format(python=sys.executable, folder=str(folder)))
    (folder / "take").chmod(0o755)
    paths = {"--input": "input", "--output": "output", "--script": "take", "--work": "work"}
    words = [word for option, name in paths.items() for word in (option, str(folder / name))]
    done = subprocess.run(
        ["rt", "try", "--fail-alloc", str(COMPILED), "--", "reduce", "--mode", "lines", *words],
        cwd=os.path.join(built.TOP, "crates", "perses_main"),
        stdin=subprocess.DEVNULL,
        capture_output=True,
    )
    if not (folder / "program").exists():
        sys.exit(f"rt try made no program:\n{done.stdout.decode()}{done.stderr.decode()}")


def number_bytes(number):
    return number.to_bytes(4, "little")


def places_in(code):
    """Where the number stands in a program."""
    pattern = re.escape(COMPARE + number_bytes(COMPILED) + UNLESS + REFUSE)
    found = [match.start() + len(COMPARE) for match in re.finditer(pattern, code, re.DOTALL)]
    if len(found) != 2:
        sys.exit(f"the number of the refused allocation is in {len(found)} places of the program, and not in two")
    return found


def instead(number, kills):
    """What is written to each place, so that the allocation of this number is refused, or kills the program."""
    return number_bytes(number) + UNLESS + (KILL if kills else REFUSE)


def largest(reaches):
    """The largest number that is reached; all smaller ones are. It is 0 where none is."""
    low, high = 0, 1
    while reaches(high):
        low, high = high, high * 2
    while high - low > 1:
        middle = (low + high) // 2
        low, high = (middle, high) if reaches(middle) else (low, middle)
    return low


class Limits(NamedTuple):
    """How many allocations are all tried; and of more how many first ones, last ones and others between."""

    all: int
    first: int
    last: int
    between: int


def some_of(count, limits, chance):
    """The numbers up to the count that are tried: all where there are few, else the first, the last, and by chance one of each
    stretch between."""
    if count <= limits.all:
        return list(range(1, count + 1))
    rest = range(limits.first + 1, count - limits.last + 1)
    step = -(-len(rest) // limits.between)
    chosen = [chance.choice(rest[at : at + step]) for at in range(0, len(rest), step)]
    return [*range(1, limits.first + 1), *chosen, *range(count - limits.last + 1, count + 1)]


class Row(NamedTuple):
    """A reduction by so many workers, and its name."""

    name: str
    reduction: Reduction
    jobs: int


class Left(NamedTuple):
    """What a run leaves. Files that weren't there before count as they were where they aren't there after."""

    came: Came
    has_output: bool
    has_journal: bool


class Programs:
    """Copies of a program, one for each run at a time, and a folder for the runs."""

    def __init__(self, program, folder, side):
        self.program = program
        self.folder = folder
        self.free = queue.Queue()
        for number in range(side):
            self.free.put(shutil.copy(program.path, Path(folder, f"program{number}")))
        os.environ["ASAN_OPTIONS"] = TESTS

    def run(self, row, number, kills=False):
        """What a run leaves whose allocation of this number is refused, or kills it. 0 is the number of none."""
        path = self.free.get()
        try:
            with STARTING, open(path, "r+b") as file:
                for place in self.program.places:
                    file.seek(place)
                    file.write(instead(number, kills))
            with tempfile.TemporaryDirectory(dir=self.folder, ignore_cleanup_errors=True) as folder:
                return run_in(Path(folder), path, row, self.program.before)
        finally:
            self.free.put(path)

    def count(self, row):
        """How many allocations a run makes. Each makes some."""
        count = largest(lambda number: (self.run(row, number, kills=True).came.status or 0) < 0)
        if count == 0:
            sys.exit(f"{row.name}: the run wasn't killed at its first allocation")
        return count


def run_in(folder, program, row, before):
    trial = Trial(program, folder, row.reduction, row.jobs)
    trial.prepare()
    paths = [folder / name for name in (OUTPUT, JOURNAL)]
    for path in paths:
        path.unlink()
    came = trial.run(within=before)
    has_output, has_journal = (path.exists() for path in paths)
    came = came._replace(output=came.output if has_output else OLD, journal=came.journal if has_journal else OLD)
    return Left(came, has_output, has_journal)


def wanted_of(left):
    """What has to come of a run with a refused allocation. At status 1 no line is said where there is no memory for it. There is no
    output then; the journal has all answers but each worker's last one, and where there is none, the script wasn't asked."""
    if left.came.status != NO_MEMORY.status:
        return DONE
    wanted = NO_MEMORY if left.has_journal else NO_MEMORY._replace(journal="old", asked=0)
    return wanted if left.came.said else wanted._replace(line="")


def wrong_of(left, row, reference):
    """All that is wrong with what a run leaves, where one worker's run without a refusal comes to the reference."""
    wanted = wanted_of(left)
    trial = Trial(None, None, row.reduction, row.jobs)
    found = faults_of(left.came, wanted, trial, reference)
    if wanted.journal == "cut" and judged_journal(left.came.journal, row.reduction, row.jobs, reference.journal).torn:
        found.append("the journal has a torn tail, or no whole head")
    return found
