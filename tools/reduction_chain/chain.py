"""A chain: steps in one mode after another, until as many as there are modes made the text no smaller."""
import fcntl
import sys

from .steps import Answers, Failed, Step
from .stops import BAD_COMMAND_LINE, CANNOT_WRITE, IS_RUNNING, Stopped


class Chain:
    def __init__(self, folder, modes, run, name):
        self.folder = folder
        self.modes = modes
        self.run = run
        self.input = folder / "input" / name
        self.text = b""
        self.at_first = 0
        self.lines = []

    def open(self, text, call):
        """Makes the folder, or finds the one that an earlier call made for the same."""
        self.at_first = len(text)
        self.text = text
        try:
            self.input.parent.mkdir(parents=True, exist_ok=True)
            self.lock()
            if not (self.folder / "call").exists():
                self.begin(text, call)
            elif (self.folder / "call").read_text() != call:
                raise Stopped(BAD_COMMAND_LINE, f"{self.folder} is of another input, grammar, script or other options: remove it, or name another by --folder")
            self.answers = Answers(self.folder / "answers")
            self.answers.write_script(self.folder / "script", self.run.script)
        except OSError as error:
            raise Stopped(CANNOT_WRITE, f"{self.folder}: {error.strerror}") from error

    def lock(self):
        """Runs have the lock too, so that one whose chain was killed is waited for by nobody and disturbed by nobody."""
        self.held = open(self.folder / "lock", "w")
        try:
            fcntl.flock(self.held, fcntl.LOCK_EX | fcntl.LOCK_NB)
        except BlockingIOError as error:
            raise Stopped(IS_RUNNING, f"a chain, or a run that one began, is still at work in {self.folder}") from error

    def begin(self, text, call):
        self.input.write_bytes(text)
        part = self.folder / "call.part"
        part.write_text(call)
        part.rename(self.folder / "call")

    def reduce(self):
        """Takes steps until each mode made the text no smaller. `text` is then the result."""
        current = self.input
        number = 0
        without_gain = 0
        while without_gain < len(self.modes):
            mode = self.modes[number % len(self.modes)]
            number += 1
            step = Step(self.folder / f"{number:03}-{mode}", mode, current)
            text = self.result_of(step, number)
            if text == self.text or len(text) > len(self.text):
                without_gain += 1
            else:
                without_gain = 0
                self.text = text
                current = step.result

    def result_of(self, step, number):
        # of a run that was broken off the answers are kept, before the next one empties its journal
        asked = self.answers.add(step.journal)
        if not step.is_done():
            self.make(step, number)
            asked += self.answers.add(step.journal)
        text = step.result.read_bytes()
        self.lines.append(f"step {number}, {step.line(len(self.text), len(text), asked)}")
        print(f"perses-chain: {self.lines[-1]}", file=sys.stderr)
        return text

    def make(self, step, number):
        """Runs a step. The input itself has to be derived by the grammar; a result of mode lines need not be."""
        try:
            step.make(self.run, self.folder / "script", self.held, step.input != self.input)
        except Failed as failed:
            sys.stdout.buffer.write(failed.line)
            sys.stdout.flush()
            raise Stopped(failed.status, f"step {number} in mode {step.mode} ended with status {failed.status}; the same call goes on from there") from failed

    def report(self):
        """One line for each step and three for all of them."""
        total = [f"bytes: {self.at_first} -> {len(self.text)}", f"steps: {len(self.lines)}", f"asked: {len(self.answers.known)}"]
        return "".join(f"{line}\n" for line in self.lines + total)
