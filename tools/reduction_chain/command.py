"""The command line of the chain."""
import argparse
import hashlib
import json
import os
import signal
import sys
from pathlib import Path

from .chain import Chain
from .steps import MODES, RESPELL, Run
from .stops import BAD_COMMAND_LINE, CANNOT_READ, CANNOT_START, CANNOT_WRITE, Stopped

PERSES = Path(__file__).resolve().parent.parent.parent / "perses"


def words():
    parser = argparse.ArgumentParser(
        prog="perses-chain",
        allow_abbrev=False,
        description="Reduces an input mode by mode, over and over, until no mode makes it smaller. Options that aren't named here go to each run as they are.",
    )
    parser.add_argument("--input", required=True, metavar="F", help="the file to be reduced")
    parser.add_argument("--output", required=True, metavar="F", help="the file that the result is written to, at the end")
    parser.add_argument("--script", required=True, metavar="F", help="the interestingness script")
    parser.add_argument("--grammar", required=True, metavar="F", help="the grammar of the input; it goes to the runs by a grammar, as do --start and --squeeze")
    parser.add_argument("--start", metavar="R", help="the rule that derives the input")
    parser.add_argument("--squeeze", action="store_true", help="try the input with a newline or a blank between all tokens")
    parser.add_argument("--respell", action="store_true", help="after the last mode also a run in mode perses that tries shorter spellings")
    parser.add_argument("--modes", type=modes, default=list(MODES), metavar="M,..", help="the modes in their order; without it hdd,perses,lines")
    parser.add_argument("--folder", metavar="D", help="where the steps are kept; without it the output's name followed by .chain")
    parser.add_argument("--perses", default=str(PERSES), metavar="F", help="the program; without it that of this repository or installation")
    return parser


def modes(text):
    chosen = text.split(",")
    if not set(chosen) <= set(MODES) or len(set(chosen)) != len(chosen):
        raise argparse.ArgumentTypeError(f"modes are {', '.join(MODES)}, each once")
    return chosen


def main():
    signal.signal(signal.SIGTERM, lambda *_: sys.exit(128 + signal.SIGTERM))
    arguments, passed_on = words().parse_known_args()
    if any(word.split("=")[0] in ("--mode", "--journal", "--resume") for word in passed_on):
        return refused(BAD_COMMAND_LINE, "a chain has modes and journals of its own: no --mode, --journal or --resume")
    if any(word.split("=")[0] in ("--protect", "--only") for word in passed_on):
        return refused(BAD_COMMAND_LINE, "each step of a chain has other line numbers: neither --protect nor --only")
    if arguments.respell and any(word.split("=")[0] == "--protect-text" for word in passed_on):
        return refused(BAD_COMMAND_LINE, "lines that must stay are not respelled: --respell without --protect-text")
    try:
        return reduce(arguments, passed_on)
    except Stopped as stopped:
        return refused(stopped.status, stopped.text)
    except KeyboardInterrupt:
        return 128 + signal.SIGINT


def reduce(arguments, passed_on):
    texts = {name: read(getattr(arguments, name), name) for name in ("input", "grammar", "script")}
    script = Path(arguments.script).absolute()
    if not os.access(script, os.X_OK):
        raise Stopped(CANNOT_START, f"{arguments.script} is not executable")
    run = Run(arguments.perses, arguments.grammar, script, options(arguments), passed_on)
    folder = Path(arguments.folder or f"{arguments.output}.chain")
    chain = Chain(folder, steps(arguments), run, os.path.basename(arguments.input))
    chain.open(texts["input"], call_of(arguments, passed_on, texts))
    chain.reduce()
    try:
        Path(arguments.output).write_bytes(chain.text)
    except OSError as error:
        raise Stopped(CANNOT_WRITE, f"{arguments.output}: {error.strerror}") from error
    print(chain.report(), end="")
    return 0


def steps(arguments):
    """What is done in turn: a run in each mode, and where it is asked for one that respells."""
    return arguments.modes + ([RESPELL] if arguments.respell else [])


def options(arguments):
    """The options that go to runs by a grammar alone."""
    start = ["--start", arguments.start] if arguments.start else []
    return start + (["--squeeze"] if arguments.squeeze else [])


def call_of(arguments, passed_on, texts):
    """What a folder's steps were made of. A call with anything else can't go on with them."""
    sums = {name: hashlib.sha256(text).hexdigest() for name, text in texts.items()}
    return json.dumps({"modes": steps(arguments), "options": options(arguments) + kept(passed_on), **sums}, sort_keys=True) + "\n"


def kept(passed_on):
    """The options but those that change no result: another work folder or number of scripts may go on."""
    found = []
    rest = iter(passed_on)
    for word in rest:
        name, has_value, _ = word.partition("=")
        if name in ("--work", "--jobs"):
            if not has_value:
                next(rest, None)
        else:
            found.append(word)
    return found


def read(name, what):
    try:
        return Path(name).read_bytes()
    except OSError as error:
        raise Stopped(CANNOT_READ, f"cannot read {what}: {error.strerror}") from error


def refused(status, text):
    print(f"perses-chain: {text}", file=sys.stderr)
    return status
