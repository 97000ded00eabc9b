"""The command line."""
import argparse
import os
import sys
from pathlib import Path

from . import cases, check, commands, corners, empties, ends, joining, limits, lists, loops, modes, names
from .notes import Fault, Notes
from .printing import printed
from .reading import read

# Blocks are at most 64 deep in one another when they are read, and a dozen calls go into each.
sys.setrecursionlimit(20_000)

TOP = Path(__file__).resolve().parent.parent.parent


def words():
    parser = argparse.ArgumentParser(
        prog="plain-grammar",
        description="Prints a grammar that Perses takes and that derives at least the texts of the given one. What was "
        "dropped or changed is said on standard error, with its line. The status is 1 where something can't be done.",
    )
    parser.add_argument("files", metavar="FILE.g4", nargs="+", help="a grammar; its lexer, and what it imports, are further files")
    parser.add_argument("--start", metavar="RULE", help="puts this parser rule first, so that the input is derived by it")
    lists_help = "writes two alternatives as one with an optional part, and recursion at a rule's end as a loop"
    parser.add_argument("--lists", action="store_true", help=lists_help)
    pair_help = "of a parser file and its lexer file, writes a pair: the lexer to this file, and the parser alone to standard output"
    parser.add_argument("--pair", metavar="LEXER.g4", help=pair_help)
    parser.add_argument("--check", action="store_true", help="asks `perses normal` about the result")
    parser.add_argument("--perses", metavar="PROGRAM", default=str(TOP / "perses"), help="the program for --check")
    return parser


def text_of(path, file):
    """The text of a file."""
    try:
        return Path(path).read_bytes().decode("utf-8")
    except OSError as fault:
        raise Fault((file, 0), f"{fault.strerror}") from None
    except UnicodeDecodeError as fault:
        raise Fault((file, 1), f"not UTF-8 at byte {fault.start}") from None


def grammars_of(arguments, notes):
    """The grammars of the files."""
    return [read(text_of(path, file), file, notes) for file, path in enumerate(arguments.files)]


def converted(arguments, notes):
    """The changed grammar."""
    return changed(joining.joined(grammars_of(arguments, notes), notes), arguments, notes)


def converted_pair(arguments, notes):
    """The changed lexer grammar and parser grammar."""
    main, lexer = joining.paired(grammars_of(arguments, notes), notes)
    return joining.parted(changed(main, arguments, notes), lexer, notes)


def changed(grammar, arguments, notes):
    """The grammar of all rules, changed to one that Perses takes."""
    if arguments.start:
        joining.start_with(grammar, arguments.start)
    names.plain_names(grammar, notes)
    names.plain_characters(grammar, notes)
    if notes.failed:
        return grammar
    commands.check_commands(grammar, notes)
    modes.one_mode(grammar, notes)
    commands.plain_channels(grammar, notes)
    commands.split_rules(grammar, notes)
    cases.both_cases(grammar, notes)
    loops.greedy_parser(grammar, notes)
    loops.LexerLoops(grammar, notes).write_out()
    ends.without_ends(grammar, notes)
    limits.known_names(grammar, notes)
    limits.no_recursion(grammar, notes)
    empties.without_empty_loops(grammar, notes)
    while corners.direct_recursion(grammar, notes) and not notes.failed:
        empties.without_empty_loops(grammar, notes)
    if arguments.lists:
        lists.with_lists(grammar, notes)
    limits.no_deep_blocks(grammar, notes)
    return grammar


def put(text):
    """Puts the grammar on standard output, where somebody reads it."""
    try:
        sys.stdout.buffer.write(text.encode("utf-8"))
        sys.stdout.buffer.flush()
    except BrokenPipeError:
        os.dup2(os.open(os.devnull, os.O_WRONLY), sys.stdout.fileno())


def keep(path, text):
    """Writes the lexer of a pair."""
    try:
        Path(path).write_bytes(text.encode("utf-8"))
    except OSError as fault:
        raise Fault((0, 0), f"{path}: {fault.strerror}") from None


def convert(arguments, notes):
    """Puts what is made of the files, and asks about it."""
    if arguments.pair:
        lexer, parser = converted_pair(arguments, notes)
        keep(arguments.pair, printed(lexer)[0])
        made = [parser, lexer]
    else:
        made = [converted(arguments, notes)]
    texts = [printed(grammar) for grammar in made]
    put(texts[0][0])
    if arguments.check:
        fault = check.fault_of(arguments.perses, [text for text, _ in texts])
        if fault:
            notes.cannot(check.place_of_fault(fault, made, [places for _, places in texts]), f"perses: {fault}")


def main():
    arguments = words().parse_args()
    notes = Notes(arguments.files)
    try:
        convert(arguments, notes)
    except Fault as fault:
        notes.cannot(fault.place, fault.text)
    sys.stderr.write(notes.printed())
    return 1 if notes.failed else 0
