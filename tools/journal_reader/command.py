"""The command line of the journal reader."""
import argparse
import sys
from pathlib import Path

from .reading import BadEvent, BadHead, Record, read_journal

SHOWN = 60


def words():
    parser = argparse.ArgumentParser(prog="journal", description="Prints what a journal of perses has, one line for each event.")
    parser.add_argument("journal", metavar="JOURNAL", help="the journal's file")
    which = parser.add_mutually_exclusive_group()
    which.add_argument("--text", type=int, metavar="N", help="writes the text of record N, from 1, and nothing else")
    which.add_argument("--last-yes", action="store_true", help="writes the text of the last yes that the reducer was answered with, and nothing else")
    which.add_argument("--best", metavar="FILE", help="writes the shortest text with a yes to this file, and prints nothing; also where no answer used it yet")
    return parser


def line_of(event, number):
    """The line of an event; a record has this number."""
    if not isinstance(event, Record):
        return f"  answered with record {event.number}"
    verdict = ("yes" if event.yes else "no") + (", kept" if event.kept else "")
    shown = repr(event.text[:SHOWN].decode("utf-8", "backslashreplace"))
    more = " .." if len(event.text) > SHOWN else ""
    return f"record {number}: {verdict}, {len(event.text)} bytes, {shown}{more}"


def print_events(journal):
    number = 0
    for event in journal.events:
        number += isinstance(event, Record)
        print(line_of(event, number))
    if journal.torn:
        print(f"torn tail of {journal.torn} bytes")


def chosen(journal, arguments):
    """The record whose text is asked for; None where there is none."""
    if arguments.best is not None:
        return journal.best()
    if arguments.last_yes:
        return journal.last_yes()
    records = journal.records()
    return records[arguments.text - 1] if 1 <= arguments.text <= len(records) else None


def main():
    arguments = words().parse_args()
    try:
        journal = read_journal(Path(arguments.journal).read_bytes())
        return answered(journal, arguments)
    except OSError as error:
        return refused(error.strerror)
    except BadHead:
        return refused("no journal: its head isn't there")
    except BadEvent as bad:
        return refused(f"no event at byte {bad.offset}")


def answered(journal, arguments):
    """Prints the events, or writes the text that is asked for. Gives the status."""
    if arguments.text is None and arguments.best is None and not arguments.last_yes:
        print_events(journal)
        return 0
    record = chosen(journal, arguments)
    if record is None:
        return refused("no such record")
    if arguments.best is not None:
        Path(arguments.best).write_bytes(record.text)
        return 0
    sys.stdout.buffer.write(record.text)
    return 0


def refused(text):
    print(f"journal: {text}", file=sys.stderr)
    return 1
