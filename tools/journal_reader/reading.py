"""Reads a journal by its format, versions 1 and 2, as docs/FORMATS.md has it."""
import hashlib
import re
from typing import NamedTuple

# The whole heads: of version 1, and of version 2, with the digest of the start.
HEAD = b"perses-journal 1\n"
HEAD_WITH_START = re.compile(rb"perses-journal 2\nS ([0-9a-f]{64})\n")
LONGEST_TEXT = 1048576

# Whole first lines of events, and what such a line can begin with before its newline has come.
RECORD_LINE = re.compile(rb"([RK]) ([yn]) (0|[1-9][0-9]*)\n")
COMMIT_LINE = re.compile(rb"C ([1-9][0-9]*)\n")
RECORD_FRONT = re.compile(rb"([RK])(?: (?:[yn](?: (0|[1-9][0-9]*)?)?)?)?\Z")
COMMIT_FRONT = re.compile(rb"C(?: ([1-9][0-9]*)?)?\Z")

# The letters that a record of a version can begin with: where a script was asked, and where the verdict was kept from an earlier run.
RECORD_LETTERS = {1: b"R", 2: b"RK"}


class Record(NamedTuple):
    """A text got its verdict: from a script, or kept from an earlier run."""

    yes: bool
    text: bytes
    kept: bool = False


class Commit(NamedTuple):
    """The reducer was answered with the record of this number, from 1."""

    number: int


class Journal(NamedTuple):
    """The version, the SHA-256 of the start in hexadecimal digits, the whole events in their order, and the bytes of a torn tail.

    In version 1 the start is the text of record 1, and there is none without a record.
    """

    version: int
    start: str | None
    events: list
    torn: int

    def records(self):
        return [event for event in self.events if isinstance(event, Record)]

    def best(self):
        """The shortest text with a yes, and of those that are as short the first; None where there is none."""
        return min((record for record in self.records() if record.yes), key=lambda record: len(record.text), default=None)

    def last_yes(self):
        """The record of the last yes that the reducer was answered with: what it had come to. None before the first."""
        records = self.records()
        found = None
        for event in self.events:
            if isinstance(event, Commit) and records[event.number - 1].yes:
                found = records[event.number - 1]
        return found


class BadHead(Exception):
    """The bytes don't begin with a whole head."""


class BadEvent(Exception):
    """At this offset is neither an event, nor the end, nor a torn tail."""

    def __init__(self, offset):
        super().__init__(offset)
        self.offset = offset


def read_journal(data):
    """The journal of these bytes. BadHead and BadEvent say why there is none."""
    version, start, at = head_of(data)
    letters = RECORD_LETTERS[version]
    events = []
    records = 0
    torn = 0
    while at < len(data):
        event, end = event_at(data, at, records, letters)
        if event is None:
            torn = len(data) - at
            break
        events.append(event)
        records += isinstance(event, Record)
        at = end
    return Journal(version, start if version > 1 else first_text_digest(events), events, torn)


def head_of(data):
    """The version, the digest that the head has, and where the head ends."""
    with_start = HEAD_WITH_START.match(data)
    if with_start:
        return 2, with_start[1].decode(), with_start.end()
    if data.startswith(HEAD):
        return 1, None, len(HEAD)
    raise BadHead()


def is_head_front(data):
    """Whether these bytes are the beginning of a head, and not all of it."""
    before_digits = b"perses-journal 2\nS "
    if data.startswith(before_digits):
        return re.fullmatch(rb"[0-9a-f]{0,64}", data[len(before_digits):]) is not None
    return before_digits.startswith(data) or HEAD.startswith(data) and data != HEAD


def first_text_digest(events):
    """The digest of the first record's text; None where there is no record, since the first event is one."""
    return hashlib.sha256(events[0].text).hexdigest() if events else None


def event_at(data, at, records, letters):
    """The event at this offset after so many records, which begin with these letters, and where it ends; no event at a torn tail."""
    line_end = data.find(b"\n", at)
    if line_end < 0:
        if is_front(data[at:], records, letters):
            return None, at
        raise BadEvent(at)
    line = data[at:line_end + 1]
    commit = COMMIT_LINE.fullmatch(line)
    if commit and is_number(commit[1], records):
        return Commit(int(commit[1])), line_end + 1
    record = RECORD_LINE.fullmatch(line)
    if record and record[1] in letters and is_number(record[3], LONGEST_TEXT):
        return record_at(data, at, line_end + 1, record)
    raise BadEvent(at)


def record_at(data, at, text_start, line):
    """The record at this offset, of which this is the first line, and where it ends."""
    text_end = text_start + int(line[3])
    if text_end >= len(data):
        return None, at
    if data[text_end:text_end + 1] != b"\n":
        raise BadEvent(at)
    return Record(line[2] == b"y", data[text_start:text_end], line[1] == b"K"), text_end + 1


def is_front(rest, records, letters):
    """Whether the first line of some event that can come after so many records begins with these bytes."""
    commit = COMMIT_FRONT.match(rest)
    if commit and records > 0:
        return commit[1] is None or is_number(commit[1], records)
    record = RECORD_FRONT.match(rest)
    return record is not None and record[1] in letters and (record[2] is None or is_number(record[2], LONGEST_TEXT))


def is_number(digits, greatest):
    """Whether these digits are at most the greatest. Longer ones aren't turned into a number."""
    return len(digits) <= len(str(greatest)) and int(digits) <= greatest
