"""What the benches read off a journal of `perses`, with the reader of tools/journal, which knows only the
format."""
import sys
from pathlib import Path

sys.path.insert(0, str(Path(__file__).resolve().parent.parent / "tools"))

from journal_reader.reading import HEAD, BadEvent, BadHead, Record, is_head_front, read_journal  # noqa: E402


def answers(journal):
    """The texts and verdicts that the reducer was answered with, in their order."""
    records = journal.records()
    return [records[event.number - 1] for event in journal.events if not isinstance(event, Record)]


def stretches(journal):
    """How many texts were asked up to each yes that the reducer was answered with, and after the last one."""
    records = journal.records()
    found = [0]
    for event in journal.events:
        if isinstance(event, Record):
            found[-1] += 1
        elif records[event.number - 1].yes:
            found.append(0)
    return [asked for asked in found if asked]


def unused(journal):
    """How many records no commit names."""
    named = {event.number for event in journal.events if not isinstance(event, Record)}
    return len(journal.records()) - len(named)


def each_is_committed(journal):
    """Whether each record is directly followed by its commit, as one worker's are."""
    number = 0
    after = journal.events[1:] + [None]
    for event, following in zip(journal.events, after):
        if isinstance(event, Record):
            number += 1
            if following is None or isinstance(following, Record) or following.number != number:
                return False
    return True


def wrong_records(records, start, says_yes):
    """What is wrong with the records of a reduction of this text by a script that says this, if anything is."""
    texts = [record.text for record in records]
    if texts and texts[0] != start:
        return "the first record isn't the input's"
    if len(set(texts)) < len(texts):
        return "a text has two records"
    for number, record in enumerate(records, 1):
        if record.yes != says_yes(record.text):
            return f"record {number} has another verdict than the script's"
    return None


def has_lines_of(text, start):
    """Whether the text is some of the start's lines in their order."""
    rest = iter(start.splitlines(keepends=True))
    return all(line in rest for line in text.splitlines(keepends=True))
