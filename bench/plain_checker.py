"""A plain check of a finished run from its files, written from the documents and definitions, with which the program's is compared."""
from hashlib import sha256
from typing import NamedTuple

from histories import BadEvent, BadHead, Record, read_journal
from plain_reducer import Language, Layout, LineReduction, Parser, TreeReduction, lines_of


class Problem(NamedTuple):
    """What was reduced, and how; mode `lines` has no language."""

    start: bytes
    mode: str = "lines"
    language: Language = None
    keeps: tuple = ()
    squeeze: bool = False

    def reduction(self):
        if self.mode == "lines":
            return LineReduction(self.start, self.keeps)
        return TreeReduction(self.language, self.start, self.mode, self.keeps, self.squeeze)

    def may_be_asked(self, text):
        """Whether a text is a candidate."""
        if not all(keep in text for keep in self.keeps):
            return False
        return has_lines(self.start, text) if self.mode == "lines" else has_tokens(self.language, self.start.decode(), text)


def has_lines(start, text):
    """Whether a text is some of the start's lines in their order."""
    rest = iter(lines_of(start))
    return all(line in rest for line in lines_of(text))


def has_tokens(language, start, text):
    """Whether a text is in the language, and printed in some style of tokens of the start into which it is cut."""
    try:
        text = text.decode()
    except UnicodeDecodeError:
        return False
    spelled = language.spelled(text)
    if spelled is None or not Parser(language, [kind for kind, _ in spelled]).derives():
        return False
    layout = Layout(language, start)
    return any(is_printed(layout, text, spelled, squeezed) for squeezed in (False, True))


def is_printed(layout, text, spelled, squeezed):
    """Whether a text is printed of some tokens with these kinds and spellings. Token by token it is found where in the text the
    print can have come to, after which token of the start."""
    if not spelled:
        return text == layout.printed([], squeezed)
    reached = {(0, None)}
    for word in spelled:
        reached = {after for offset, last in reached for after in next_of(layout, text, word, offset, last, squeezed)}
    return any(text[offset:] == layout.after(last, squeezed) for offset, last in reached)


def next_of(layout, text, word, offset, last, squeezed):
    """The offsets after a token that is printed next, with its number."""
    for index in range(0 if last is None else last + 1, len(layout.tokens)):
        printed = layout.before(last, index, squeezed) + word[1]
        if layout.spelled[index] == word and text.startswith(printed, offset):
            yield offset + len(printed), index


def finding(problem, result, journal):
    """What is found of a run's result and journal: `yes`, or the first cause why not; or why the journal can't be read."""
    try:
        run = read_journal(journal)
    except BadHead:
        return "bad journal head"
    except BadEvent as bad:
        return f"bad journal at byte {bad.offset}"
    if run.torn:
        return "torn journal"
    if run.version == 2 and run.start != sha256(problem.start).hexdigest():
        return "other start"
    return wrong_event(problem, run.events) or wrong_record(problem, run.events) or end(problem, run.events, result)


def wrong_event(problem, events):
    """The first event that the reducer can't have after those before it, if there is one."""
    reducer = problem.reduction().run()
    asked, records = next(reducer), []
    for number, event in enumerate(events, 1):
        if isinstance(event, Record):
            if any(event.text == record.text for record in records):
                return f"event {number} is not legal"
            records.append(event)
            continue
        record = records[event.number - 1]
        if record.text != asked:
            return f"event {number} is not legal"
        asked = answered(reducer, record.yes)
    return None


def answered(reducer, yes):
    """What the reducer asks after this answer; None at its end."""
    try:
        return reducer.send(yes)
    except StopIteration:
        return None


def wrong_record(problem, events):
    """The first record whose text may not be asked, if there is one."""
    records = [event for event in events if isinstance(event, Record)]
    wrong = [number for number, record in enumerate(records, 1) if not problem.may_be_asked(record.text)]
    return f"record {wrong[0]} is not a candidate" if wrong else None


def end(problem, events, result):
    """What the reduction over the records comes to."""
    verdicts = {event.text: event.yes for event in events if isinstance(event, Record)}
    reduction = problem.reduction()
    reducer = reduction.run()
    asked = next(reducer)
    while asked is not None:
        if asked not in verdicts:
            return "unfinished"
        asked = answered(reducer, verdicts[asked])
    if reduction.refused:
        return "start is no"
    return "yes" if reduction.result == result else "other result"
