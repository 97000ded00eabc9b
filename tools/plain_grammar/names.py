"""Names, literals and sets as Perses reads them: names in ASCII, no properties, no escapes that mean themselves."""
from .characters import NoCharacters, literal_codes, printed_literal, printed_set, set_ranges, unicode_version
from .printing import rule_words
from .tree import Block, Not, Range, elements_of


def plain_names(grammar, notes):
    """Writes names with letters outside of ASCII in ASCII."""
    for word in grammar_names(grammar):
        if not word.text.isascii():
            new = "".join(c if c.isascii() else f"_u{ord(c):X}" for c in word.text)
            new = new if new[0] != "_" else ("U" if word.text[0].isupper() else "u") + new
            notes.add(word.place, f"name {word.text} written as {new}")
            word.text = new


def grammar_names(grammar):
    words = [*grammar.start, *(word for part in grammar.prequel for word in part)]
    for rule in grammar.rules:
        words += rule_words(rule)
    return [word for word in words if word.kind == "name"]


def plain_characters(grammar, notes):
    """Writes literals and sets that Perses reads otherwise, or not at all, as ranges and characters."""
    for rule in grammar.rules:
        for word in rule_words(rule):
            if word.kind in ("literal", "set"):
                try:
                    plain_word(word, notes)
                except NoCharacters as fault:
                    notes.cannot(word.place, str(fault))
        if not notes.failed:
            check_ranges(rule, notes)


def check_ranges(rule, notes):
    """Reports ranges in parser rules, and those that aren't from one character to a later one."""
    for element in elements_of(rule.body):
        inner = element.atom.inner if isinstance(element.atom, Not) else element.atom
        parts = [inner]
        if isinstance(element.atom, Not) and isinstance(inner, Block):
            parts = [part.elements[0].atom for part in inner.body.alternatives]
        for part in parts:
            if isinstance(part, Range):
                check_range(rule, part, notes)


def check_range(rule, part, notes):
    first, last = (literal_codes(word.text)[0] for word in (part.first, part.last))
    if not rule.is_lexer:
        notes.cannot(part.first.place, "a range of characters in a parser rule")
    elif len(first) > 1 or len(last) > 1 or last < first:
        notes.cannot(part.first.place, f"{part.first.text}..{part.last.text} isn't a range from a character to a later one")


def plain_word(word, notes):
    if word.kind == "literal":
        codes, known = literal_codes(word.text)
        made = printed_literal(codes)
    else:
        ranges, known = set_ranges(word.text)
        made = printed_set(ranges)
    if known or made == word.text:
        return
    if "\\p{" in word.text.lower():
        notes.add(word.place, f"properties of {word.text[:40]} written as {len(ranges)} ranges (Unicode {unicode_version()})")
    else:
        notes.add(word.place, f"{word.text[:40]} written as {made[:40]}")
    word.text = made
