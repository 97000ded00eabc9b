"""Prints a grammar: the words of its tree with their leads."""
import re

from .tree import Leaf, Not, Range
from .words import COMMENT

JOINS = re.compile(r"\w\w|\.\.|->|\+=|::|//|/\*|\*/")
OPENING = ("(", "~", "=", "+=", "..", "<", "->", "@", "::", "#", ".")


def atom_words(atom):
    if isinstance(atom, Leaf):
        return [atom.word]
    if isinstance(atom, Range):
        return [atom.first, atom.dots, atom.last]
    if isinstance(atom, Not):
        return [atom.tilde, *atom_words(atom.inner)]
    return [atom.opens, *body_words(atom.body), atom.closes]


def element_words(element):
    suffix = [word for word in (element.suffix, element.lazy) if word]
    return [*element.label, *atom_words(element.atom), *suffix]


def alternative_words(alternative):
    words = list(alternative.options)
    for element in alternative.elements:
        words += element_words(element)
    words += alternative.name
    if alternative.arrow:
        words.append(alternative.arrow)
        for command in alternative.commands:
            words += command.words
    return words


def body_words(body):
    words = []
    for number, alternative in enumerate(body.alternatives):
        if number:
            words.append(body.bars[number - 1])
        words += alternative_words(alternative)
    return words


def rule_words(rule):
    return [*rule.before, rule.name, *rule.head, rule.colon, *body_words(rule.body), rule.end]


def comments_of(words):
    return [comment for word in words for comment in COMMENT.findall(word.lead)]


def lost_comments(rule):
    """The comments that were in a rule when it was read, and are in it no more, each on a line of its own."""
    kept = comments_of(rule_words(rule))
    return "".join(f"\n{comment}" for comment in rule.comments if comment not in kept)


def grammar_words(grammar):
    words = list(grammar.start)
    for part in grammar.prequel:
        words += part
    for rule in grammar.rules:
        lost = lost_comments(rule)
        own = rule_words(rule)
        if lost:
            own[0].lead = lost + "\n" + own[0].lead.lstrip("\n")
        words += own
    return [*words, grammar.end]


def printed(grammar):
    """The text, and for each of its words the offset of its first byte and its place."""
    pieces = []
    places = []
    offset = 0
    last = None
    for word in grammar_words(grammar):
        lead = word.lead or (" " if last and wants_blank(last, word) else "")
        places.append((offset + len(lead.encode()), word.place))
        pieces.append(lead + word.text)
        offset += len(pieces[-1].encode())
        last = word if word.text else last
    return "".join(pieces), places


def wants_blank(last, word):
    """Whether two words need a blank between them: they would be one, or weren't beside each other in the source."""
    if not word.text or JOINS.fullmatch(last.text[-1] + word.text[0]):
        return word.text != ""
    if last.number != -1 and word.number == last.number + 1 and last.place[0] == word.place[0]:
        return False
    return last.text not in OPENING and (word.kind in ("name", "literal", "set") or word.text in "(~.|" or last.text == ":")
