"""The tree of a grammar. Its leaves are words, so that what isn't changed prints as it was written."""
from dataclasses import dataclass, field
from typing import Optional, Union

from .words import COMMENT, Word, without_comments


@dataclass
class Leaf:
    """A literal, a name, a set or `.`."""

    word: Word


@dataclass
class Range:
    """`'a'..'z'`."""

    first: Word
    dots: Word
    last: Word


@dataclass
class Not:
    """`~` and what it leaves out: a leaf, a range, or a block of these."""

    tilde: Word
    inner: "Atom"


@dataclass
class Block:
    """Alternatives in brackets."""

    opens: Word
    body: "Body"
    closes: Word


Atom = Union[Leaf, Range, Not, Block]


@dataclass
class Element:
    """An atom with its label (`x=` or `x+=`), its suffix, and the `?` that makes the suffix non-greedy."""

    atom: Atom
    label: list = field(default_factory=list)
    suffix: Optional[Word] = None
    lazy: Optional[Word] = None
    sure: bool = False  # a use of a rule that can be empty, where it isn't
    longest: bool = False  # a non-greedy loop that goes on rather than ends, where it can do either

    @property
    def loops(self):
        return self.suffix is not None and self.suffix.text in "*+"

    @property
    def is_plain(self):
        return self.suffix is None


@dataclass
class Command:
    """A command of the lexer, as `skip` or `type(NAME)`."""

    name: Word
    argument: Optional[Word] = None
    words: list = field(default_factory=list)


@dataclass
class Alternative:
    elements: list
    options: list = field(default_factory=list)  # `<assoc=right>`
    name: list = field(default_factory=list)  # `# name`
    arrow: Optional[Word] = None
    commands: list = field(default_factory=list)
    dropped_end: bool = False  # an `EOF` was in it


@dataclass
class Body:
    """Alternatives, and the `|` before each but the first."""

    alternatives: list
    bars: list


@dataclass
class Rule:
    """A rule. Its head is the words before its `:` but for its name."""

    before: list
    name: Word
    head: list
    colon: Word
    body: Body
    end: Word
    mode: str = "DEFAULT_MODE"
    mode_place: tuple = (0, 0)
    ignores_case: bool = False
    comments: list = field(default_factory=list)

    @property
    def is_lexer(self):
        return self.name.text[0].isupper()

    @property
    def is_fragment(self):
        return any(word.text == "fragment" for word in self.before)

    @property
    def place(self):
        return self.name.place


@dataclass
class Grammar:
    """A grammar as it is read, and after joining the one that is changed and printed."""

    kind: str  # "combined", "lexer" or "parser"
    name: Word
    start: list  # the words up to the first `;`
    prequel: list  # lists of words that are printed as they are
    tokens: list  # names of declared tokens
    imports: list
    vocabulary: Optional[Word]
    ignores_case: bool
    rules: list
    end: Word

    def parser_rules(self):
        return [rule for rule in self.rules if not rule.is_lexer]

    def lexer_rules(self):
        return [rule for rule in self.rules if rule.is_lexer]


def elements_of(body):
    """All elements of a body, outer ones before inner ones."""
    waiting = list(reversed(body.alternatives))
    while waiting:
        alternative = waiting.pop()
        for element in alternative.elements:
            yield element
            if isinstance(element.atom, Block):
                waiting.extend(reversed(element.atom.body.alternatives))


def bodies_of(body):
    """The body and those of all its blocks, inner ones first."""
    found = [body]
    for element in elements_of(body):
        if isinstance(element.atom, Block):
            found.append(element.atom.body)
    return reversed(found)


def leaves_of(body):
    """All leaves, those after `~` too."""
    for element in elements_of(body):
        yield from leaves_of_atom(element.atom)


def leaves_of_atom(atom):
    if isinstance(atom, Leaf):
        yield atom
    elif isinstance(atom, Not):
        if isinstance(atom.inner, Block):
            yield from leaves_of(atom.inner.body)
        else:
            yield from leaves_of_atom(atom.inner)


def name_of(element):
    """The name that an element consists of, or None; its suffix isn't looked at."""
    if isinstance(element.atom, Leaf) and element.atom.word.kind == "name":
        return element.atom.word.text
    return None


def names_in(body):
    """The words of all names in a body, but `EOF`."""
    return [leaf.word for leaf in leaves_of(body) if leaf.word.kind == "name" and leaf.word.text != "EOF"]


def place_of(element):
    return first_word(element.atom).place


def first_word(atom):
    while not isinstance(atom, Leaf):
        if isinstance(atom, Range):
            return atom.first
        return atom.tilde if isinstance(atom, Not) else atom.opens
    return atom.word


def copied(node):
    """A copy of a part of a tree, without the comments in it. Blocks are at most 64 deep, so this may recurse."""
    if isinstance(node, Word):
        return node.copy()
    if isinstance(node, list):
        return [copied(part) for part in node]
    if hasattr(node, "__dataclass_fields__"):
        return type(node)(**{name: copied(getattr(node, name)) for name in node.__dataclass_fields__})
    return node


def leaf(word, kind, text):
    """A leaf at the place of a word."""
    return Leaf(word.made(kind, text))


def name_element(word, text):
    return Element(leaf(word, "name", text))


def bar(word):
    return word.made("symbol", "|")


def body_of(word, alternatives):
    """A body of these alternatives, each a list of elements or an alternative, at the place of a word."""
    made = [part if isinstance(part, Alternative) else Alternative(part) for part in alternatives]
    for part in made[1:]:
        if part.elements and not first_word_of(part).lead:
            first_word_of(part).lead = " "
    return Body(made, [bar(word) for _ in made[1:]])


def block_of(word, alternatives):
    """A block of these alternatives at the place of a word, with what is before its first word before the block."""
    body = body_of(word, alternatives)
    opens = word.made("symbol", "(")
    if body.alternatives[0].elements:
        first = first_word_of(body.alternatives[0])
        opens.lead, first.lead = first.lead or " ", ""
    return Block(opens, body, word.made("symbol", ")", ""))


def suffixed(word, atom, suffix):
    return Element(atom, suffix=word.made("symbol", suffix, ""))


def grouped(word, elements, suffix):
    """Elements with a suffix: in a block, if they are several or have one already."""
    if len(elements) == 1 and elements[0].is_plain:
        return suffixed(word, elements[0].atom, suffix)
    return suffixed(word, block_of(word, [elements]), suffix)


def optional(element, word):
    """The element, or nothing."""
    if element.is_plain:
        return Element(element.atom, element.label, word.made("symbol", "?", ""))
    if element.suffix.text == "+":
        return Element(element.atom, element.label, element.suffix.made("symbol", "*", ""))
    return element


def set_alternatives(body, alternatives, lead=None):
    """Puts other alternatives into a body, with as many bars as they need, and blanks before them as there were."""
    lead = lead_of(body) if lead is None else lead
    bars = body.bars[: max(0, len(alternatives) - 1)]
    if len(bars) < len(alternatives) - 1:
        last = bars[-1].copy() if bars else bar(next(first_word_of(part) for part in alternatives if part.elements))
        bars += [last.copy() for _ in range(len(alternatives) - 1 - len(bars))]
    for number, part in enumerate(alternatives):
        if part.elements and not part.options:
            first = first_word_of(part)
            first.lead = first.lead or " " if number else without_comments(lead) if first.lead.strip() == "" else first.lead
    body.alternatives, body.bars = alternatives, bars


def lead_of(body):
    """What is before the first word of a body."""
    first = body.alternatives[0] if body.alternatives else None
    if first and first.options:
        return first.options[0].lead
    if first and first.elements:
        return first_word_of(first).lead
    return body.bars[0].lead if body.bars else " "


def first_word_of(alternative):
    """The first word of an alternative with elements, but for its options."""
    element = alternative.elements[0]
    return element.label[0] if element.label else first_word(element.atom)


def drop_rules(grammar, dropped):
    """Takes rules out of a grammar. Their comments are then before the rule after them."""
    kept, lead = [], ""
    for rule in grammar.rules:
        if any(rule is other for other in dropped):
            lead += "".join(f"\n{comment}" for comment in [*COMMENT.findall(first_of(rule).lead), *rule.comments])
            continue
        if lead:
            first_of(rule).lead = lead + "\n" + first_of(rule).lead.lstrip("\n")
        kept.append(rule)
        lead = ""
    grammar.end.lead = lead + grammar.end.lead
    grammar.rules = kept


def first_of(rule):
    """The first word of a rule."""
    return (rule.before or [rule.name])[0]


def free_name(grammar, wanted):
    """The wanted name, or one with a number where that is taken."""
    taken = {rule.name.text for rule in grammar.rules} | {word.text for word in grammar.tokens}
    name = wanted
    number = 2
    while name in taken:
        name = f"{wanted}_{number}"
        number += 1
    return name
