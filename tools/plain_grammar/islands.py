"""Loops up to the first of some texts, written out as terms without a non-greedy loop.

An automaton follows how much of one of the texts was read last (Aho and Corasick 1975). Its states are taken out one
after another (Brzozowski and McCluskey 1963), which leaves one term for what is read from its start to an end.
"""
from .characters import common, complement, printed_literal, printed_set, union, without
from .printing import atom_words
from .tree import Block, Element, Leaf, Not, block_of, copied

END = -1


class Automaton:
    """The states are the beginnings of the texts, by number; `edges` has the characters from one to another."""

    def __init__(self, texts, allowed):
        self.texts = texts
        self.allowed = allowed
        self.states = sorted({text[:length] for text in texts for length in range(len(text))}, key=len)
        self.number = {state: number for number, state in enumerate(self.states)}
        self.edges = {}
        for state in self.states:
            self.add_edges(state)

    def add_edges(self, state):
        """Where each character leads: those of the texts by their longest end that is a beginning, others to the start."""
        named = sorted({code for text in self.texts for code in text})
        for code in named:
            target = self.target(state + (code,))
            if target is not None:
                self.add(self.number[state], target, [(code, code)])
        others = without(self.allowed, [(code, code) for code in named])
        if others and self.are_allowed(state):
            self.add(self.number[state], 0, others)

    def are_allowed(self, codes):
        """Whether the loop takes all of these characters."""
        return all(any(first <= code <= last for first, last in self.allowed) for code in codes)

    def target(self, read):
        """The state after what was read, or None where the loop doesn't take what is before the beginning of a text."""
        ends = [(start, read[start:]) for start in range(len(read) + 1)]
        if any(end in self.texts and self.are_allowed(read[:start]) for start, end in ends):
            return END
        start, end = next((start, end) for start, end in ends if end in self.number)
        return self.number[end] if self.are_allowed(read[:start]) else None

    def add(self, source, target, ranges):
        self.edges[source, target] = union(self.edges.get((source, target), []), ranges)


def up_to(word, texts, allowed, may_end):
    """The elements that match characters of a set up to the first of the texts, or, if that may be, up to the end of
    the input without one."""
    automaton = Automaton([tuple(text) for text in texts], allowed)
    edges = {pair: [[set_element(word, ranges)]] for pair, ranges in automaton.edges.items()}
    if may_end:
        for number, state in enumerate(automaton.states):
            if automaton.are_allowed(state):
                edges.setdefault((number, END), []).append([])
    for state in range(len(automaton.states) - 1, 0, -1):
        edges = without_state(word, edges, state)
    return shortened(repeated(word, edges.get((0, 0), [])) + one_of(word, edges[0, END]))


def shortened(elements):
    """The elements with `x x*` as `x+` and literals after one another as one, in blocks too."""
    made = []
    for element in elements:
        if isinstance(element.atom, Block):
            for part in element.atom.body.alternatives:
                part.elements = shortened(part.elements)
        last = made[-1] if made else None
        if last and last.is_plain and element.suffix and element.suffix.text == "*" and text_of(last) == text_of(element):
            last.suffix = element.suffix.made("symbol", "+", "")
        elif last and last.is_plain and element.is_plain and is_literal(last) and is_literal(element):
            last.atom.word.text = last.atom.word.text[:-1] + element.atom.word.text[1:]
        else:
            made.append(element)
    return made


def is_literal(element):
    return isinstance(element.atom, Leaf) and element.atom.word.kind == "literal"


def text_of(element):
    return "".join(word.text for word in atom_words(element.atom))


def up_to_character(word, singles, escapes, others, ends):
    """The elements that match single characters, escape sequences and other terms up to a character that ends them.
    An escape is a character and those that it takes with it; where another follows, it is a single character itself.
    States are the start, and one for each character that an escape begins with, after it."""
    singles = without(singles, ends)
    starts = sorted(escapes)
    plain = without(singles, [(code, code) for code in starts])
    edges = {(0, 0): [[set_element(word, plain)]] if plain else [], (0, END): [[set_element(word, ends)]]}
    edges[0, 0] += others
    for state, code in enumerate(starts, 1):
        edges[0, state] = [[set_element(word, [(code, code)])]]
        alone = common(singles, [(code, code)])
        add_set(word, edges, (state, 0), union(escapes[code], plain if alone else []))
        add_set(word, edges, (state, END), without(ends, escapes[code]) if alone else [])
        for other, following in enumerate(starts, 1):
            after = common(singles, [(following, following)]) if alone else []
            add_set(word, edges, (state, other), without(after, escapes[code]))
    for state in range(len(starts), 0, -1):
        edges = without_state(word, edges, state)
    return shortened(repeated(word, edges.get((0, 0), [])) + one_of(word, edges[0, END]))


def add_set(word, edges, pair, ranges):
    if ranges:
        edges.setdefault(pair, []).append([set_element(word, ranges)])


def without_state(word, edges, state):
    """The same automaton without a state: each way through it is an edge."""
    around = repeated(word, edges.get((state, state), []))
    ins = {source: terms for (source, target), terms in edges.items() if target == state != source}
    outs = {target: terms for (source, target), terms in edges.items() if source == state != target}
    kept = {pair: terms for pair, terms in edges.items() if state not in pair}
    for source, before in ins.items():
        for target, after in outs.items():
            terms = kept.setdefault((source, target), [])
            terms.append(copied(one_of(word, before) + around + one_of(word, after)))
    return kept


def repeated(word, terms):
    if not terms:
        return []
    if len(terms) == 1 and len(terms[0]) == 1 and terms[0][0].is_plain:
        return [Element(terms[0][0].atom, suffix=word.made("symbol", "*", ""))]
    return [Element(block_of(word, terms), suffix=word.made("symbol", "*", ""))]


def one_of(word, terms):
    """Elements for one of the terms; the empty one makes the others optional."""
    full = [term for term in terms if term]
    if not full:
        return []
    if len(terms) == 1:
        return list(terms[0])
    suffix = word.made("symbol", "?", "") if len(full) < len(terms) else None
    if len(full) == 1 and len(full[0]) == 1 and full[0][0].is_plain:
        return [Element(full[0][0].atom, suffix=suffix)]
    return [Element(block_of(word, full), suffix=suffix)]


def set_element(word, ranges):
    return Element(set_atom(word, ranges))


def set_atom(word, ranges):
    """A set of these characters, as what it leaves out where that is shorter; `.` for all, a literal for one."""
    left_out = complement(ranges)
    if not left_out:
        return Leaf(word.made("symbol", "."))
    if len(ranges) == 1 and ranges[0][0] == ranges[0][1]:
        return Leaf(word.made("literal", printed_literal([ranges[0][0]])))
    if len(left_out) == 1 and left_out[0][0] == left_out[0][1]:
        return Not(word.made("symbol", "~"), Leaf(word.made("literal", printed_literal([left_out[0][0]]), "")))
    if len(printed_set(left_out)) <= len(printed_set(ranges)):
        return Not(word.made("symbol", "~"), Leaf(word.made("set", printed_set(left_out), "")))
    return Leaf(word.made("set", printed_set(ranges)))
