"""Non-greedy loops. In a parser rule they derive what greedy ones do. In a lexer rule Perses takes one at the end of an
alternative before one literal or set; others are written out, where what follows says where they end."""
from .characters import common, literal_codes, union, without
from .islands import set_atom, up_to, up_to_character
from .matching import Firsts, single
from .tree import Alternative, Block, Body, Element, Leaf, Not, copied, elements_of, first_word, names_in, place_of


def greedy_parser(grammar, notes):
    """Makes the loops of parser rules greedy."""
    for rule in grammar.parser_rules():
        for element in elements_of(rule.body):
            if element.lazy:
                element.lazy = None
                notes.add(place_of(element), "non-greedy suffix made greedy (the same texts are derived)")


class LexerLoops:
    """The non-greedy loops of the lexer rules."""

    def __init__(self, grammar, notes):
        self.notes = notes
        self.rules = {rule.name.text: rule for rule in grammar.lexer_rules()}
        self.firsts = Firsts(grammar.lexer_rules())
        self.used = {word.text for rule in grammar.lexer_rules() for word in names_in(rule.body)}

    def write_out(self):
        for rule in self.rules.values():
            for alternative in rule.body.alternatives:
                self.sequence(rule, alternative, True, ([], True))

    def sequence(self, rule, alternative, is_top, after):
        """Writes out the loops of a sequence from its end on; `after` is what the characters after it can be."""
        at = len(alternative.elements) - 1
        while at >= 0:
            element = alternative.elements[at]
            follow = self.follow(alternative.elements[at + 1 :], after)
            if element.lazy and not self.is_native(rule, alternative, at, is_top):
                alternative.elements[at:] = self.loop(rule, element, alternative.elements[at + 1 :], follow)
            if isinstance(element.atom, Block):
                self.block(rule, element, follow)
            at -= 1

    def block(self, rule, element, follow):
        if element.loops:
            inner, _ = self.firsts.of_atom(element.atom)
            follow = (union(follow[0], inner), follow[1])
        for inner in element.atom.body.alternatives:
            self.sequence(rule, inner, False, follow)

    def follow(self, elements, after):
        firsts, empty = self.firsts.of_sequence(elements)
        return (union(firsts, after[0]), after[1]) if empty else (firsts, False)

    def is_native(self, rule, alternative, at, is_top):
        """Whether Perses takes this loop, once its operand is a set or `.` and what follows one set or literal."""
        rest = alternative.elements[at + 1 :]
        if not is_top or rule.is_fragment or rule.name.text in self.used or self.has_other_loop(alternative, at):
            return False
        element = alternative.elements[at]
        if element.suffix.text != "*" or not rest:
            return False
        element.atom = unwrapped(element.atom)
        rest = self.merged(self.without_covered(element, rest))
        alternative.elements[at + 1 :] = rest
        is_end = len(rest) == 1 and rest[0].is_plain and is_literal_or_set(rest[0].atom)
        return is_end and is_set_or_any(element.atom)

    def has_other_loop(self, alternative, at):
        own = alternative.elements[at]
        return any(element.lazy for element in elements_of(Body([alternative], [])) if element is not own)

    def without_covered(self, element, rest):
        """Leaves out optional parts after a loop whose characters the loop takes as well."""
        taken = single(element.atom, self.rules)
        while len(rest) > 1 and rest[0].suffix and rest[0].suffix.text in "?*" and taken:
            inner = single(rest[0].atom, self.rules)
            if inner is None or without(inner, taken):
                break
            self.notes.add(place_of(rest[0]), "optional part after a non-greedy loop dropped (the loop takes it)")
            rest = rest[1:]
        return rest

    def merged(self, rest):
        """Writes alternatives of single characters after a loop as one set."""
        if len(rest) == 1 and rest[0].is_plain and isinstance(rest[0].atom, Block):
            ranges = single(rest[0].atom, self.rules)
            atom = unwrapped(rest[0].atom)
            if ranges and not isinstance(atom, Leaf):
                atom = set_atom(rest[0].atom.opens, ranges)
                self.notes.add(place_of(rest[0]), "characters after a non-greedy loop written as one set")
            return [Element(atom)] if ranges else rest
        return rest

    # What Perses doesn't take

    def loop(self, rule, element, rest, follow):
        """The elements for a loop and what follows it."""
        place = place_of(element)
        firsts, _ = self.firsts.of_atom(element.atom)
        if element.suffix.text == "?" or not follow[1] and not common(firsts, follow[0]):
            element.lazy = None
            self.notes.add(place, "non-greedy loop made greedy (what follows can't begin like it)")
            return [element, *rest]
        if element.suffix.text == "+":
            element.suffix = element.suffix.made("symbol", "*", "")
            self.notes.add(place, "non-greedy + written as its operand and a loop")
            return [Element(copied(element.atom)), *self.loop(rule, element, rest, follow)]
        rest = self.without_covered(element, rest)
        for way in (self.up_to_end, self.up_to_single, self.up_to_texts):
            made = way(rule, element, rest)
            if made is not None:
                self.notes.add(place, "non-greedy loop written out")
                return made
        self.notes.cannot(place, f"this non-greedy loop in {rule.name.text} can't be written out")
        return [element, *rest]

    def up_to_end(self, rule, element, rest):
        """A loop up to the end of the text is greedy; one that ends a token matches nothing."""
        if rest and is_end_of_text(rest[0].atom):
            element.lazy = None
            return [element, *rest]
        is_top = any(part is element for alternative in rule.body.alternatives for part in alternative.elements)
        return [] if not rest and is_top and not rule.is_fragment else None

    def up_to_single(self, _, element, rest):
        """A loop up to one character. An escape sequence in it comes before the single characters, and what begins with
        the character that ends the loop never comes, but in a mode, where the longest match counts."""
        ends = single(rest[0].atom, self.rules) if rest and rest[0].is_plain else None
        if ends is None:
            return None
        parts = element.atom.body.alternatives if isinstance(element.atom, Block) else [Alternative([Element(element.atom)])]
        singles = []
        for part in parts:
            singles = union(singles, self.single_of(part) or [])
        escapes, others = {}, []
        for part in [part for part in parts if self.single_of(part) is None]:
            firsts, _ = self.firsts.of_sequence(part.elements)
            if not element.longest and not without(firsts, ends):
                continue
            if not common(firsts, singles):
                others.append(part.elements)
            elif not self.add_escapes(escapes, part.elements):
                return None
        return [*up_to_character(element.suffix, singles, escapes, others, ends), *rest[1:]]

    def single_of(self, part):
        plain = len(part.elements) == 1 and part.elements[0].is_plain
        return single(part.elements[0].atom, self.rules) if plain else None

    def add_escapes(self, escapes, elements, depth=0):
        """Adds what a sequence takes after its first character, or says that it isn't an escape sequence."""
        if len(elements) == 1 and elements[0].is_plain and depth < 20:
            inner = self.inner_alternatives(elements[0].atom)
            if inner is not None:
                return all(self.add_escapes(escapes, part.elements, depth + 1) for part in inner)
        sets = self.sets_of(elements)
        if len(sets) < 2 or sum(last - first + 1 for first, last in sets[0]) > 20:
            return False
        for code in [code for first, last in sets[0] for code in range(first, last + 1)]:
            escapes[code] = union(escapes.get(code, []), sets[1])
        return True

    def inner_alternatives(self, atom):
        """The alternatives of a block or of a fragment."""
        if isinstance(atom, Block):
            return atom.body.alternatives
        if isinstance(atom, Leaf) and atom.word.kind == "name" and atom.word.text in self.rules:
            return self.rules[atom.word.text].body.alternatives
        return None

    def sets_of(self, elements):
        """The sets of the first two characters of a sequence, as far as each is one character."""
        sets = []
        for element in elements:
            if not element.is_plain:
                break
            if isinstance(element.atom, Leaf) and element.atom.word.kind == "literal":
                sets += [[(code, code)] for code in literal_codes(element.atom.word.text)[0]]
            else:
                sets.append(single(element.atom, self.rules))
        return sets[:2] if None not in sets[:2] else []

    def up_to_texts(self, _, element, rest):
        """A loop of single characters up to one of some literals, or the end of the text."""
        allowed = single(element.atom, self.rules)
        if allowed is None or not rest or not rest[0].is_plain:
            return None
        texts, may_end = self.texts(rest[0].atom, allowed)
        if not texts or may_end and len(rest) > 1:
            return None
        return [*up_to(element.suffix, texts, allowed, may_end), *rest[1:]]

    def texts(self, atom, allowed):
        """The literals that an atom consists of, and whether the end of the text is one; nothing if it is something else."""
        if isinstance(atom, Leaf) and atom.word.kind == "literal":
            return [literal_codes(atom.word.text)[0]], False
        if not isinstance(atom, Block):
            return [], False
        found, may_end = [], False
        for alternative in atom.body.alternatives:
            elements = self.without_taken(alternative.elements, allowed)
            if len(elements) != 1 or not elements[0].is_plain:
                return [], False
            if is_end_of_text(elements[0].atom):
                may_end = True
                continue
            more, ends = self.texts(elements[0].atom, allowed)
            if not more:
                return [], False
            found, may_end = found + more, may_end or ends
        return found, may_end

    def without_taken(self, elements, allowed):
        """The elements without optional ones at their start whose characters the loop takes as well."""
        while len(elements) > 1 and elements[0].suffix and elements[0].suffix.text in "?*":
            inner = single(elements[0].atom, self.rules)
            if inner is None or without(inner, allowed):
                break
            elements = elements[1:]
        return elements


def unwrapped(atom):
    """What a block of one atom has in it."""
    lead = first_word(atom).lead
    while isinstance(atom, Block) and len(atom.body.alternatives) == 1:
        elements = atom.body.alternatives[0].elements
        if len(elements) != 1 or not elements[0].is_plain:
            break
        atom = elements[0].atom
        first_word(atom).lead = lead
    return atom


def is_literal_or_set(atom):
    return isinstance(atom, Leaf) and atom.word.kind in ("literal", "set")


def is_set_or_any(atom):
    return isinstance(atom, Not) or isinstance(atom, Leaf) and (atom.word.kind == "set" or atom.word.text == ".")


def is_end_of_text(atom):
    return isinstance(atom, Leaf) and atom.word.text == "EOF"
