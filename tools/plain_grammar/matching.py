"""What lexer rules can match: which are empty, with which characters they begin, and which match one character alone."""
from .characters import ALL, complement, literal_codes, set_ranges, union
from .tree import Block, Leaf, Not, Range

NONE = ([], True)


def single(atom, rules=None, seen=()):
    """The characters of an atom that matches exactly one character, or None. Names are looked up in the rules, if given."""
    if isinstance(atom, Range):
        return [(literal_codes(atom.first.text)[0][0], literal_codes(atom.last.text)[0][0])]
    if isinstance(atom, Not):
        inner = single(atom.inner, rules, seen)
        return None if inner is None else complement(inner)
    if isinstance(atom, Block):
        return single_of_block(atom, rules, seen)
    word = atom.word
    if word.kind == "set":
        return set_ranges(word.text)[0]
    if word.kind == "literal":
        codes, _ = literal_codes(word.text)
        return [(codes[0], codes[0])] if len(codes) == 1 else None
    if word.kind == "symbol":
        return ALL
    return single_of_rule(word.text, rules, seen)


def single_of_block(block, rules, seen):
    found = []
    for alternative in block.body.alternatives:
        if len(alternative.elements) != 1 or not alternative.elements[0].is_plain:
            return None
        inner = single(alternative.elements[0].atom, rules, seen)
        if inner is None:
            return None
        found = union(found, inner)
    return found


def single_of_rule(name, rules, seen):
    """Of a rule's name; a chain of more than 20 rules isn't followed."""
    if rules is None or name not in rules or name in seen or len(seen) > 20:
        return None
    rule = rules[name]
    return single_of_block(Block(rule.name, rule.body, rule.end), rules, (*seen, name))


class Firsts:
    """For each lexer rule the characters that it can begin with, and whether it matches the empty text."""

    def __init__(self, rules):
        self.rules = {rule.name.text: ([], False) for rule in rules}
        changed = True
        while changed:
            changed = False
            for rule in reversed(rules):
                found = self.of_body(rule.body)
                if found != self.rules[rule.name.text]:
                    self.rules[rule.name.text] = found
                    changed = True

    def of_body(self, body):
        firsts, empty = [], False
        for alternative in body.alternatives:
            more, can_be_empty = self.of_sequence(alternative.elements)
            firsts, empty = union(firsts, more), empty or can_be_empty
        return firsts, empty

    def of_sequence(self, elements):
        firsts = []
        for element in elements:
            more, empty = self.of_element(element)
            firsts = union(firsts, more)
            if not empty:
                return firsts, False
        return firsts, True

    def of_element(self, element):
        firsts, empty = self.of_atom(element.atom)
        return firsts, empty or element.suffix is not None and element.suffix.text != "+"

    def of_atom(self, atom):
        if isinstance(atom, Block):
            return self.of_body(atom.body)
        if isinstance(atom, Leaf) and atom.word.kind == "name":
            return NONE if atom.word.text == "EOF" else self.rules.get(atom.word.text, ([], False))
        if isinstance(atom, Leaf) and atom.word.kind == "literal":
            code = literal_codes(atom.word.text)[0][0]
            return [(code, code)], False
        return single(atom) or [], False
