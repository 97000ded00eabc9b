"""Loops over what can be empty, tokens that can be empty, and recursion that can add nothing.

`(x? y?)*` derives what `(x | y)*` does. Where a loop is over a rule that can be empty, that rule is written so that it
can't, and its uses become optional.
"""
from .notes import Notes
from .printing import element_words
from .tree import Alternative, Block, Body, Element, Leaf, Rule
from .tree import bodies_of, block_of, copied, first_word, free_name, name_of, optional, set_alternatives


class Emptiness:
    """Which parser rules derive the empty text, and which of them something else."""

    is_lexer = False

    def __init__(self, rules):
        self.empty = set()
        self.full = set()
        changed = True
        while changed:
            changed = False
            for rule in reversed(rules):
                changed |= self.see(rule)

    def see(self, rule):
        name = rule.name.text
        found = False
        if name not in self.empty and any(self.is_empty(part.elements) for part in rule.body.alternatives):
            self.empty.add(name)
            found = True
        if name not in self.full and any(self.is_full(part.elements) for part in rule.body.alternatives):
            self.full.add(name)
            found = True
        return found

    def is_empty(self, elements):
        """Whether all of the elements can be empty."""
        return all(self.can_be_empty(element) for element in elements)

    def can_be_empty(self, element):
        return element.suffix is not None and element.suffix.text != "+" or self.atom_can_be_empty(element)

    def atom_can_be_empty(self, element):
        if isinstance(element.atom, Block):
            return any(self.is_empty(part.elements) for part in element.atom.body.alternatives)
        name = name_of(element)
        return name == "EOF" or name in self.empty and not element.sure

    def is_full(self, elements):
        """Whether one of the elements can be something."""
        return any(self.can_be_full(element) for element in elements)

    def can_be_full(self, element):
        if isinstance(element.atom, Block):
            return any(self.is_full(part.elements) for part in element.atom.body.alternatives)
        name = name_of(element)
        if name is None or name[0].isupper() and name != "EOF" and not self.is_lexer:
            return True
        return name in self.full


class LexerEmptiness(Emptiness):
    """The same of lexer rules, in which upper names are rules too."""

    is_lexer = True


class LoopWriter:
    """Writes the rules of one kind so that no loop is over what can be empty."""

    def __init__(self, grammar, rules, emptiness, notes):
        self.grammar = grammar
        self.rules = rules
        self.notes = notes
        self.emptiness = emptiness
        self.written = {}  # names of rules that are written so that they can't be empty, in the order in which that was seen
        self.changed = False

    def note(self, place, text):
        self.notes.add(place, text)
        self.changed = True

    def write(self):
        """Does so once, and says whether that changed something."""
        for rule in self.rules:
            for body in bodies_of(rule.body):
                for alternative in body.alternatives:
                    self.write_loops(alternative)
            if not rule.is_lexer:
                self.write_recursion(rule)
            elif not rule.is_fragment and rule.name.text in self.emptiness.empty:
                self.need(rule.name.text)
        by_name = {rule.name.text: rule for rule in self.rules}
        waiting = list(self.written)
        while waiting:
            before = len(self.written)
            self.write_rule(by_name[waiting.pop()])
            waiting += list(self.written)[before:] if len(self.written) > before else []
        for rule in self.rules:
            self.make_uses_optional(rule)
        return self.changed

    def need(self, name):
        self.written.setdefault(name)

    # Loops

    def write_loops(self, alternative):
        kept = []
        for element in alternative.elements:
            if element.loops and self.emptiness.atom_can_be_empty(element):
                element = self.loop_over_parts(element)
            if element:
                kept.append(element)
        alternative.elements = kept

    def loop_over_parts(self, element):
        """The loop over the parts of its operand that aren't empty."""
        word = first_word(element.atom)
        parts = distinct(self.parts(Element(element.atom)))
        if not parts:
            self.note(word.place, "loop over what is empty dropped")
            return None
        self.note(word.place, "loop over what can be empty made one over its parts")
        star = element.suffix.made("symbol", "*", "")
        if len(parts) == 1 and len(parts[0].elements) == 1 and parts[0].elements[0].is_plain:
            made = Element(parts[0].elements[0].atom, element.label, star, sure=parts[0].elements[0].sure)
        else:
            made = Element(block_of(word, parts), element.label, star)
        first_word(made.atom).lead = word.lead
        return made

    def parts(self, element):
        """The alternatives that a loop over an element consists of, none of which is empty."""
        if not self.emptiness.atom_can_be_empty(element):
            return [Alternative([Element(element.atom)])]
        if not isinstance(element.atom, Block):
            return self.name_parts(element)
        found = []
        for alternative in element.atom.body.alternatives:
            if self.emptiness.is_empty(alternative.elements):
                for part in alternative.elements:
                    found += self.parts(part)
            else:
                found.append(Alternative(alternative.elements))
        return found

    def name_parts(self, element):
        name = name_of(element)
        if name not in self.emptiness.full:
            return []
        self.need(name)
        return [Alternative([Element(element.atom, sure=True)])]

    # Sequences that aren't empty

    def full_alternatives(self, alternatives):
        """Alternatives for the same texts but the empty one."""
        found = []
        for alternative in alternatives:
            if not self.emptiness.is_empty(alternative.elements):
                found.append(alternative)
                continue
            for number, element in enumerate(alternative.elements):
                full = self.full_element(element)
                if full:
                    rest = copied(alternative.elements[number + 1 :])
                    others = copied([alternative.options, alternative.name, alternative.arrow, alternative.commands])
                    found.append(Alternative([full, *rest], *others))
        return distinct(found)

    def full_element(self, element):
        """The element where it isn't empty, or None."""
        if element.loops:
            made = copied(element)
            made.suffix = element.suffix.made("symbol", "+", "")
            return made
        if not self.emptiness.atom_can_be_empty(element):
            return Element(copied(element.atom), copied(element.label))
        if isinstance(element.atom, Block):
            inner = self.full_alternatives(element.atom.body.alternatives)
            return Element(block_of(element.atom.opens, copied(inner))) if inner else None
        name = name_of(element)
        if name not in self.emptiness.full:
            return None
        self.need(name)
        return Element(copied(element.atom), copied(element.label), sure=True)

    def write_rule(self, rule):
        name = rule.name.text
        full = self.full_alternatives(rule.body.alternatives)
        if not full:
            self.notes.cannot(rule.place, f"{name} is only ever empty")
            return
        set_alternatives(rule.body, full)
        if rule.is_lexer and not rule.is_fragment:
            self.note(rule.place, f"token {name} made one that can't be empty")
        else:
            self.note(rule.place, f"rule {name} made one that can't be empty, its uses optional")

    def make_uses_optional(self, rule):
        for body in bodies_of(rule.body):
            for alternative in body.alternatives:
                alternative.elements = [self.use(element) for element in alternative.elements]

    def use(self, element):
        """A use of a rule that could be empty, which is now optional; those where it wasn't stay."""
        if name_of(element) in self.written and not element.sure:
            return optional(element, element.atom.word)
        element.sure = False
        return element

    # Recursion

    def write_recursion(self, rule):
        """Alternatives that begin with their own rule add something to it."""
        kept = []
        for alternative in rule.body.alternatives:
            if not begins_with(alternative, rule.name.text) or not self.emptiness.is_empty(alternative.elements[1:]):
                kept.append(alternative)
                continue
            self.note(rule.place, f"recursion of {rule.name.text} that can add nothing made one that adds something")
            for rest in self.full_alternatives([Alternative(alternative.elements[1:])]):
                first = copied(alternative.elements[0])
                kept.append(Alternative([first, *rest.elements], copied(alternative.options), copied(alternative.name)))
        if not kept:
            self.notes.cannot(rule.place, f"{rule.name.text} has no alternative that begins otherwise than with itself")
        elif len(kept) != len(rule.body.alternatives) or any(a is not b for a, b in zip(kept, rule.body.alternatives)):
            set_alternatives(rule.body, kept)


def distinct(alternatives):
    """The alternatives without those that are written like an earlier one."""
    found = {}
    for alternative in alternatives:
        found.setdefault(tuple(word.text for element in alternative.elements for word in element_words(element)), alternative)
    return list(found.values())


def begins_with(alternative, name):
    """Whether an alternative begins with this rule, without a suffix."""
    elements = alternative.elements
    return bool(elements) and elements[0].is_plain and name_of(elements[0]) == name


def without_empty_loops(grammar, notes):
    """Changes all loops over what can be empty, until there is none."""
    keep_start(grammar, notes)
    lexer = grammar.lexer_rules()
    parser = grammar.parser_rules()
    while LoopWriter(grammar, lexer, LexerEmptiness(lexer), notes).write() and not notes.failed:
        pass
    while LoopWriter(grammar, parser, Emptiness(parser), notes).write() and not notes.failed:
        pass


def keep_start(grammar, notes):
    """A start that can be empty and is looped over has its empty text in a rule of its own before it."""
    rules = grammar.parser_rules()
    if not rules:
        return
    start = rules[0]
    emptiness = Emptiness(rules)
    if start.name.text not in emptiness.empty or not is_needed(grammar, rules, emptiness, start.name.text):
        return
    word = start.name
    name = free_name(grammar, word.text + "_start")
    use = Element(Leaf(word.made("name", word.text)))
    first = (start.before or [start.name])[0]
    made = Rule([], word.made("name", name, first.lead), [], word.made("symbol", ":"), Body([Alternative([use])], []), word.made("symbol", ";"))
    first.lead = "\n"
    grammar.rules.insert(grammar.rules.index(start), made)
    notes.add(start.place, f"{name} is the new start, since {word.text} is used in a loop and can be empty")


def is_needed(grammar, rules, emptiness, name):
    """Whether the rules could only be written with one of this name that isn't empty; tried on a copy."""
    tried = copied(rules)
    writer = LoopWriter(grammar, tried, emptiness, Notes([""]))
    writer.write()
    return name in writer.written
