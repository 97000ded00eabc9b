"""`EOF` where Perses doesn't take it. It derives nothing, so that without it more texts are derived."""
from .tree import Block, Leaf, bodies_of, elements_of, first_word, names_in, optional, place_of, set_alternatives


def is_end(element):
    return isinstance(element.atom, Leaf) and element.atom.word.text == "EOF"


def without_ends(grammar, notes):
    """Drops `EOF` in lexer rules, and in parser rules but at the end of an alternative of the start or of an unused rule."""
    used = {word.text for rule in grammar.parser_rules() for word in names_in(rule.body)}
    start = next((rule for rule in grammar.rules if not rule.is_lexer), None)
    for rule in grammar.rules:
        may_end = not rule.is_lexer and (rule is start or rule.name.text not in used)
        text = "EOF dropped (more texts are matched)" if rule.is_lexer else "EOF dropped (more texts are derived)"
        for body in bodies_of(rule.body):
            drop_ends(body, body is rule.body and may_end, lambda place, text=text: notes.add(place, text))
        for element in list(elements_of(rule.body)):
            make_optional(element)


def drop_ends(body, may_end, note):
    """Drops `EOF` in the alternatives of one body."""
    for alternative in body.alternatives:
        last = len(alternative.elements) - 1
        kept = []
        for number, element in enumerate(alternative.elements):
            if not is_end(element) or may_end and number == last and element.is_plain:
                kept.append(element)
            else:
                note(place_of(element))
        if len(kept) < len(alternative.elements):
            alternative.elements = kept
            alternative.dropped_end = True


def make_optional(element):
    """A block one of whose alternatives was `EOF` alone is one that may be left out."""
    if not isinstance(element.atom, Block):
        return
    body = element.atom.body
    full = [part for part in body.alternatives if part.elements or not part.dropped_end]
    if len(full) == len(body.alternatives) or not full:
        return
    set_alternatives(body, full)
    made = optional(element, first_word(element.atom))
    element.suffix = made.suffix
