"""Lists in place of alternatives (`--lists`), so that more can be deleted: the same texts are derived.

`'[' ']' | '[' list ']'` becomes `'[' list? ']'`, and `list : item ',' list | item` becomes `list : item (',' item)*`.
"""
from .empties import Emptiness, begins_with
from .printing import element_words
from .tree import Alternative, bodies_of, copied, first_word, grouped, lead_of, name_of, optional, set_alternatives


def with_lists(grammar, notes):
    for rule in grammar.parser_rules():
        for body in bodies_of(rule.body):
            merge_alternatives(rule, body, notes)
    emptiness = Emptiness(grammar.parser_rules())
    for rule in grammar.parser_rules():
        make_loop(rule, emptiness, notes)


def key(element):
    """The text of an element without its label."""
    return tuple(word.text for word in element_words(element)[len(element.label) :])


def merge_alternatives(rule, body, notes):
    """Writes two alternatives of which one has a part more as one, with that part optional."""
    changed = True
    while changed:
        changed = False
        for short in body.alternatives:
            long = next((part for part in body.alternatives if may_merge(rule, body, short, part)), None)
            if long:
                merge(rule, body, short, long, notes)
                changed = True
                break


def may_merge(rule, body, short, long):
    if len(short.elements) >= len(long.elements):
        return False
    if body is rule.body and (begins_with(short, rule.name.text) or begins_with(long, rule.name.text)):
        return False
    return added_part(short, long) is not None


def added_part(short, long):
    """Where the longer alternative has its part more: from this element up to before that one; None if it isn't so."""
    one, other = [key(part) for part in short.elements], [key(part) for part in long.elements]
    before = 0
    while before < len(one) and one[before] == other[before]:
        before += 1
    after = len(one) - before
    if one[before:] != other[len(other) - after :]:
        return None
    return before, len(other) - after


def merge(rule, body, short, long, notes):
    first, last = added_part(short, long)
    part = long.elements[first:last]
    word = first_word(part[0].atom)
    lead = lead_of(body)
    made = optional(part[0], word) if len(part) == 1 else grouped(word, part, "?")
    elements = [*long.elements[:first], made, *long.elements[last:]]
    merged = Alternative(elements, long.options or short.options, long.name or short.name)
    kept = [merged if other is long else other for other in body.alternatives if other is not short]
    set_alternatives(body, kept, lead)
    shown = " ".join(text for element in part for text in key(element))
    notes.add(first_word(elements[0].atom).place, f"two alternatives of {rule.name.text} written as one, in which {shown[:60]} is optional")


def make_loop(rule, emptiness, notes):
    """`r : x (s r)?` is `r : x (s x)*`, `r : x r?` is `r : x+`, and `r : (x r)?` is `r : x*`."""
    elements = rule.body.alternatives[0].elements
    if len(rule.body.alternatives) != 1 or not elements or begins_with(rule.body.alternatives[0], rule.name.text):
        return
    *start, last = elements
    separator = separator_of(last, rule.name.text)
    if separator is None or uses(start, rule.name.text) or uses(separator, rule.name.text):
        return
    if emptiness.is_empty(start or separator):
        return
    if start and separator:
        made = [*start, grouped(last.suffix, [*separator, *copied(start)], "*")]
    else:
        made = [grouped(last.suffix, start or separator, "+" if start else "*")]
    old = rule.body.alternatives[0]
    set_alternatives(rule.body, [Alternative(made, old.options, old.name)])
    notes.add(rule.place, f"recursion of {rule.name.text} at its end written as a loop")


def separator_of(element, name):
    """What is before the rule in an optional part that ends with it, or None."""
    if not element.suffix or element.suffix.text != "?":
        return None
    if name_of(element) == name:
        return []
    body = getattr(element.atom, "body", None)
    if body is None or len(body.alternatives) != 1:
        return None
    inner = body.alternatives[0].elements
    return inner[:-1] if inner and inner[-1].is_plain and name_of(inner[-1]) == name else None


def uses(elements, name):
    return any(word.text == name for element in elements for word in element_words(element))
