"""`caseInsensitive`: literals and sets of lexer rules written out in both cases, and literals of parser rules as tokens."""
from .characters import in_any_case, literal_codes, other_cases, printed_literal, printed_set
from .commands import aliases
from .matching import single
from .tree import Alternative, Body, Element, Leaf, Not, Range, Rule, block_of, bodies_of, free_name, leaves_of


def both_cases(grammar, notes):
    name_literals(grammar, notes)
    for rule in grammar.lexer_rules():
        if rule.ignores_case:
            changed = [write_alternative(part) for body in bodies_of(rule.body) for part in body.alternatives]
            if any(changed):
                notes.add(rule.place, f"{rule.name.text} written in both cases")


def write_alternative(alternative):
    """Writes an alternative in both cases, and says whether that changed it."""
    made = []
    for element in alternative.elements:
        made += in_both_cases(element)
    changed = len(made) != len(alternative.elements) or any(a is not b for a, b in zip(made, alternative.elements))
    alternative.elements = made
    return changed


def in_both_cases(element):
    """The elements for one element in both cases: itself, where it has no letters."""
    atom = element.atom
    if isinstance(atom, Leaf) and atom.word.kind == "literal":
        return literal_elements(element)
    if isinstance(atom, Not):
        ranges = single(atom.inner)
        made = ranges is not None and Not(atom.tilde, Leaf(atom.tilde.made("set", printed_set(in_any_case(ranges)), "")))
    elif isinstance(atom, Range) or isinstance(atom, Leaf) and atom.word.kind == "set":
        ranges = single(atom)
        word = atom.first if isinstance(atom, Range) else atom.word
        made = Leaf(word.made("set", printed_set(in_any_case(ranges)), word.lead))
    else:
        return [element]
    if not made or in_any_case(ranges) == ranges:
        return [element]
    return [Element(made, element.label, element.suffix, element.lazy)]


def literal_elements(element):
    word = element.atom.word
    codes, _ = literal_codes(word.text)
    if not any(other_cases(code) for code in codes):
        return [element]
    made = []
    plain = []
    for code in codes:
        if other_cases(code):
            made += plain_literal(word, plain)
            plain = []
            text = printed_set(in_any_case([(code, code)]))
            made.append(Element(Leaf(word.made("set", text))))
        else:
            plain.append(code)
    made += plain_literal(word, plain)
    made[0].atom.word.lead = word.lead
    if element.suffix is None:
        return made
    atom = made[0].atom if len(made) == 1 else block_of(word, [made])
    return [Element(atom, element.label, element.suffix, element.lazy)]


def plain_literal(word, codes):
    return [Element(Leaf(word.made("literal", printed_literal(codes))))] if codes else []


def name_literals(grammar, notes):
    """Literals of parser rules as the names of their tokens, where these are written in both cases."""
    names = aliases(grammar)
    by_name = {rule.name.text: rule for rule in grammar.lexer_rules()}
    made = {}
    for rule in grammar.parser_rules():
        for leaf in leaves_of(rule.body):
            word = leaf.word
            codes = tuple(literal_codes(word.text)[0]) if word.kind == "literal" else ()
            if not any(other_cases(code) for code in codes):
                continue
            if codes in names and not by_name[names[codes]].ignores_case:
                continue
            if codes in names or grammar.ignores_case:
                leaf.word = word.made("name", names.get(codes) or token(grammar, made, codes, word, notes), word.lead)


def token(grammar, made, codes, word, notes):
    """The name of the token of a literal without a lexer rule, for which a rule is written before the others."""
    folded = "".join(map(chr, codes)).lower()
    if folded in made:
        return made[folded]
    for codes_of_other, name in aliases(grammar).items():
        if "".join(map(chr, codes_of_other)).lower() == folded:
            return name
    plain = "".join(c if c.isascii() and c.isalnum() else "_" for c in folded).upper()
    name = free_name(grammar, plain if plain[0].isalpha() else "T_" + plain)
    body = Body([Alternative([Element(Leaf(word.made("literal", word.text)))])], [])
    rule = Rule([], word.made("name", name, "\n"), [], word.made("symbol", ":"), body, word.made("symbol", ";"), ignores_case=True)
    place = next((at for at, other in enumerate(grammar.rules) if other.is_lexer), len(grammar.rules))
    grammar.rules.insert(place + len(made), rule)
    made[folded] = name
    notes.add(word.place, f"token {name} made for the literal {word.text}")
    return name
