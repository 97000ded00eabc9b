"""What the whole grammar has to keep: names that are known, tokens without recursion, blocks that aren't too deep."""
from .corners import groups
from .reading import DEEPEST
from .tree import Block, names_in


def known_names(grammar, notes):
    parser = {rule.name.text for rule in grammar.parser_rules()}
    lexer = {rule.name.text: rule for rule in grammar.lexer_rules()}
    declared = {word.text for word in grammar.tokens}
    tokens = {name for name, rule in lexer.items() if not rule.is_fragment} | declared
    missing = {}
    for rule in grammar.rules:
        for word in names_in(rule.body):
            if rule.is_lexer and word.text not in lexer or not rule.is_lexer and word.text[0].islower() and word.text not in parser:
                notes.cannot(word.place, f"there is no rule {word.text}")
            elif not rule.is_lexer and word.text[0].isupper() and word.text not in tokens:
                missing.setdefault(word.text, word)
    declare(grammar, missing, notes)


def declare(grammar, missing, notes):
    """Declares tokens that parser rules use without a lexer rule, as ANTLR does."""
    if not missing:
        return
    word = grammar.start[-1]
    part = [word.made("name", "tokens", "\n"), word.made("symbol", "{")]
    for number, (name, used) in enumerate(missing.items()):
        part += [word.made("symbol", ",", "")] if number else []
        part.append(word.made("name", name))
        notes.add(used.place, f"token {name} declared: there is no lexer rule for it")
    grammar.prequel.append([*part, word.made("symbol", "}")])
    grammar.tokens += missing.values()


def no_recursion(grammar, notes):
    """Reports lexer rules that use themselves, directly or through others."""
    lexer = {rule.name.text: {word.text for word in names_in(rule.body)} for rule in grammar.lexer_rules()}
    edges = {name: used & set(lexer) for name, used in lexer.items()}
    places = {rule.name.text: rule.place for rule in grammar.lexer_rules()}
    for group in groups(edges):
        if len(group) > 1 or group[0] in edges[group[0]]:
            notes.cannot(places[group[0]], f"{group[0]} uses itself, which a token can't: write its deepest use out by hand")


def no_deep_blocks(grammar, notes):
    """Reports blocks that are more than 64 deep in one another, as a change may have made them."""
    for rule in grammar.rules:
        waiting = [(rule.body, 0)]
        while waiting:
            body, depth = waiting.pop()
            if depth > DEEPEST:
                notes.cannot(rule.place, f"the blocks of {rule.name.text} would be more than {DEEPEST} deep in one another")
                break
            atoms = [element.atom for part in body.alternatives for element in part.elements]
            waiting += [(atom.body, depth + 1) for atom in atoms if isinstance(atom, Block)]
