"""Makes one grammar of the files: imports are inlined, and the rules of a lexer follow those of its parser.

A pair is changed as one grammar too, and then parted again.
"""
from .notes import Fault
from .printing import comments_of
from .tree import drop_rules, first_of
from .words import COMMENT


def joined(grammars, notes):
    """The one grammar of all files, which imports and joins the others."""
    main, others = roots_of(grammars, notes)
    drop_vocabularies(grammars, notes)
    for grammar in others:
        join(main, grammar, notes)
    if main.vocabulary and main.kind == "parser" and not any(grammar.kind == "lexer" for grammar in others):
        notes.cannot(main.vocabulary.place, f"give the file of {main.vocabulary.text} too, which has the tokens")
    name_combined(main)
    report_same_names(main, notes)
    return main


def paired(grammars, notes):
    """The grammar of a parser with the rules of its lexer too, and the lexer's grammar, which gets them back by `parted`."""
    main, others = roots_of(grammars, notes)
    if main.kind != "parser" or [grammar.kind for grammar in others] != ["lexer"]:
        raise Fault(main.name.place, "a pair is a parser grammar and one lexer grammar")
    lexer = others[0]
    drop_vocabularies([grammar for grammar in grammars if grammar is not main], notes)
    drop_same(main, lexer, notes)
    main.rules += lexer.rules
    main.tokens += lexer.tokens
    report_same_names(main, notes)
    return main, lexer


def parted(main, lexer, notes):
    """The two grammars of a pair: the lexer with its rules, and the parser, whose vocabulary is the lexer."""
    for part in lexer.prequel:
        if part[0].text != "tokens":
            notes.add(part[0].place, "options dropped")
    lexer.prequel = [part for part in lexer.prequel if part[0].text == "tokens"]
    lexer.rules = main.lexer_rules()
    main.rules = main.parser_rules()
    main.prequel.insert(0, vocabulary_part(main.start[-1], lexer.name.text))
    return lexer, main


def vocabulary_part(word, name):
    """The options that name the vocabulary."""
    texts = [("options", "\n"), ("{", " "), ("tokenVocab", " "), ("=", " "), (name, " "), (";", ""), ("}", " ")]
    return [word.made("name" if text.isidentifier() else "symbol", text, lead) for text, lead in texts]


def drop_vocabularies(grammars, notes):
    """Says that these grammars name no vocabulary any more."""
    for grammar in grammars:
        if grammar.vocabulary:
            notes.add(grammar.vocabulary.place, f"option tokenVocab={grammar.vocabulary.text} dropped")


def roots_of(grammars, notes):
    """The grammar with the parser rules, and the others that none imports, each with its imports."""
    by_name = {grammar.name.text: grammar for grammar in grammars}
    imported = {name.text for grammar in grammars for name in grammar.imports}
    roots = [grammar for grammar in grammars if grammar.name.text not in imported] or grammars[:1]
    main = main_of(roots)
    for grammar in roots:
        inline(grammar, by_name, notes)
    return main, [grammar for grammar in roots if grammar is not main]


def main_of(roots):
    """The grammar with the parser rules."""
    parsers = [grammar for grammar in roots if grammar.kind != "lexer"]
    if not parsers:
        raise Fault(roots[0].name.place, "there is no parser rule; give the file of the parser too")
    if len(parsers) > 1:
        names = " and ".join(grammar.name.text for grammar in parsers[:2])
        raise Fault(parsers[1].name.place, f"two grammars with parser rules, {names}, of which none imports the other")
    return parsers[0]


def inline(grammar, by_name, notes):
    """Appends the rules of the imports, and of theirs, each grammar once. What is there already stays."""
    waiting = list(reversed(grammar.imports))
    seen = {grammar.name.text}
    while waiting:
        name = waiting.pop()
        other = by_name.get(name.text)
        if other is None:
            notes.cannot(name.place, f"give the file of {name.text} too, which is imported")
        elif name.text not in seen:
            seen.add(name.text)
            append(grammar, other, notes)
            notes.add(name.place, f"import of {name.text} inlined")
            waiting += reversed(other.imports)


def join(main, other, notes):
    append(main, other, notes)
    notes.add(other.name.place, f"{other.kind} grammar {other.name.text} joined to {main.name.text}")


def append(main, other, notes):
    """Appends the rules and the declared tokens of another grammar, but rules of a name that is there."""
    lead = heading(other, main) + "\n\n"
    drop_same(main, other, notes)
    for rule in other.rules:
        first = first_of(rule)
        first.lead = lead + first.lead.lstrip("\n") if lead else first.lead
        lead = ""
        main.rules.append(rule)
    declared = [part for part in other.prequel if part[0].text == "tokens"]
    for part in other.prequel:
        if part not in declared:
            notes.add(part[0].place, "options dropped")
    main.prequel += declared
    main.tokens += other.tokens


def drop_same(main, other, notes):
    """Drops the rules of another grammar whose names are there."""
    names = {rule.name.text for rule in main.rules}
    same = [rule for rule in other.rules if rule.name.text in names]
    for rule in same:
        notes.add(rule.place, f"rule {rule.name.text} dropped: there is one of this name already")
    drop_rules(other, same)


def heading(other, main):
    """The comments at the head of a file that is appended, after what is at the end of the file before it."""
    comments = comments_of([word for word in other.start if COMMENT.search(word.lead)])
    tail, main.end.lead = main.end.lead.rstrip("\n"), "\n"
    return tail + ("\n\n" if comments else "") + "\n".join(comments)


def name_combined(main):
    """A grammar of both is a plain `grammar`."""
    if main.kind == "parser":
        dropped = main.start.pop(0)
        main.start[0].lead = dropped.lead


def report_same_names(main, notes):
    seen = {}
    for rule in main.rules:
        if rule.name.text in seen:
            notes.cannot(rule.place, f"rule {rule.name.text} is there twice, first in line {notes.where(seen[rule.name.text].place)}")
        seen.setdefault(rule.name.text, rule)


def start_with(grammar, name):
    """Makes the rule of this name the first."""
    for rule in grammar.parser_rules():
        if rule.name.text == name:
            grammar.rules = [rule, *(other for other in grammar.rules if other is not rule)]
            return
    raise Fault(grammar.name.place, f"there is no parser rule {name}")
