"""Commands of lexer rules: `skip` and `channel(HIDDEN)` are what Perses has, one for all alternatives of a rule."""
from .characters import literal_codes
from .tree import Block, Body, Element, Leaf, Not, Rule, block_of, body_of, elements_of, first_word, free_name, leaf, set_alternatives

GAPS = ("skip", "channel")
KNOWN = ("skip", "channel", "type", "more", "mode", "pushMode", "popMode")


def aliases(grammar):
    """For the characters of each literal that a lexer rule consists of, the name of the first such rule."""
    names = {}
    for rule in grammar.lexer_rules():
        parts = rule.body.alternatives
        if rule.is_fragment or len(parts) != 1 or len(parts[0].elements) != 1:
            continue
        element = parts[0].elements[0]
        if element.is_plain and isinstance(element.atom, Leaf) and element.atom.word.kind == "literal":
            names.setdefault(tuple(literal_codes(element.atom.word.text)[0]), rule.name.text)
    return names


def command_named(alternative, *names):
    return next((command for command in alternative.commands if command.name.text in names), None)


def set_command(alternative, command):
    """Leaves an alternative with one command or with none."""
    if command is None:
        alternative.arrow, alternative.commands = None, []
        return
    command.words = [word for word in command.words if word.text != ","]
    alternative.commands = [command]


def check_commands(grammar, notes):
    """Reports commands that aren't known, and drops those of fragments."""
    for rule in grammar.lexer_rules():
        for alternative in rule.body.alternatives:
            if rule.is_fragment and alternative.commands:
                notes.add(alternative.arrow.place, f"command of the fragment {rule.name.text} dropped")
                set_command(alternative, None)
            for command in alternative.commands:
                wants = command.name.text not in ("skip", "more", "popMode")
                if command.name.text not in KNOWN or wants != (command.argument is not None):
                    notes.cannot(command.name.place, f"command {command.name.text} isn't known so")
                    set_command(alternative, None)
                    break


def plain_channels(grammar, notes):
    """Makes all channels but the parser's own HIDDEN, and drops a channel where the token is skipped."""
    for rule in grammar.lexer_rules():
        for alternative in rule.body.alternatives:
            command = command_named(alternative, "channel")
            if command:
                plain_channel(alternative, command, notes)


def plain_channel(alternative, command, notes):
    channel = command.argument.text
    if channel in ("0", "DEFAULT_TOKEN_CHANNEL"):
        alternative.commands.remove(command)
        alternative.arrow = alternative.arrow if alternative.commands else None
        notes.add(command.name.place, f"channel({channel}) dropped: the parser's own")
    elif channel != "HIDDEN":
        command.argument.text = "HIDDEN"
        command.argument.kind = "name"
        notes.add(command.argument.place, f"channel {channel} made HIDDEN")


def split_rules(grammar, notes):
    """Splits rules whose alternatives have different commands, and drops `type`: tokens of a type are allowed beside it."""
    lexer_names, parser_names = {}, {}
    rules = []
    for rule in grammar.rules:
        parts = [rule]
        if rule.is_lexer:
            parts = split(grammar, rule, notes)
            if len(parts) > 1:
                lexer_names[rule.name.text] = [part.name.text for part in parts]
                parser_names[rule.name.text] = [part.name.text for part in parts if kind_of(part.body.alternatives[0]) == (False, None)]
        rules += parts
    grammar.rules = rules
    for rule in list(grammar.lexer_rules()):
        drop_type(grammar, rule, parser_names, notes)
    replace_names(grammar.lexer_rules(), lexer_names)
    by_literal = {codes: name for codes, name in aliases(grammar).items() if name in parser_names}
    replace_names(grammar.parser_rules(), {name: names for name, names in parser_names.items() if names}, by_literal)


def kind_of(alternative):
    """Whether the parser doesn't see the token, and the type that it gets, if it does."""
    if command_named(alternative, *GAPS):
        return True, None
    command = command_named(alternative, "type")
    return False, command.argument.text if command else None


def split(grammar, rule, notes):
    """The rules that a rule is split into: one for each run of alternatives of one kind, the plain one of its name."""
    runs = []
    for alternative in rule.body.alternatives:
        if runs and kind_of(runs[-1][-1]) == kind_of(alternative):
            runs[-1].append(alternative)
        else:
            runs.append([alternative])
    if rule.is_fragment or len(runs) == 1:
        return [rule]
    own = next((number for number, run in enumerate(runs) if kind_of(run[0]) == (False, None)), 0)
    parts = []
    for number, run in enumerate(runs):
        parts.append(rule if number == own else part_of(grammar, rule, run, number + (number < own) + 1))
    rule.body = Body(runs[own], [rule.name.made("symbol", "|") for _ in runs[own][1:]])
    notes.add(rule.place, f"rule {rule.name.text} split by its commands into {', '.join(part.name.text for part in parts)}")
    return parts


def part_of(grammar, rule, run, number):
    name = rule.name.made("name", free_name(grammar, f"{rule.name.text}_{number}"), "\n")
    made = Rule([], name, [], rule.name.made("symbol", ":"), body_of(rule.name, run), rule.name.made("symbol", ";"))
    made.mode, made.mode_place, made.ignores_case = rule.mode, rule.mode_place, rule.ignores_case
    return made


def drop_type(grammar, rule, parser_names, notes):
    """Drops `type(T)`: where the parser wants T, it takes this token too."""
    command = command_named(rule.body.alternatives[0], "type")
    if command is None:
        for alternative in rule.body.alternatives:
            set_command(alternative, command_named(alternative, *GAPS))
        return
    wanted = command.argument.text
    is_gap = command_named(rule.body.alternatives[0], *GAPS)
    for alternative in rule.body.alternatives:
        set_command(alternative, command_named(alternative, *GAPS))
    if is_gap or wanted == rule.name.text:
        return
    is_rule = any(other.name.text == wanted and not other.is_fragment for other in grammar.lexer_rules())
    names = parser_names.setdefault(wanted, [wanted] if is_rule else [])
    names.append(rule.name.text)
    notes.add(command.name.place, f"type({wanted}) dropped: {rule.name.text} is allowed where {wanted} is")


def replace_names(rules, names, literals=()):
    """Writes the alternatives of other names, or of one, in place of names and literals."""
    for rule in rules:
        for element in list(elements_of(rule.body)):
            if isinstance(element.atom, Leaf):
                element.atom = replaced(element.atom, names, literals)
            elif isinstance(element.atom, Not):
                replace_in_not(element.atom, names, literals)


def replace_in_not(negated, names, literals):
    """The same after `~`, where there is one block at most."""
    if not isinstance(negated.inner, Block):
        negated.inner = replaced(negated.inner, names, literals)
        first_word(negated.inner).lead = ""
        return
    flat = []
    for alternative in negated.inner.body.alternatives:
        element = alternative.elements[0]
        element.atom = replaced(element.atom, names, literals)
        flat += element.atom.body.alternatives if isinstance(element.atom, Block) else [alternative]
    if len(flat) > len(negated.inner.body.alternatives):
        set_alternatives(negated.inner.body, flat)


def replaced(atom, names, literals):
    if not isinstance(atom, Leaf):
        return atom
    word = atom.word
    name = word.text if word.kind == "name" else None
    if word.kind == "literal" and literals:
        name = literals.get(tuple(literal_codes(word.text)[0]))
    wanted = names.get(name)
    if not wanted:
        return atom
    if len(wanted) == 1:
        return Leaf(word.made("name", wanted[0], word.lead))
    made = block_of(word, [[Element(leaf(word, "name", text))] for text in wanted])
    made.opens.lead = word.lead
    return made
