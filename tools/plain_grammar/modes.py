"""Lexer modes. Perses has one mode: a mode that only goes on with a token (`more`) is written into that token, and others
are joined where no rule of one can be mistaken for a rule of another."""
from .characters import common, literal_codes, union, without
from .commands import aliases, command_named, kind_of, replace_names
from .islands import set_atom
from .matching import Firsts, single
from .printing import body_words
from .tree import Alternative, Block, Body, Element, Leaf, Rule, block_of, body_of, copied, drop_rules, first_of, grouped, suffixed

CHANGES = ("mode", "pushMode", "popMode")


def one_mode(grammar, notes):
    Islands(grammar, notes).write()
    join_modes(grammar, notes)
    for rule in grammar.lexer_rules():
        for alternative in rule.body.alternatives:
            drop_changes(rule, alternative, notes)


def drop_changes(rule, alternative, notes):
    """Drops what is left of commands that Perses doesn't have."""
    for command in [part for part in alternative.commands if part.name.text in (*CHANGES, "more")]:
        if command.name.text == "more":
            notes.cannot(command.name.place, f"`more` of {rule.name.text} has no plain meaning here")
        else:
            shown = command.name.text + (f"({command.argument.text})" if command.argument else "")
            notes.add(command.name.place, f"{shown} dropped: there is one mode")
        alternative.commands.remove(command)
    if not alternative.commands:
        alternative.arrow = None
    else:
        last = alternative.commands[-1]
        last.words = [word for word in last.words if word.text != ","]


def has(rule, name):
    """Whether all alternatives of a rule have a command."""
    return all(command_named(alternative, name) for alternative in rule.body.alternatives)


def has_change(rule):
    return any(command_named(alternative, *CHANGES) for alternative in rule.body.alternatives)


def target(rule):
    """The mode that a rule goes to, by its first alternative; None where it stays or goes back."""
    command = command_named(rule.body.alternatives[0], "mode", "pushMode")
    return command.argument.text if command else None


class Islands:
    """The modes that are entered by `more` alone, and in which all rules go on or end the token."""

    def __init__(self, grammar, notes):
        self.grammar = grammar
        self.notes = notes

    def write(self):
        rules = self.grammar.lexer_rules()
        for mode in dict.fromkeys(rule.mode for rule in rules):
            inside = [rule for rule in rules if rule.mode == mode and not rule.is_fragment]
            entries = [rule for rule in rules if target(rule) == mode and rule.mode != mode]
            if entries and inside and self.is_island(entries, inside):
                self.write_island(mode, entries, inside)

    def is_island(self, entries, inside):
        loops = [rule for rule in inside if has(rule, "more")]
        ends = [rule for rule in inside if not has(rule, "more")]
        return (
            all(has(rule, "more") for rule in entries)
            and not any(has_change(rule) for rule in loops)
            and len(ends) > 0
            and all(has_change(rule) for rule in ends)
            and len({rule.mode for rule in entries}) == 1
        )

    def write_island(self, mode, entries, inside):
        """Writes a token for each rule that ends the island, at the place of the first that enters it."""
        ends = [rule for rule in inside if not has(rule, "more")]
        loop = self.loop([rule for rule in inside if has(rule, "more")], ends)
        if loop is None:
            return
        made = [self.token(entries, loop, end) for end in ends]
        place = next(number for number, rule in enumerate(self.grammar.rules) if rule is entries[0])
        self.grammar.rules[place:place] = made
        first_of(entries[0]).lead = ""
        drop_rules(self.grammar, [*entries, *inside])
        self.notes.add(inside[0].mode_place, f"mode {mode} written into {', '.join(rule.name.text for rule in ends)}")

    def loop(self, loops, ends):
        """The alternatives that the island goes on with. Where there are several ends, these are no single characters of it."""
        alternatives = [part for rule in loops for part in rule.body.alternatives]
        rules = {rule.name.text: rule for rule in self.grammar.lexer_rules()}
        singles, longer = [], []
        for part in alternatives:
            plain = len(part.elements) == 1 and part.elements[0].is_plain
            ranges = single(part.elements[0].atom, rules) if plain else None
            singles = union(singles, ranges or [])
            longer += [part.elements] if ranges is None else []
        if len(ends) > 1:
            for end in ends:
                ranges = single(Block(end.name, end.body, end.name), rules)
                if ranges is None:
                    self.notes.cannot(end.place, f"{end.name.text} is one of several ends of a mode, and no single character")
                    return None
                singles = without(singles, ranges)
        word = (loops or ends)[0].name
        return copied(longer) + ([[Element(set_atom(word, singles))]] if singles else [])

    def token(self, entries, loop, end):
        """The rule for one end: what enters, the loop, and the end."""
        word = entries[0].name
        starts = [part for rule in entries for part in rule.body.alternatives]
        start = copied(starts[0].elements)
        if len(starts) > 1:
            start = [Element(block_of(word, [copied(part.elements) for part in starts]))]
        middle = []
        if loop:
            middle = [grouped(word, copied(loop[0]), "*") if len(loop) == 1 else suffixed(word, block_of(word, copied(loop)), "*")]
            middle[0].lazy, middle[0].longest = word.made("symbol", "?", ""), True
        made = []
        for part in end.body.alternatives:
            again = copied(part)
            again.elements = [*copied(start), *copied(middle), *again.elements]
            again.commands = [command for command in again.commands if command.name.text not in CHANGES]
            again.arrow = again.arrow if again.commands else None
            made.append(again)
        name = end.name.made("name", end.name.text, first_of(entries[0]).lead)
        token = Rule([], name, [], entries[0].colon.copy(), body_of(word, made), entries[0].end.copy())
        token.mode, token.mode_place, token.ignores_case = entries[0].mode, entries[0].mode_place, entries[0].ignores_case
        return token


def join_modes(grammar, notes):
    """Joins all modes, where each rule begins unlike those of other modes, or is the same."""
    rules = [rule for rule in grammar.lexer_rules() if not rule.is_fragment]
    modes = list(dict.fromkeys(rule.mode for rule in rules))
    same = same_rules(rules)
    firsts = Firsts(grammar.lexer_rules())
    clashes = [find_clash(rules, modes, mode, same, firsts) for mode in modes]
    for clash in filter(None, clashes):
        rule, other = clash
        alike = f"its {rule.name.text} can begin like {other.name.text} of line {notes.where(other.place)}"
        notes.cannot(rule.mode_place, f"mode {rule.mode} can't be joined: {alike}; write the tokens of the mode as one")
    if any(clashes):
        return
    for mode in modes[1:]:
        place = next(rule.mode_place for rule in rules if rule.mode == mode)
        notes.add(place, f"mode {mode} joined to the modes before it: none of its tokens can be mistaken for one of theirs")
    drop_same(grammar, rules, same, notes)


def find_clash(rules, modes, mode, same, firsts):
    """A rule of a mode and one of a mode before it, of which a text can begin alike; or None."""
    before = modes[: modes.index(mode)]
    inside = [rule for rule in rules if rule.mode == mode and rule.name.text not in same]
    others = [rule for rule in rules if rule.mode in before and rule.name.text not in same]
    return next(((rule, other) for rule in inside for other in others if can_clash(rule, other, firsts)), None)


def same_rules(rules):
    """For the names of rules that are those of an earlier mode under another name, those rules."""
    seen, same = {}, {}
    by_name = {rule.name.text: rule for rule in rules}
    for rule in rules:
        other = seen.setdefault((meaning(rule, by_name), kind_of(rule.body.alternatives[0])[0]), rule)
        if other.mode != rule.mode:
            same[rule.name.text] = other
    return same


def drop_same(grammar, rules, same, notes):
    """Drops rules that are those of an earlier mode: the parser takes the token of that one in their place."""
    names = {}
    for rule in rules:
        other = same.get(rule.name.text)
        if other is None:
            continue
        is_gap, kind = kind_of(rule.body.alternatives[0])
        wanted = kind or rule.name.text
        has_rule = kind is not None and any(part.name.text == kind for part in rules)
        own = kind_of(other.body.alternatives[0])[1] or other.name.text
        if wanted != own and not is_gap:
            names.setdefault(wanted, [wanted] if has_rule else []).append(other.name.text)
        notes.add(rule.place, f"rule {rule.name.text} dropped: {other.name.text} of another mode is the same")
    drop_rules(grammar, [rule for rule in rules if rule.name.text in same])
    replace_names(grammar.parser_rules(), names, {codes: name for codes, name in aliases(grammar).items() if name in names})


def meaning(rule, by_name):
    """The text of a rule's alternatives without commands; of a rule that is another's name, of that one."""
    for _ in range(20):
        parts = rule.body.alternatives
        is_name = len(parts) == 1 and len(parts[0].elements) == 1 and parts[0].elements[0].is_plain
        inner = parts[0].elements[0].atom if is_name else None
        if not isinstance(inner, Leaf) or inner.word.text not in by_name:
            break
        rule = by_name[inner.word.text]
    bare = Body([Alternative(part.elements) for part in rule.body.alternatives], rule.body.bars)
    return " ".join(word.text for word in body_words(bare))


def can_clash(rule, other, firsts):
    """Whether a text of one rule can begin like one of the other. Of two literals it has to begin one with the other."""
    one, two = literal_of(rule), literal_of(other)
    if one and two:
        return one[: len(two)] == two or two[: len(one)] == one
    return bool(common(firsts.rules[rule.name.text][0], firsts.rules[other.name.text][0]))


def literal_of(rule):
    parts = rule.body.alternatives
    if len(parts) == 1 and len(parts[0].elements) == 1 and parts[0].elements[0].is_plain:
        atom = parts[0].elements[0].atom
        if isinstance(atom, Leaf) and atom.word.kind == "literal":
            return literal_codes(atom.word.text)[0]
    return None
