"""Left recursion through other rules, made direct by writing one rule into another."""
from .empties import Emptiness, LoopWriter, begins_with
from .tree import Alternative, Block, Element, block_of, copied, first_word, grouped, name_of, set_alternatives, suffixed

MOST = 400  # alternatives of one rule


class TooLarge(Exception):
    """A rule would have too many alternatives, or one has no meaning."""


class Corners:
    """Which rules can be first in which."""

    def __init__(self, rules):
        self.rules = {rule.name.text: rule for rule in rules}
        self.emptiness = Emptiness(rules)
        self.firsts = {name: self.of_rule(rule) for name, rule in self.rules.items()}

    def of_rule(self, rule):
        """The rules that can be first in a rule, but for itself where an alternative begins with it directly."""
        bases = [part for part in rule.body.alternatives if not begins_with(part, rule.name.text)]
        rests = [part.elements[1:] for part in rule.body.alternatives if begins_with(part, rule.name.text)]
        found = {name for part in bases for name in self.of_elements(part.elements)}
        if any(self.emptiness.is_empty(part.elements) for part in bases):
            found |= {name for rest in rests for name in self.of_elements(rest)}
        return found

    def of_elements(self, elements):
        found = set()
        for element in elements:
            found |= self.of_atom(element)
            if not self.emptiness.can_be_empty(element):
                break
        return found

    def of_atom(self, element):
        if isinstance(element.atom, Block):
            return {name for part in element.atom.body.alternatives for name in self.of_elements(part.elements)}
        name = name_of(element)
        return {name} if name in self.rules else set()

    def cycles(self):
        """The sets of rules that can be first in one another, in written order (Tarjan 1972, without recursion)."""
        return [group for group in groups(self.firsts) if len(group) > 1 or group[0] in self.firsts[group[0]]]


def groups(edges):
    """The strongly connected parts of a graph."""
    number, low, path, done, found = {}, {}, [], set(), []
    for root in edges:
        if root not in number:
            visit(root, edges, number, low, path, done, found)
    order = {name: at for at, name in enumerate(edges)}
    return [sorted(group, key=order.get) for group in found]


def visit(root, edges, number, low, path, done, found):
    number[root] = low[root] = len(number)
    path.append(root)
    waiting = [(root, iter(sorted(edges[root])))]
    while waiting:
        node, rest = waiting[-1]
        following = next(rest, None)
        if following is None:
            waiting.pop()
            if waiting:
                low[waiting[-1][0]] = min(low[waiting[-1][0]], low[node])
            if low[node] == number[node]:
                found.append(group_from(node, path))
                done.update(found[-1])
        elif following not in number:
            number[following] = low[following] = len(number)
            path.append(following)
            waiting.append((following, iter(sorted(edges[following]))))
        elif following not in done:
            low[node] = min(low[node], number[following])


def group_from(node, path):
    """Takes the end of a path from a node on."""
    group = [path.pop()]
    while group[-1] != node:
        group.append(path.pop())
    return group


def direct_recursion(grammar, notes):
    """Makes all left recursion direct, where rules can be written into one another, and says whether there was other."""
    refused = set()
    changed = False
    while True:
        corners = Corners(grammar.parser_rules())
        cycle = next((group for group in corners.cycles() if not refused & set(group)), None)
        if cycle is None:
            return changed
        changed = True
        try:
            shorten(corners, cycle, notes)
        except TooLarge:
            refused |= set(cycle)
            place = corners.rules[cycle[0]].place
            notes.cannot(place, f"left recursion of {', '.join(cycle)} can't be made direct")


def shorten(corners, cycle, notes):
    """Writes one rule of a cycle into the others of it, or the cycle of one rule into direct recursion."""
    members = set(cycle)
    for name in cycle:
        expose_rule(corners, corners.rules[name], members)
    if len(cycle) == 1:
        notes.add(corners.rules[cycle[0]].place, f"left recursion of {cycle[0]} made direct")
        return
    written = rule_to_write(corners, cycle)
    for name in cycle:
        if name != written:
            write_into(corners.rules[name], corners.rules[written])
            notes.add(corners.rules[name].place, f"rule {written} written into {name}, whose left recursion went through it")


def rule_to_write(corners, cycle):
    """The rule to write into the others: the last that isn't recursive itself, if there is one."""
    plain = [name for name in cycle[1:] if not any(begins_with(part, name) for part in corners.rules[name].body.alternatives)]
    return (plain or cycle[1:])[-1]


def expose_rule(corners, rule, members):
    """Writes a rule so that the members that can be first in an alternative are its first word, without a suffix."""
    made = []
    changed = False
    for alternative in rule.body.alternatives:
        exposed = expose(corners, alternative.elements, members)
        changed |= len(exposed) != 1 or exposed[0] is not alternative.elements
        made += [alternative] if len(exposed) == 1 and exposed[0] is alternative.elements else [
            Alternative(elements, copied(alternative.options), copied(alternative.name)) for elements in exposed
        ]
    if len(made) > MOST:
        raise TooLarge
    if changed:
        own = [part for part in made if not (len(part.elements) == 1 and begins_with(part, rule.name.text))]
        if not own:
            raise TooLarge
        set_alternatives(rule.body, own)


def expose(corners, elements, members):
    """The alternatives that a sequence stands for, each of which has its first member alone at its start, if any."""
    done = []
    waiting = [elements]
    while waiting:
        current = waiting.pop()
        if len(done) + len(waiting) > MOST:
            raise TooLarge
        if not corners.of_elements(current) & members:
            done.append(current)
            continue
        first, rest = current[0], current[1:]
        if not corners.of_atom(first) & members:
            waiting += reversed(past_empty(corners, first, rest))
        elif isinstance(first.atom, Block) or first.suffix:
            waiting += reversed(opened(first, rest))
        elif corners.emptiness.can_be_empty(first):
            raise TooLarge
        else:
            done.append(current)
    return done


def past_empty(corners, first, rest):
    """A first element that can be empty, with and without its text."""
    writer = LoopWriter(None, [], corners.emptiness, None)
    full = writer.full_element(first)
    if writer.written:
        raise TooLarge
    return ([[full, *copied(rest)]] if full else []) + [rest]


def opened(first, rest):
    """A first element with its suffix and its block taken apart."""
    word = first_word(first.atom)
    plain = Element(first.atom, first.label)
    if first.suffix and first.suffix.text == "?":
        return [[plain, *rest], copied(rest)]
    if first.suffix:
        once = [plain, suffixed(word, copied(first.atom), "*"), *rest]
        return [once] if first.suffix.text == "+" else [once, copied(rest)]
    alternatives = first.atom.body.alternatives
    return [[*part.elements, *(rest if number == 0 else copied(rest))] for number, part in enumerate(alternatives)]


def write_into(rule, written):
    """Replaces a rule at the start of alternatives by what it stands for."""
    made = []
    for alternative in rule.body.alternatives:
        if begins_with(alternative, written.name.text):
            for start in starts(written):
                elements = [*start, *copied(alternative.elements[1:])]
                made.append(Alternative(elements, copied(alternative.options), copied(alternative.name)))
        else:
            made.append(alternative)
    own = [part for part in made if not (len(part.elements) == 1 and begins_with(part, rule.name.text))]
    if len(own) > MOST or not own:
        raise TooLarge
    set_alternatives(rule.body, own)


def starts(rule):
    """What a rule stands for: its alternatives, or where it is recursive its bases with a loop over the rests."""
    name = rule.name.text
    bases = [part.elements for part in rule.body.alternatives if not begins_with(part, name)]
    rests = [part.elements[1:] for part in rule.body.alternatives if begins_with(part, name)]
    if not bases:
        raise TooLarge
    if not rests:
        return copied(bases)
    loops = [grouped(rule.name, copied(rests[0]), "*")] if len(rests) == 1 else [loop_over(rule, rests)]
    return [[*base, *copied(loops)] for base in copied(bases)]


def loop_over(rule, rests):
    return suffixed(rule.name, block_of(rule.name, copied(rests)), "*")
