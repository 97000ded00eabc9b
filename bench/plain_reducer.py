"""A plain and slow reducer, written from the documents and definitions alone: it shares nothing with the program.

A language is the printed normal form of its grammar, written by hand, and the patterns of its tokens. A
reduction gives the texts that it asks, one after another, and is sent the verdicts.
"""
import heapq
import re
from collections import deque
from typing import NamedTuple

SHAPES = {"?": "optional", "*": "star", "+": "plus"}
SYMBOL = re.compile(r"~?'(?:[^'\\]|\\.)*'[?*+]?|~\(\S+|[^\s']+")


class Form(NamedTuple):
    """A rule: `regular` with its alternatives, or else with one alternative of one symbol."""

    shape: str
    rows: list


class Token(NamedTuple):
    """A kind of tokens by the name that the form prints, and the texts that it matches; or gap text."""

    kind: str
    pattern: re.Pattern
    is_gap: bool


class Piece(NamedTuple):
    token: Token
    start: int
    end: int


class Language:
    """The normal form of a grammar and its tokens, least kind first."""

    def __init__(self, form, tokens):
        self.rules = dict(rule_of(line) for line in form.splitlines())
        self.start = next(iter(self.rules))
        self.tokens = tokens
        self.seen_kinds = {token.kind for token in tokens if not token.is_gap}
        self.empty = self.empty_rules()

    def kinds_in(self, symbol):
        """The kinds of tokens that a symbol of tokens stands for."""
        if symbol == ".":
            return self.seen_kinds
        if symbol.startswith("~"):
            return self.seen_kinds - set(re.findall(r"'(?:[^'\\]|\\.)*'|\w+", symbol))
        return {symbol}

    def empty_rules(self):
        """The rules that derive no token at all."""
        found, before = set(), None
        while before != found:
            before = set(found)
            for name, form in self.rules.items():
                if form.shape in ("optional", "star") or any(all(symbol in before for symbol in row) for row in form.rows):
                    found.add(name)
        return found

    def fits(self, symbol, slot):
        """Whether a tree of the symbol can be where the slot is asked for."""
        seen, todo = {slot}, [slot]
        while todo:
            other = todo.pop()
            if symbol == other or self.fits_at_once(symbol, other):
                return True
            more = set(self.can_be_alone(other)) - seen
            seen |= more
            todo.extend(more)
        return False

    def fits_at_once(self, symbol, slot):
        """A kind in a set; a plus in a star of the same symbol."""
        form = self.rules.get(slot)
        if form is None:
            return symbol in self.kinds_in(slot)
        return form.shape == "star" and self.rules.get(symbol) == Form("plus", form.rows)

    def can_be_alone(self, rule):
        """The symbols beside which all others of their alternative can be empty, and the symbol of a plus."""
        form = self.rules.get(rule)
        if form is None or form.shape in ("optional", "star"):
            return []
        return [symbol for row in form.rows for index, symbol in enumerate(row) if set(row[:index] + row[index + 1:]) <= self.empty]

    def pieces(self, text):
        """The pieces of a text by longest match, the first kind among equals; None where nothing matches."""
        found, at = [], 0
        while at < len(text):
            matches = [Piece(token, at, match.end()) for token in self.tokens if (match := token.pattern.match(text, at))]
            piece = max(matches, key=lambda piece: piece.end, default=None)
            if piece is None or piece.end == at:
                return None
            found.append(piece)
            at = piece.end
        return found

    def tokens_of(self, text):
        """The pieces that the parser sees; None where the text isn't cut."""
        pieces = self.pieces(text)
        return None if pieces is None else [piece for piece in pieces if not piece.token.is_gap]

    def spelled(self, text):
        """The kinds and spellings of the tokens of a text; None where it isn't cut."""
        pieces = self.tokens_of(text)
        return None if pieces is None else [(piece.token.kind, text[piece.start:piece.end]) for piece in pieces]

    def skips(self, character):
        """Whether the text of this character alone is one piece of gap text."""
        pieces = self.pieces(character)
        return pieces is not None and len(pieces) == 1 and pieces[0].token.is_gap


def rule_of(line):
    """The name and the form of a printed rule."""
    name, body = line.removesuffix(" ;").split(" : ", 1)
    rows = [SYMBOL.findall(row) for row in re.split(r" \|(?: |$)", body)]
    if rows[0] and rows[0][0][-1] in SHAPES and rows[0][0] not in SHAPES:
        return name, Form(SHAPES[rows[0][0][-1]], [[rows[0][0][:-1]]])
    return name, Form("regular", rows)


def token(kind, pattern, is_gap=False):
    return Token(kind, re.compile(pattern, re.DOTALL), is_gap)


def literals(*spellings):
    """The kinds of tokens that are literals alone."""
    return [token(f"'{spelling}'", re.escape(spelling)) for spelling in spellings]


class Node:
    """A node of a tree, with the slot of its position; a leaf has the number of its token."""

    def __init__(self, symbol, slot, token=None):
        self.symbol, self.slot, self.token = symbol, slot, token
        self.children = []

    def content(self):
        return self.symbol, self.token, self.children

    def put(self, content):
        """Puts another content at this position."""
        self.symbol, self.token, self.children = content

    def leaves(self):
        if self.token is not None:
            return [self.token]
        return [leaf for child in self.children for leaf in child.leaves()]

    def below(self):
        """The nodes below, level by level, each from left to right."""
        found, todo = [], deque(self.children)
        while todo:
            node = todo.popleft()
            found.append(node)
            todo.extend(node.children)
        return found


class Parser:
    """Where symbols can end in a list of kinds, and the preferred tree of it."""

    def __init__(self, language, kinds):
        self.language, self.kinds = language, kinds
        self.known = {}

    def ends(self, symbol, at):
        if (symbol, at) not in self.known:
            self.known[symbol, at] = self.found_ends(symbol, at)
        return self.known[symbol, at]

    def found_ends(self, symbol, at):
        form = self.language.rules.get(symbol)
        if form is None:
            return {at + 1} if at < len(self.kinds) and self.kinds[at] in self.language.kinds_in(symbol) else set()
        if form.shape == "star":
            return self.repeated(form.rows[0][0], at)
        found = set().union(*(self.row_ends(row, at) for row in form.rows))
        if form.shape == "plus":
            return found.union(*(self.repeated(form.rows[0][0], end) for end in found))
        return found | {at} if form.shape == "optional" else found

    def row_ends(self, row, at):
        ends = {at}
        for symbol in row:
            ends = set().union(*(self.ends(symbol, end) for end in ends))
        return ends

    def repeated(self, symbol, at):
        """Where any number of the symbol can end."""
        if ("repeated", symbol, at) not in self.known:
            found, todo = {at}, [at]
            while todo:
                more = self.ends(symbol, todo.pop()) - found
                found |= more
                todo.extend(more)
            self.known["repeated", symbol, at] = found
        return self.known["repeated", symbol, at]

    def derives(self):
        return len(self.kinds) in self.ends(self.language.start, 0)

    def tree(self):
        """The preferred tree of all tokens."""
        return self.tree_of(self.language.start, 0, len(self.kinds))

    def tree_of(self, symbol, start, end):
        form = self.language.rules.get(symbol)
        if form is None:
            return Node(self.kinds[start], symbol, start)
        node = Node(symbol, symbol)
        parts = self.row_parts(form, start, end) if form.shape == "regular" else self.list_parts(form, start, end)
        node.children = [self.tree_of(*part) for part in parts]
        return node

    def row_parts(self, form, start, end):
        """The least alternative that derives the tokens; each symbol takes as many as the rest allows."""
        row = next(row for row in form.rows if end in self.row_ends(row, start))
        parts, at = [], start
        for index, symbol in enumerate(row):
            to = max(to for to in self.ends(symbol, at) if to <= end and end in self.row_ends(row[index + 1:], to))
            parts.append((symbol, at, to))
            at = to
        return parts

    def list_parts(self, form, start, end):
        """The content of an optional; or the elements, each of which takes as many tokens as the rest allows."""
        symbol = form.rows[0][0]
        if form.shape == "optional":
            return [(symbol, start, end)] if end in self.ends(symbol, start) else []
        parts, at = [], start
        while at < end or form.shape == "plus" and not parts:
            to = max(to for to in self.ends(symbol, at) if to <= end and end in self.repeated(symbol, to))
            parts.append((symbol, at, to))
            at = to
        return parts


class Layout:
    """A text, its tokens, and how some of them are printed."""

    def __init__(self, language, text):
        self.language, self.text = language, text
        self.tokens = language.tokens_of(text)
        self.spelled = language.spelled(text)

    def gap(self, index):
        """What is before the token, or after the last one."""
        start = self.tokens[index - 1].end if index else 0
        return self.text[start:self.tokens[index].start if index < len(self.tokens) else len(self.text)]

    def separator(self, index):
        if "\n" in self.gap(index) and self.language.skips("\n"):
            return "\n"
        return " " if self.language.skips(" ") else ""

    def before(self, last, index, squeezed):
        """What is printed before a kept token; `last` is the kept one before it, or None."""
        if last is None:
            return self.gap(0) if index == 0 and not squeezed else ""
        return self.gap(index) if index == last + 1 and not squeezed else self.separator(index)

    def after(self, last, squeezed):
        """What is printed after the last kept token."""
        if last == len(self.tokens) - 1 and not squeezed:
            return self.gap(len(self.tokens))
        return "\n" if self.language.skips("\n") else ""

    def printed(self, kept, squeezed=False):
        if not kept:
            return "" if self.tokens or squeezed else self.text
        befores = [self.before(last, index, squeezed) for last, index in zip([None, *kept], kept)]
        return "".join(before + self.spelled[index][1] for before, index in zip(befores, kept)) + self.after(kept[-1], squeezed)

    def is_cut_again(self, text, kept):
        """Whether a text is cut into tokens with the kinds and spellings of these."""
        return self.language.spelled(text) == [self.spelled[index] for index in kept]


def list_step(items, may_be_empty, test):
    """Delta debugging on a list. What is left of it; `test` gives the verdict on some of the items."""
    if may_be_empty and items and (yield from test([])):
        return []
    count = 2
    while len(items) > 1:
        size = len(items)
        cuts = [part * size // count for part in range(count + 1)]
        parts = [items[start:end] for start, end in zip(cuts, cuts[1:])]
        complements = [items[:start] + items[end:] for start, end in zip(cuts, cuts[1:])]
        part = yield from first_yes(parts, test)
        complement = None if part else (yield from first_yes(complements, test))
        if part or complement:
            items, count = part or complement, 2 if part else max(count - 1, 2)
        elif count < size:
            count = min(size, 2 * count)
        else:
            break
    return items


def first_yes(lists, test):
    for items in lists:
        if (yield from test(items)):
            return items
    return None


class Reduction:
    """What the reductions of all modes have: what is left, and whether the start was refused."""

    def __init__(self, start, keeps):
        self.keeps = keeps
        self.result, self.refused, self.changed = start, False, False

    def asked(self, text):
        """The verdict on a candidate, which is no without a question where a keep text is missing."""
        if not all(keep in text for keep in self.keeps):
            return False
        yes = yield text
        if yes:
            self.result, self.changed = text, True
        return yes

    def rounds(self):
        self.changed = True
        while self.changed:
            self.changed = False
            yield from self.round()


class LineReduction(Reduction):
    """Mode `lines`."""

    def __init__(self, start, keeps=()):
        super().__init__(start, keeps)
        self.lines = lines_of(start)

    def test(self, lines):
        return (yield from self.asked(b"".join(lines)))

    def run(self):
        self.refused = not (yield self.result)
        if not self.refused:
            yield from self.rounds()

    def round(self):
        self.lines = yield from list_step(self.lines, True, self.test)


def lines_of(text):
    """The lines of a text, each with its newline."""
    lines = [line + b"\n" for line in text.split(b"\n")]
    return lines[:-1] + ([lines[-1][:-1]] if lines[-1] != b"\n" else [])


class TreeReduction(Reduction):
    """Mode `perses` or `hdd`."""

    def __init__(self, language, start, mode, keeps=(), squeeze=False):
        super().__init__(start, keeps)
        self.language, self.mode, self.squeeze = language, mode, squeeze
        self.layout = Layout(language, start.decode())
        self.root = Parser(language, [kind for kind, _ in self.layout.spelled]).tree()
        self.squeezed = False

    def test(self, squeezed=None):
        """The verdict on the tree as it is, which is no without a question where its text is cut otherwise."""
        kept = self.root.leaves()
        text = self.layout.printed(kept, self.squeezed if squeezed is None else squeezed)
        if not self.layout.is_cut_again(text, kept):
            return False
        return (yield from self.asked(text.encode()))

    def run(self):
        start = self.result
        self.refused = not (yield start)
        if self.refused:
            return
        if self.squeeze and len(self.layout.printed(self.root.leaves(), True).encode()) < len(start):
            self.squeezed = yield from self.test(True)
        yield from self.rounds()

    def round(self):
        return self.visit() if self.mode == "perses" else self.levels()

    # Mode `perses`: the heaviest waiting node is visited next.

    def visit(self):
        waiting = []
        self.wait(waiting, self.root)
        while waiting:
            node = heapq.heappop(waiting)[-1]
            for other in (yield from self.visited(node)):
                self.wait(waiting, other)

    def wait(self, waiting, node):
        leaves = node.leaves()
        if leaves and node.token is None:
            heapq.heappush(waiting, (-len(leaves), leaves[0], id(node), node))

    def visited(self, node):
        """Tries what there is to try at a node. The nodes that wait then."""
        shape = self.language.rules[node.symbol].shape
        if shape == "regular":
            return (yield from self.replaced(node))
        if shape == "optional":
            return (yield from self.without_content(node))
        node.children = yield from list_step(node.children, shape == "star", lambda children: self.with_children(node, children))
        return node.children

    def with_children(self, node, children):
        """The verdict with these children in place of the node's."""
        before, node.children = node.children, children
        yes = yield from self.test()
        node.children = before
        return yes

    def without_content(self, node):
        if (yield from self.with_children(node, [])):
            node.children = []
        return node.children

    def replaced(self, node):
        """Tries each smaller node below that fits. It is in the node's position then, which keeps its slot."""
        size = len(node.leaves())
        for other in node.below():
            if len(other.leaves()) < size and self.language.fits(other.symbol, node.slot):
                before = node.content()
                node.put(other.content())
                if (yield from self.test()):
                    return [node]
                node.put(before)
        return node.children

    # Mode `hdd`: level by level.

    def levels(self):
        level = [self.root]
        while level:
            yield from self.thinned(level)
            level = [child for node in level for child in node.children]

    def thinned(self, parents):
        """One list step on what can be deleted among the children of these nodes."""
        parents = [node for node in parents if node.token is None and self.language.rules[node.symbol].shape != "regular"]
        items = [(parent, child) for parent in parents for child in parent.children if child.leaves()]
        deletable = {id(child) for _, child in items}
        before = [(parent, parent.children) for parent in parents]

        def keep(kept):
            stay = {id(child) for _, child in kept}
            for parent, children in before:
                parent.children = [child for child in children if id(child) not in deletable or id(child) in stay]

        def test(kept):
            keep(kept)
            empties = any(self.language.rules[parent.symbol].shape == "plus" and not parent.children for parent in parents)
            return False if empties else (yield from self.test())

        keep((yield from list_step(items, True, test)))
