"""Reads the words of a grammar into its tree, and leaves out what Perses has no use for, with a note on each."""
import re

from .notes import Fault
from .printing import comments_of, rule_words
from .tree import Alternative, Block, Body, Command, Element, Grammar, Leaf, Not, Range, Rule
from .words import COMMENT, cut

DEEPEST = 64
MODIFIERS = ("public", "private", "protected")
RESERVED = ("grammar", "fragment", "lexer", "parser", "import", "mode", "returns", "locals", "throws", "catch", "finally", *MODIFIERS)
MORE_TEXTS = "predicate dropped (more texts are derived)"
MORE_MATCHES = "predicate dropped (more texts are matched, so that this token may win over others)"
SKIPS = re.compile(r"\{\s*(?:this\.|self\.)?skip\(\)\s*;?\s*\}")
HIDES = re.compile(r"\{\s*(?:\$channel|_channel|this\._channel|self\._channel)\s*=\s*(?:Token\.)?(?:HIDDEN\w*|99|1)\s*;?\s*\}")


class Reader:
    """A place in the words of one file."""

    def __init__(self, words, notes):
        self.words = words
        self.notes = notes
        self.at = 0
        self.kept = ""  # comments before words that were left out, for the next word
        self.gap = False  # whether there was a blank before a word that was left out
        self.depth = 0
        self.ignores_case = False
        self.mode = ("DEFAULT_MODE", words[0].place)

    def peek(self, ahead=0):
        return self.words[min(self.at + ahead, len(self.words) - 1)]

    def sees(self, *texts):
        word = self.peek()
        return word.kind in ("symbol", "name") and word.text in texts

    def take(self):
        """The next word, with the comments before what was left out."""
        word = self.peek()
        self.at += 1
        word.lead = self.kept + word.lead or (" " if self.gap else "")
        self.kept, self.gap = "", False
        return word

    def fault(self, wanted):
        word = self.peek()
        found = "the end of the text" if word.kind == "end" else word.text.split("\n")[0][:40]
        return Fault(word.place, f"{found} where {wanted} has to be")

    def want(self, *texts):
        if not self.sees(*texts):
            raise self.fault(" or ".join(texts))
        return self.take()

    def want_name(self, what):
        word = self.peek()
        if word.kind != "name" or word.text in RESERVED:
            raise self.fault(what)
        return self.take()

    def drop(self, text=None):
        """Leaves out the next word, and keeps the comments before it."""
        word = self.peek()
        self.at += 1
        self.keep_comments([word])
        if text:
            self.notes.add(word.place, text)
        return word

    # The file

    def grammar(self):
        start = self.start()
        kind = {"lexer": "lexer", "parser": "parser"}.get(start[0].text, "combined")
        made = Grammar(kind, start[-2], start, [], [], [], None, False, [], self.peek())
        while self.prequel(made):
            pass
        while self.peek().kind != "end":
            self.rule_or_mode(made)
        made.end = self.take()
        return made

    def start(self):
        words = []
        if self.sees("lexer", "parser"):
            words.append(self.take())
        words.append(self.want("grammar"))
        words.append(self.want_name("the name of the grammar"))
        words.append(self.want(";"))
        return words

    def prequel(self, grammar):
        """Reads one part before the rules, if there is one."""
        block = self.peek(1).text == "{" and self.peek(1).kind == "symbol"
        if block and self.sees("options"):
            self.options(grammar)
        elif block and self.sees("tokens"):
            self.tokens(grammar)
        elif block and self.sees("channels"):
            self.channels()
        elif self.sees("import"):
            self.imports(grammar)
        elif self.sees("@"):
            self.named_action()
        else:
            return False
        return True

    def options(self, grammar):
        """The options of a grammar. Those that decide about what is read are looked at and left out."""
        opens = [self.take(), self.want("{")]
        kept = []
        while not self.sees("}"):
            name, value, words = self.option()
            if name.text == "tokenVocab":
                grammar.vocabulary = value
            elif name.text == "caseInsensitive":
                self.ignores_case = grammar.ignores_case = value.text == "true"
                self.notes.add(name.place, f"option caseInsensitive={value.text} dropped")
            elif value.kind == "action":
                self.notes.add(name.place, f"option {name.text} dropped")
            else:
                kept += words
        closes = self.want("}")
        if kept:
            grammar.prequel.append([*opens, *kept, closes])
        else:
            self.keep_comments([*opens, closes])

    def keep_comments(self, words):
        """Keeps the comments before words that were taken and are left out."""
        for word in words:
            self.gap = self.gap or word.lead != ""
            if COMMENT.search(word.lead):
                self.kept += word.lead

    def option(self):
        """An option: its name, the first word of its value, and all its words."""
        name = self.want_name("the name of an option")
        words = [name, self.want("=")]
        value = self.peek()
        if value.kind not in ("name", "literal", "number", "action"):
            raise self.fault("the value of an option")
        words.append(self.take())
        while self.sees("."):
            words += [self.take(), self.want_name("a name")]
        words.append(self.want(";"))
        return name, value, words

    def tokens(self, grammar):
        words = [self.take(), self.want("{")]
        while not self.sees("}"):
            name = self.want_name("the name of a token")
            if not name.text[0].isupper():
                raise Fault(name.place, f"{name.text} isn't the name of a token")
            grammar.tokens.append(name)
            words.append(name)
            if not self.sees("}"):
                words.append(self.want(",", "}"))
        words.append(self.want("}"))
        grammar.prequel.append(words)

    def channels(self):
        place = self.drop("channels dropped").place
        while not self.sees("}"):
            if self.peek().kind == "end":
                raise Fault(place, "these channels aren't closed")
            self.drop()
        self.drop()

    def imports(self, grammar):
        self.drop()
        while True:
            name = self.want_name("the name of a grammar")
            if self.sees("="):
                self.drop()
                name = self.want_name("the name of a grammar")
            self.keep_comments([name])
            grammar.imports.append(name)
            if not self.sees(","):
                break
            self.drop()
        if not self.sees(";"):
            raise self.fault(";")
        self.drop()

    def named_action(self):
        """`@header {..}`, `@parser::members {..}`."""
        at = self.drop()
        name = self.drop()
        if self.sees("::"):
            self.drop()
            name = self.drop()
        if self.peek().kind != "action":
            raise self.fault("an action")
        self.drop()
        self.notes.add(at.place, f"@{name.text} dropped")

    # Rules

    def rule_or_mode(self, grammar):
        if self.prequel(grammar):
            return
        if self.sees("mode"):
            place = self.drop().place
            name = self.want_name("the name of a mode")
            self.keep_comments([name])
            self.mode = (name.text, place)
            if not self.sees(";"):
                raise self.fault(";")
            self.drop()
            return
        grammar.rules.append(self.rule())

    def rule(self):
        while self.sees(*MODIFIERS):
            self.peek(1).lead = self.peek().lead + self.peek(1).lead.lstrip(" ")
            self.peek().lead = ""
            self.drop(f"modifier {self.peek().text} dropped")
        before = [self.take()] if self.sees("fragment") else []
        name = self.want_name("a rule")
        rule = Rule(before, name, [], name, Body([], []), name, *self.mode, ignores_case=self.ignores_case)
        first = self.at
        self.rule_head(rule)
        rule.colon = self.want(":")
        rule.body = self.body(rule.is_lexer, True)
        rule.end = self.want(";")
        self.exceptions()
        rule.comments = comments_of(rule_words(rule)[1:])
        return rule

    def rule_head(self, rule):
        """Leaves out arguments, `returns`, `locals`, `throws` and actions between a rule's name and its colon."""
        while not self.sees(":"):
            word = self.peek()
            if word.kind == "arguments":
                self.drop("arguments dropped")
            elif self.sees("returns", "locals"):
                self.drop(f"{word.text} dropped")
                if self.peek().kind != "arguments":
                    raise self.fault("[")
                self.drop()
            elif self.sees("throws"):
                self.throws()
            elif self.sees("options"):
                self.rule_options(rule)
            elif self.sees("@"):
                self.named_action()
            else:
                raise self.fault(":")

    def throws(self):
        self.drop("throws dropped")
        while self.peek().kind == "name" or self.sees(",", "."):
            self.drop()

    def rule_options(self, rule):
        words = [self.take(), self.want("{")]
        kept = []
        while not self.sees("}"):
            name, value, option = self.option()
            if name.text == "caseInsensitive":
                rule.ignores_case = value.text == "true"
                self.notes.add(name.place, f"option caseInsensitive={value.text} dropped")
            elif value.kind == "action" or name.text == "tokenVocab":
                self.notes.add(name.place, f"option {name.text} dropped")
            else:
                kept += option
        closes = self.want("}")
        if kept:
            rule.head += [*words, *kept, closes]
        else:
            self.keep_comments([*words, closes])

    def exceptions(self):
        """`catch [..] {..}` and `finally {..}` after a rule."""
        while self.sees("catch", "finally"):
            word = self.drop(f"{self.peek().text} dropped")
            if word.text == "catch":
                if self.peek().kind != "arguments":
                    raise self.fault("[")
                self.drop()
            if self.peek().kind != "action":
                raise self.fault("an action")
            self.drop()

    # Alternatives

    def body(self, is_lexer, is_top):
        body = Body([self.alternative(is_lexer, is_top)], [])
        while self.sees("|"):
            body.bars.append(self.take())
            body.alternatives.append(self.alternative(is_lexer, is_top))
        return body

    def alternative(self, is_lexer, is_top):
        made = Alternative([])
        if self.sees("<"):
            made.options = self.alternative_options(is_lexer)
        while not self.sees("|", ";", ")", "#", "->") and self.peek().kind != "end":
            if self.peek().kind == "action":
                self.action(made, is_lexer, is_top)
            else:
                made.elements.append(self.element(is_lexer))
        if is_top and not is_lexer and self.sees("#"):
            made.name = [self.take(), self.want_name("the name of an alternative")]
        if is_top and is_lexer and self.sees("->"):
            self.commands(made)
        return made

    def alternative_options(self, is_lexer):
        """`<assoc=right>` before an alternative: one option is kept."""
        words = self.element_options()
        is_kept = len(words) == 5 and words[3].kind in ("name", "literal", "number") and not is_lexer
        if is_kept:
            return words
        self.keep_comments(words)
        if any(word.text == "assoc" for word in words) and not is_lexer:
            at = next(number for number, word in enumerate(words) if word.text == "assoc")
            self.notes.add(words[0].place, "options of an alternative dropped, but for assoc")
            words[at].lead = ""
            return [words[0].copy(), *words[at : at + 3], words[-1]]
        self.notes.add(words[0].place, "options of an alternative dropped")
        return []

    def element_options(self):
        words = [self.want("<")]
        while not self.sees(">"):
            if self.peek().kind == "end" or self.sees(";", "|"):
                raise self.fault(">")
            words.append(self.take())
        words.append(self.take())
        return words

    def drop_options(self):
        if self.sees("<"):
            words = self.element_options()
            self.keep_comments(words)
            shown = " ".join("".join(word.text for word in words[1:-1]).split())
            self.notes.add(words[0].place, f"<{shown[:40]}> dropped")

    def action(self, alternative, is_lexer, is_top):
        """Leaves out an action or a predicate; an action that skips a token becomes the command."""
        word = self.drop()
        if self.sees("?"):
            self.drop()
            self.drop_options()
            self.notes.add(word.place, MORE_MATCHES if is_lexer else MORE_TEXTS)
        elif is_lexer and is_top and self.sees("|", ";") and SKIPS.fullmatch(word.text):
            self.make_command(alternative, word, ["skip"])
        elif is_lexer and is_top and self.sees("|", ";") and HIDES.fullmatch(word.text):
            self.make_command(alternative, word, ["channel", "(", "HIDDEN", ")"])
        else:
            self.notes.add(word.place, "action dropped")

    def make_command(self, alternative, word, texts):
        alternative.arrow = word.made("symbol", "->")
        words = [word.made("name", text, "" if number else " ") for number, text in enumerate(texts)]
        for number, made in enumerate(words):
            made.number = number - len(words) - 1
        argument = words[2] if len(words) > 2 else None
        alternative.commands = [Command(words[0], argument, words)]
        self.notes.add(word.place, f"action written as the command {''.join(texts)}")

    def element(self, is_lexer):
        label = self.label(is_lexer)
        atom = self.atom(is_lexer)
        self.after_atom()
        made = Element(atom, label)
        if self.sees("?", "*", "+"):
            made.suffix = self.take()
            if self.sees("?"):
                made.lazy = self.take()
            self.drop_options()
        return made

    def after_atom(self):
        """Leaves out arguments and options of an element."""
        if self.peek().kind == "arguments":
            self.drop("arguments dropped")
        self.drop_options()

    def label(self, is_lexer):
        """`x=` or `x+=`, which only parser rules keep."""
        if self.peek().kind != "name" or self.peek(1).text not in ("=", "+=") or self.peek(1).kind != "symbol":
            return []
        words = [self.want_name("a label"), self.take()]
        if not is_lexer:
            return words
        self.notes.add(words[0].place, f"label {words[0].text} dropped")
        self.keep_comments(words)
        return []

    def atom(self, is_lexer):
        word = self.peek()
        if self.sees("("):
            return self.block(is_lexer)
        if self.sees("~"):
            return Not(self.take(), self.not_inner(is_lexer))
        if word.kind == "literal" and self.peek(1).text == ".." and self.peek(1).kind == "symbol":
            return self.range()
        if self.sees(".") or word.kind in ("literal", "set") or word.kind == "name" and word.text not in RESERVED:
            return Leaf(self.take())
        raise self.fault("an element")

    def range(self):
        first = self.take()
        dots = self.take()
        if self.peek().kind != "literal":
            raise self.fault("a literal")
        return Range(first, dots, self.take())

    def not_inner(self, is_lexer):
        if self.sees("~") or self.sees("."):
            raise self.fault("what ~ leaves out")
        inner = self.atom(is_lexer)
        if isinstance(inner, Block):
            for alternative in inner.body.alternatives:
                if len(alternative.elements) != 1 or alternative.elements[0].suffix:
                    raise Fault(inner.opens.place, "~ leaves out single characters or tokens alone")
        return inner

    def block(self, is_lexer):
        opens = self.want("(")
        self.depth += 1
        if self.depth > DEEPEST:
            raise Fault(opens.place, f"blocks are more than {DEEPEST} deep in one another")
        self.block_options()
        body = self.body(is_lexer, False)
        closes = self.want(")")
        self.depth -= 1
        return Block(opens, body, closes)

    def block_options(self):
        """`options {..} :` and `@init {..} :` at the start of a block."""
        seen = False
        while self.sees("@") or self.sees("options") and self.peek(1).text == "{":
            seen = True
            if self.sees("@"):
                self.named_action()
                continue
            self.drop("options of a block dropped")
            self.drop()
            while not self.sees("}"):
                self.option()
            self.drop()
        if seen or self.sees(":"):
            if not self.sees(":"):
                raise self.fault(":")
            self.drop()

    def commands(self, alternative):
        alternative.arrow = self.take()
        while True:
            alternative.commands.append(self.command())
            if not self.sees(","):
                return
            alternative.commands[-1].words.append(self.take())

    def command(self):
        """A command. `mode` is the one reserved word that is one."""
        if not self.sees("mode"):
            name = self.want_name("a command")
        else:
            name = self.take()
        if not self.sees("("):
            return Command(name, None, [name])
        opens = self.take()
        if self.peek().kind not in ("name", "number"):
            raise self.fault("a name")
        argument = self.take()
        return Command(name, argument, [name, opens, argument, self.want(")")])


def read(text, file, notes):
    """The tree of a file's text."""
    return Reader(cut(text, file), notes).grammar()
