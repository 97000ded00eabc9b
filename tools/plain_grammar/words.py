"""Cuts the text of a grammar into words, as ANTLR 4 does.

Blanks and comments are the lead of the word after them, so that all words printed with their leads
are the text. An action is one word, however its braces nest; those in its strings, characters and comments
don't count. A bracket opens a set in a lexer rule, and arguments elsewhere.
"""
import re
from dataclasses import dataclass, replace

from .notes import Fault

SYMBOLS = ["->", "..", "+=", "::", ":", ";", "|", "(", ")", "?", "*", "+", "~", ".", "=", ",", "#", "<", ">", "{", "}", "@"]
BLOCKS = ("options", "tokens", "channels")

BLANK = re.compile(r"[ \t\r\n\f\ufeff]+|//[^\n]*|/\*.*?\*/", re.S)
COMMENT = re.compile(r"//[^\n]*|/\*.*?\*/", re.S)
BEFORE_BRACE = re.compile(r"(?:[ \t\r\n\f]+|//[^\n]*|/\*.*?\*/)*\{", re.S)
NAME = re.compile(r"[^\W\d_]\w*")
NUMBER = re.compile(r"[0-9]+")
LITERAL = re.compile(r"'(?:\\.|[^'\\\n])*'")
SET = re.compile(r"\[(?:\\.|[^\]\\\n])*\]")
BRACE = re.compile(r"[{}]|//[^\n]*|/\*.*?\*/|\"(?:\\.|[^\"\\])*\"|'(?:\\.|[^'\\])*'|\\.", re.S)
BRACKET = re.compile(r"[\[\]]|\"(?:\\.|[^\"\\])*\"|'(?:\\.|[^'\\])*'|\\.", re.S)


@dataclass
class Word:
    """A word: its kind (name, number, literal, set, action, arguments, symbol or end), and what is before it."""

    kind: str
    text: str
    lead: str
    place: tuple
    number: int = -1  # among words that were beside each other when they were read or made; -1 for a word alone

    def made(self, kind, text, lead=" "):
        """Another word at the place of this one."""
        return Word(kind, text, lead, self.place)

    def copy(self):
        """The same word without comments before it, for a second use of it."""
        return replace(self, lead=without_comments(self.lead))


def without_comments(lead):
    """A blank, where there was something, in place of a lead with comments."""
    return " " if COMMENT.search(lead) else lead


class Cutter:
    """Cuts one text. It knows whether it is in the body of a lexer rule, since brackets mean two things."""

    def __init__(self, text, file):
        self.text = text
        self.file = file
        self.at = 0
        self.line = 1
        self.number = -1
        self.starts_rule = True
        self.in_lexer_rule = False
        self.in_body = False
        self.opens_block = False
        self.in_block = False

    def fault(self, text):
        return Fault((self.file, self.line), text)

    def take(self, end):
        """The text up to an offset, which is then passed."""
        taken = self.text[self.at : end]
        self.at = end
        self.line += taken.count("\n")
        return taken

    def lead(self):
        """Blanks and comments."""
        start = self.at
        while found := BLANK.match(self.text, self.at):
            self.take(found.end())
        if self.text.startswith("/*", self.at):
            raise self.fault("this comment isn't closed")
        return self.text[start : self.at]

    def nested(self, pattern, opens, closes, what):
        """The end of a part in brackets that may nest, by a pattern of what counts in it."""
        depth = 0
        at = self.at
        while found := pattern.search(self.text, at):
            at = found.end()
            depth += (found[0] == opens) - (found[0] == closes)
            if depth == 0:
                return at
        raise self.fault(f"{what} isn't closed")

    def quoted(self, pattern, what):
        found = pattern.match(self.text, self.at)
        if not found:
            raise self.fault(f"this {what} isn't closed on its line")
        return found.end()

    def word(self):
        """The next word; its kind is `end` at the end of the text."""
        lead = self.lead()
        place = (self.file, self.line)
        kind, end = self.kind_and_end()
        self.number += 1
        return Word(kind, self.take(end), lead, place, self.number)

    def kind_and_end(self):
        first = self.text[self.at : self.at + 1]
        if not first:
            return "end", self.at
        if first == "'":
            return "literal", self.quoted(LITERAL, "literal")
        if first == "[":
            return self.bracket()
        if first == "{" and not self.opens_block:
            self.starts_rule = not self.in_body and not self.in_block
            return "action", self.nested(BRACE, "{", "}", "this action")
        if found := NUMBER.match(self.text, self.at):
            return "number", found.end()
        if found := NAME.match(self.text, self.at):
            self.see_name(found[0], found.end())
            return "name", found.end()
        return "symbol", self.symbol()

    def bracket(self):
        if self.in_body and self.in_lexer_rule:
            return "set", self.quoted(SET, "set")
        return "arguments", self.nested(BRACKET, "[", "]", "this bracket")

    def see_name(self, name, end):
        """The first name of a rule says whether it is one of the lexer."""
        if name in BLOCKS and BEFORE_BRACE.match(self.text, end):
            self.opens_block = True
        elif self.starts_rule and not self.in_block:
            self.in_lexer_rule = name[0].isupper()
            self.starts_rule = name in ("fragment", "public", "private", "protected")

    def symbol(self):
        for symbol in SYMBOLS:
            if self.text.startswith(symbol, self.at):
                self.see_symbol(symbol)
                return self.at + len(symbol)
        if self.text[self.at] == '"':
            raise self.fault("a literal is between ' and '")
        raise self.fault(f"{self.text[self.at]!r} is no word of ANTLR 4's notation")

    def see_symbol(self, symbol):
        if symbol == "{":
            self.in_block = True
            self.opens_block = False
        elif symbol == "}":
            self.in_block = False
            self.starts_rule = not self.in_body
        elif self.in_block:
            return
        elif symbol == ":":
            self.in_body = True
            self.starts_rule = False
        elif symbol == ";":
            self.in_body = False
            self.starts_rule = True
        elif symbol == "@":
            self.starts_rule = False


def cut(text, file):
    """The words of a text, the last of which is its end."""
    cutter = Cutter(text, file)
    words = [cutter.word()]
    while words[-1].kind != "end":
        words.append(cutter.word())
    return words
