"""What is derived before and after: compared on all short texts, of worked grammars and of random ones."""
import random
import re
import unittest
from itertools import product

from support import as_pattern, convert, derived, named_tests, rules_of

MOST = 6

# A name and a grammar whose changes keep the language of its start, or of all rules that aren't named to be used otherwise.
EXACT = [
    ("loops over options", "a : ('x'? 'y'*)* 'z' (('x'? | 'y')+)? ;"),
    ("loops over rules", "a : b* 'z' b c ;\nb : 'x'? c ;\nc : 'y'* | ;"),
    ("nested loops", "a : ((('x'?)* 'y'?)+ | 'z'*)* ;"),
    ("start in a loop", "a : 'x'? b ;\nb : '(' a* ')' | ;"),
    ("recursion that can add nothing", "a : a b | 'x' ;\nb : 'y'? 'z'? ;"),
    ("recursion through a rule", "a : b 'x' | 'y' ;\nb : a 'z' | 'w' ;"),
    ("recursion through two rules", "a : b 'x' | 'y' ;\nb : c 'z' | 'w' ;\nc : a 'v' | b 'u' ;"),
    ("recursion in a block", "a : (b | 'y') 'x' ;\nb : (a | 'w') ;"),
    ("recursion past options", "a : 'x'? 'y'? a 'z' | 'w' ;"),
    ("recursion after a suffix", "a : b? 'x' ;\nb : a+ 'y' ;"),
    ("recursive rule in a cycle", "a : b 'x' | 'y' ;\nb : b 'z' | a | 'w' ;"),
]

LISTS = [
    ("empty list", "a : '[' ']' | '[' b ']' ;\nb : 'x' ',' b | 'x' ;", "a : '[' b? ']' ;\nb : 'x' (',' 'x')* ;"),
    ("list that can be empty", "a : 'x' a | ;", "a : 'x'* ;"),
    ("optional rest", "a : b a? ;\nb : 'x' | 'y' ;", "a : b+ ;\nb : 'x' | 'y' ;"),
    ("in a block", "a : 'x' ('y' | 'y' 'z') ;", "a : 'x' ('y' 'z'?) ;"),
    ("part in the middle", "a : 'x' 'y' | 'x' 'z' 'w' 'y' ;", "a : 'x' ('z' 'w')? 'y' ;"),
    ("left recursion stays", "a : a 'x' | a 'x' 'y' | 'z' ;", "a : a 'x' | a 'x' 'y' | 'z' ;"),
    ("labels stay", "a : x='x' | x='x' y='y' # B ;", "a : x='x' y='y'? # B ;"),
]

LOOPS = [
    ("comment", "A : '/*' .*? '*/' ;", "/*", ["*/"]),
    ("one character", "A : '<' .*? '>' ;", "<", [">"]),
    ("three characters", "A : '<' .*? '-->' ;", "<", ["-->"]),
    ("three alike", "A : '<' .*? '---' ;", "<", ["---"]),
    ("a text that begins with its end", "A : '<' .*? '-a-' ;", "<", ["-a-"]),
    ("two texts", "A : '<' .*? ('-a' | 'a>') ;", "<", ["-a", "a>"]),
    ("one text in another", "A : '<' .*? ('a' | '-a>') ;", "<", ["a", "-a>"]),
]

# A name, a loop over some characters up to a text, and the regular expression for it.
LIMITED = [
    ("text with a character that the loop has not", "A : '<' ~'b'*? 'abc' 'x'? ;", "<[^b]*?abcx?"),
    ("text that begins with one", "A : '<' ~'b'*? 'bc' 'x'? ;", "<[^b]*bcx?"),
    ("text that ends with one", "A : '<' ~'c'*? 'abc' 'x'? ;", "<[^c]*?abcx?"),
    ("two texts", "A : '<' ~'b'*? ('abc' | 'ax') 'x'? ;", "<[^b]*?(abc|ax)x?"),
]


# A name, what a string in double quotes loops over, its escape sequences, and whether they come before its end.
ESCAPES = [
    ("any escape", "'\\\\' . | .", "\\\\.", False),
    ("escaped quote", "'\\\\\"' | .", '\\\\"', False),
    ("escaped quote last", ". | '\\\\\"'", '\\\\"', False),
    ("escaped letter", "'\\\\' 'n' | .", r"\\n", False),
    ("escape in a fragment", "E | ~'\\\\'", r"\\[n\\]", False),
    ("two escapes", "'\\\\' [n\\\\] | 'n\"' | .", r'\\[n\\]|n"', False),
    ("doubled quote that never comes", "'\"\"' | .", "x{9}", False),
    ("doubled quote of a mode", None, '""', True),
]


class LanguageTests(unittest.TestCase):
    def exact(self, rules):
        text = f"grammar G;\n{rules}\n"
        made = convert(text)
        self.assertFalse(made.failed, made.notes)
        self.assertEqual(derived(made.text, start_of(made.text), MOST), derived(text, "a", MOST))
        self.assertEqual(convert(made.text).notes, [])

    def lists(self, rules, wanted):
        text = f"grammar G;\n{rules}\n"
        made = convert(text, lists=True)
        self.assertEqual(made.text, f"grammar G;\n{wanted}\n")
        self.assertEqual(derived(made.text, "a", MOST), derived(text, "a", MOST))

    def loops(self, rule, start, ends):
        """A loop that is written out, and one that may also end with the text, against a search for the first end."""
        inner = rule.removesuffix(" ;")
        for written, may_end in ((inner + " () ;", False), (with_end(inner) + " ;", True)):
            made = convert(f"grammar G;\na : A ;\n{written}\n")
            self.assertFalse(made.failed, made.notes)
            rules = rules_of(made.text)
            pattern = re.compile(as_pattern(rules["A"].body, rules))
            for length in range(6):
                for letters in product("<->a*/"[-6:], repeat=length):
                    text = start + "".join(letters)
                    self.assertEqual(bool(pattern.fullmatch(text)), is_match(text, start, ends, may_end), text)

    def limited(self, rule, expression):
        """A loop that not all characters are in, against a search for its shortest match."""
        made = convert(f"grammar G;\na : A ;\n{rule}\n")
        self.assertFalse(made.failed, made.notes)
        rules = rules_of(made.text)
        pattern = re.compile(as_pattern(rules["A"].body, rules))
        for length in range(7):
            for letters in product("abcx", repeat=length):
                text = "<" + "".join(letters)
                found = re.compile(expression).match(text)
                self.assertEqual(longest(pattern, text), found and found.end(), text)

    def escapes(self, loop, escape, is_mode):
        """A string with escape sequences, against a search from its left that takes an escape before a character."""
        if is_mode:
            made = convert("parser grammar P;\na : A ;\n", "lexer grammar L;\nQ : '\"' -> more, mode(S) ;\nmode S;\nA : '\"' -> mode(DEFAULT_MODE) ;\nD : '\"\"' -> more ;\nT : . -> more ;\n")
        else:
            made = convert(f"grammar G;\na : A ;\nA : '\"' ({loop})*? '\"' 'z'? ;\nfragment E : '\\\\' [n\\\\] ;\n")
        self.assertFalse(made.failed, made.notes)
        rules = rules_of(made.text)
        pattern = re.compile(as_pattern(rules["A"].body, rules))
        for length in range(6):
            for letters in product('\\\\"nx', repeat=length):
                text = '"' + "".join(letters)
                end = string_end(text, re.compile(escape), loop)
                if end:
                    self.assertEqual(longest(pattern, text), end, (made.text, text))

    def random(self, seed, lists):
        """Random grammars have the same language afterwards, and nothing more is changed of the result."""
        chosen = random.Random(seed)
        done = 0
        for _ in range(120):
            text = random_grammar(chosen)
            made = convert(text, lists=lists)
            if made.failed or len(made.text) > 1000:
                continue
            done += 1
            self.assertEqual(derived(made.text, start_of(made.text), 4), derived(text, "a", 4), text)
            self.assertEqual(convert(made.text, lists=lists).notes, [], text)
        self.assertGreater(done, 80)


def start_of(text):
    return next(iter(rules_of(text)))


def with_end(rule):
    """The rule with the end of the text as one more end."""
    before, _, after = rule.partition(" .*? ")
    return f"{before} .*? ({after.strip('()')} | EOF)"


def is_match(text, start, ends, may_end):
    """Whether a text begins so and has its first end at its own end, or none, where it may."""
    rest = text[len(start) :]
    found = [rest.find(end) + len(end) for end in ends if end in rest]
    return min(found) == len(rest) if found else may_end


def longest(pattern, text):
    """The length of the longest beginning that matches, or None."""
    return next((end for end in range(len(text), 0, -1) if pattern.fullmatch(text, 0, end)), None)


def string_end(text, escape, loop):
    """Where a string ends that takes an escape before a single character, or None."""
    alone = '[^"\\\\]' if loop and loop.endswith("~'\\\\'") else '[^"]'
    at = 1
    while at < len(text):
        found = escape.match(text, at) or re.compile(alone, re.S).match(text, at)
        if not found:
            return at + 1 if text[at] == '"' else None
        at = found.end()
    return None


def random_grammar(chosen):
    rules = [f"{name} : {random_body(chosen, 1)} ;" for name in "abc"[: chosen.randint(1, 3)]]
    names = {rule[0] for rule in rules}
    text = "\n".join(rules)
    return "grammar G;\n" + re.sub(r"\b[abc]\b(?! :)", lambda found: found[0] if found[0] in names else "'w'", text) + "\n"


def random_body(chosen, depth):
    return " | ".join(random_sequence(chosen, depth) for _ in range(chosen.randint(1, 3)))


def random_sequence(chosen, depth):
    return " ".join(random_element(chosen, depth) for _ in range(chosen.choice([0, 1, 1, 2, 2, 3])))


def random_element(chosen, depth):
    suffix = chosen.choice(["", "", "", "?", "*", "+"])
    if depth and chosen.random() < 0.25:
        return f"({random_body(chosen, depth - 1)}){suffix}"
    return chosen.choice(["'x'", "'y'", "'z'", "a", "b", "c"]) + suffix


named_tests(LanguageTests, LanguageTests.exact, EXACT)
named_tests(LanguageTests, LanguageTests.lists, LISTS)
named_tests(LanguageTests, LanguageTests.loops, LOOPS)
named_tests(LanguageTests, LanguageTests.limited, LIMITED)
named_tests(LanguageTests, LanguageTests.random, [("as they are", 7, False), ("with lists", 8, True)])
named_tests(LanguageTests, LanguageTests.escapes, ESCAPES)
