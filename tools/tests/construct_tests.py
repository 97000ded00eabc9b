"""Each construct alone: what comes of it, and what is said of it."""
import unittest

from support import convert, named_tests

HEAD = "grammar G;\n"

# A name, the grammar after its first line, what it becomes, and the notes on it.
PARSER = [
    ("action", "a : 'x' {f();} 'y' ;\n", "a : 'x' 'y' ;\n", ["2: action dropped"]),
    ("action with braces in strings", "a : 'x' { \"}\" + '}' /* } */ // }\n {} } 'y' ;\n", "a : 'x' 'y' ;\n", ["2: action dropped"]),
    ("predicate", "a : {p()}? 'x' ;\n", "a : 'x' ;\n", ["2: predicate dropped (more texts are derived)"]),
    (
        "predicate with a message",
        "a : {p()}?<fail='no'> 'x' ;\n",
        "a : 'x' ;\n",
        ["2: <fail='no'> dropped", "2: predicate dropped (more texts are derived)"],
    ),
    ("header", "@header { import a.B; }\na : 'x' ;\n", "a : 'x' ;\n", ["2: @header dropped"]),
    ("members", "@parser::members { int i = '{'; }\na : 'x' ;\n", "a : 'x' ;\n", ["2: @members dropped"]),
    ("arguments", "a[int x, String[] y] : b[1, \"]\"] ;\nb[int x] : 'x' ;\n", "a : b ;\nb : 'x' ;\n", ["2: arguments dropped", "3: arguments dropped"]),
    ("returns", "a returns [int x = 1] : 'x' ;\n", "a : 'x' ;\n", ["2: returns dropped"]),
    ("locals", "a locals [int x] : 'x' ;\n", "a : 'x' ;\n", ["2: locals dropped"]),
    ("throws", "a throws A, b.C : 'x' ;\n", "a : 'x' ;\n", ["2: throws dropped"]),
    ("actions around", "a\n@init { x(); }\n@after { y(); }\n  : 'x' ;\n", "a\n  : 'x' ;\n", ["3: @init dropped", "4: @after dropped"]),
    (
        "exceptions",
        "a : 'x' ; catch [E e] { f(); } catch [F f] {} finally { g(); }\nb : 'y' ;\n",
        "a : 'x' ;\nb : 'y' ;\n",
        ["2: catch dropped", "2: finally dropped"],
    ),
    ("modifier", "public a : 'x' ;\nprivate b : 'y' ;\n", "a : 'x' ;\nb : 'y' ;\n", ["2: modifier public dropped", "3: modifier private dropped"]),
    ("assoc before an alternative", "a : <assoc=right> a '^' a | 'x' ;\n", "a : <assoc=right> a '^' a | 'x' ;\n", []),
    ("assoc after a word", "a : a '^'<assoc=right> a | 'x' ;\n", "a : a '^' a | 'x' ;\n", ["2: <assoc=right> dropped"]),
    (
        "several options before an alternative",
        "a : <x=1, assoc=right> a '^' a | 'x' ;\n",
        "a : <assoc=right> a '^' a | 'x' ;\n",
        ["2: options of an alternative dropped, but for assoc"],
    ),
    ("labels", "a : x='x' y+=('y' | 'z') # L ;\n", "a : x='x' y+=('y' | 'z') # L ;\n", []),
    ("options of a block", "a : (options {greedy=false;} : 'x')* ;\n", "a : ( 'x')* ;\n", ["2: options of a block dropped"]),
    (
        "non-greedy suffixes",
        "a : 'x'*? ('y' | 'z')+? 'w'?? ;\n",
        "a : 'x'* ('y' | 'z')+ 'w'? ;\n",
        ["2: non-greedy suffix made greedy (the same texts are derived)"],
    ),
    ("channels", "channels { A, B }\na : 'x' ;\n", "a : 'x' ;\n", ["2: channels dropped"]),
    ("vocabulary", "options { tokenVocab = L; language = Java; }\na : 'x' ;\n", "options { language = Java; }\na : 'x' ;\n", ["2: option tokenVocab=L dropped"]),
    ("EOF in a block", "a : b EOF ;\nb : 'x' ('y' | EOF) ;\n", "a : b EOF ;\nb : 'x' ('y')? ;\n", ["3: EOF dropped (more texts are derived)"]),
    ("EOF in a used rule", "a : b ;\nb : 'x' EOF ;\n", "a : b ;\nb : 'x' ;\n", ["3: EOF dropped (more texts are derived)"]),
    ("EOF in the middle", "a : 'x' EOF 'y' ;\n", "a : 'x' 'y' ;\n", ["2: EOF dropped (more texts are derived)"]),
    ("EOF at the end of two starts", "a : 'x' EOF ;\nb : 'y' EOF ;\n", "a : 'x' EOF ;\nb : 'y' EOF ;\n", []),
    ("token without a rule", "a : 'x' INDENT ;\n", "a : 'x' INDENT ;\n", ["2: token INDENT declared: there is no lexer rule for it"]),
    ("loop over an option", "a : ('x'?)* ;\n", "a : 'x'* ;\n", ["2: loop over what can be empty made one over its parts"]),
    ("loop over options", "a : ('x'? 'y'*)+ ;\n", "a : ('x' | 'y')* ;\n", ["2: loop over what can be empty made one over its parts"]),
    (
        "loop over a rule that can be empty",
        "a : b* 'z' b ;\nb : 'x' | 'y'? ;\n",
        "a : b* 'z' b? ;\nb : 'x' | 'y' ;\n",
        ["2: loop over what can be empty made one over its parts", "3: rule b made one that can't be empty, its uses optional"],
    ),
    ("recursion that can add nothing", "a : a 'x'? | 'y' ;\n", "a : a 'x' | 'y' ;\n", ["2: recursion of a that can add nothing made one that adds something"]),
    (
        "left recursion through a rule",
        "a : b 'x' | 'y' ;\nb : a 'z' | 'w' ;\n",
        "a : a 'z' 'x' | 'w' 'x' | 'y' ;\nb : a 'z' | 'w' ;\n",
        ["2: rule b written into a, whose left recursion went through it"],
    ),
    ("left recursion past an option", "a : 'x'? a 'y' | 'z' ;\n", "a : 'x' a 'y' | a 'y' | 'z' ;\n", ["2: left recursion of a made direct"]),
]

LEXER = [
    ("action", "A : 'x' {f();} ;\n", "A : 'x' ;\n", ["3: action dropped"]),
    ("predicate", "A : 'x' {p()}? ;\n", "A : 'x' ;\n", ["3: predicate dropped (more texts are matched, so that this token may win over others)"]),
    ("action that skips", "A : 'x' { skip(); } ;\n", "A : 'x' -> skip ;\n", ["3: action written as the command skip"]),
    ("action that hides", "A : 'x' {$channel=HIDDEN;} ;\n", "A : 'x' -> channel(HIDDEN) ;\n", ["3: action written as the command channel(HIDDEN)"]),
    ("label", "A : l=[a-z] ;\n", "A : [a-z] ;\n", ["3: label l dropped"]),
    ("channel", "A : 'x' -> channel(C) ;\n", "A : 'x' -> channel(HIDDEN) ;\n", ["3: channel C made HIDDEN"]),
    ("channel by number", "A : 'x' -> channel(2) ;\n", "A : 'x' -> channel(HIDDEN) ;\n", ["3: channel 2 made HIDDEN"]),
    ("the parser's channel", "A : 'x' -> channel(DEFAULT_TOKEN_CHANNEL) ;\n", "A : 'x' ;\n", ["3: channel(DEFAULT_TOKEN_CHANNEL) dropped: the parser's own"]),
    ("command of a fragment", "A : B ;\nfragment B : 'x' -> skip ;\n", "A : B ;\nfragment B : 'x' ;\n", ["4: command of the fragment B dropped"]),
    ("two commands", "A : 'x' -> skip, channel(HIDDEN) ;\n", "A : 'x' -> skip ;\n", []),
    ("pop without a mode", "A : 'x' -> popMode, skip ;\n", "A : 'x' -> skip ;\n", ["3: popMode dropped: there is one mode"]),
    (
        "commands of some alternatives",
        "A : 'x' | 'y' -> skip | 'z' -> skip ;\n",
        "A : 'x' ;\nA_2 : 'y' -> skip | 'z' -> skip ;\n",
        ["3: rule A split by its commands into A, A_2"],
    ),
    ("EOF", "A : 'x' ('\\n' | EOF) ;\n", "A : 'x' ('\\n')? ;\n", ["3: EOF dropped (more texts are matched)"]),
    ("token that can be empty", "A : 'x'* ;\n", "A : 'x'+ ;\n", ["3: token A made one that can't be empty"]),
    (
        "fragment that can be empty in a loop",
        "A : 'x' B* B ;\nfragment B : 'y'* ;\n",
        "A : 'x' B* B? ;\nfragment B : 'y'+ ;\n",
        ["3: loop over what can be empty made one over its parts", "4: rule B made one that can't be empty, its uses optional"],
    ),
    ("case of a rule", "A options { caseInsensitive = true; } : 'ab1' [c-d_] ~'e' 'f'..'g' ;\n", "A : [Aa] [Bb] '1' [CD_cd] ~[Ee] [FGfg] ;\n", ["3: option caseInsensitive=true dropped", "3: A written in both cases"]),
    ("case of a literal with a suffix", "A options { caseInsensitive = true; } : 'ab'+ ;\n", "A : ([Aa] [Bb])+ ;\n", ["3: option caseInsensitive=true dropped", "3: A written in both cases"]),
    ("property", "A : [\\p{Pd}a] ;\n", None, ["3: properties of [\\p{Pd}a] written as 20 ranges (Unicode 14.0.0)"]),
    ("escape that means itself", "A : [\\\"a] '\\$' ;\n", "A : [\"a] '$' ;\n", ["3: [\\\"a] written as [\"a]", "3: '\\$' written as '$'"]),
    ("pair of surrogates", "A : '\\uD83D\\uDE00' ;\n", "A : '\\u{1F600}' ;\n", ["3: '\\uD83D\\uDE00' written as '\\u{1F600}'"]),
    ("minus after a range", "A : [a-c-e] ;\n", "A : [\\-a-ce] ;\n", ["3: [a-c-e] written as [\\-a-ce]"]),
    ("non-greedy loop as Perses takes it", "A : '/*' .*? '*/' -> skip ;\n", "A : '/*' .*? '*/' -> skip ;\n", []),
    ("line end with an option", "A : '#' .*? '\\r'? '\\n' ;\n", "A : '#' .*? '\\n' ;\n", ["3: optional part after a non-greedy loop dropped (the loop takes it)"]),
    ("end of one of two", "A : '#' .*? ('\\r' | '\\n') ;\n", "A : '#' .*? [\\n\\r] ;\n", ["3: characters after a non-greedy loop written as one set"]),
    ("line or end of the text", "A : '#' .*? ('\\n' | EOF) ;\n", "A : '#' ~'\\n'* '\\n'? ;\n", ["3: non-greedy loop written out"]),
    ("up to the end of the text", "A : '#' .*? EOF ;\n", "A : '#' .* ;\n", ["3: non-greedy loop written out", "3: EOF dropped (more texts are matched)"]),
    ("text in a fragment", "A : B ;\nfragment B : '<' .*? '>' ;\n", "A : B ;\nfragment B : '<' ~'>'* '>' ;\n", ["4: non-greedy loop written out"]),
    ("text before more", "A : '(*' .*? '*)' 'x' ;\n", "A : '(*' (~'*' | '*'+ ~[)*])* '*'+ ')' 'x' ;\n", ["3: non-greedy loop written out"]),
    ("string with escapes", "A : '\"' ('\\\\\"' | .)*? '\"' ;\n", "A : '\"' (~[\"\\\\] | '\\\\'+ ~'\\\\')* '\"' ;\n", ["3: non-greedy loop written out"]),
    ("plus", "A : '<' .+? '>' 'x' ;\n", "A : '<' . ~'>'* '>' 'x' ;\n", ["3: non-greedy + written as its operand and a loop", "3: non-greedy loop written out"]),
    ("loop that can't be mistaken", "A : 'a' [ \\t]*? 'b' 'c' ;\n", "A : 'a' [ \\t]* 'b' 'c' ;\n", ["3: non-greedy loop made greedy (what follows can't begin like it)"]),
    ("loop at the end of a token", "A : 'a' 'b'*? ;\n", "A : 'a' ;\n", ["3: non-greedy loop written out"]),
]

# A name, a whole grammar, and the only error.
REFUSED = [
    ("lexer rule in itself", "a : A ;\nA : '(' A? ')' ;\n", "3: error: A uses itself, which a token can't: write its deepest use out by hand"),
    ("unknown rule", "a : b ;\n", "2: error: there is no rule b"),
    ("unknown fragment", "a : A ;\nA : B ;\n", "3: error: there is no rule B"),
    ("rule of one name", "a : 'x' ;\na : 'y' ;\n", "3: error: rule a is there twice, first in line 2"),
    ("range the wrong way round", "a : A ;\nA : ~('z'..'a' | 'b') ;\n", "3: error: 'z'..'a' isn't a range from a character to a later one"),
    ("range of texts", "a : A ;\nA : 'ab'..'c' ;\n", "3: error: 'ab'..'c' isn't a range from a character to a later one"),
    ("range in a parser rule", "a : 'a'..'b' ;\n", "2: error: a range of characters in a parser rule"),
    ("unknown property", "a : A ;\nA : [\\p{Nothing}] ;\n", "3: error: the property Nothing isn't known"),
    ("unknown command", "a : A ;\nA : 'x' -> leave ;\n", "3: error: command leave isn't known so"),
    ("more without a mode", "a : B ;\nA : 'x' -> more ;\nB : 'y' ;\n", "3: error: `more` of A has no plain meaning here"),
    ("loop up to what isn't plain", "a : A ;\nA : 'x' .*? B ;\nfragment B : 'y'+ 'z' ;\n", "3: error: this non-greedy loop in A can't be written out"),
]


class ConstructTests(unittest.TestCase):
    def compare(self, given, wanted, notes):
        """What comes of a grammar, what is said of it, and that nothing comes of the result but itself."""
        made = convert(given)
        if wanted is not None:
            self.assertEqual(without_blank_lines(made.text), without_declared(HEAD + wanted, made))
        self.assertEqual(made.notes, notes)
        self.assertFalse(made.failed)
        again = convert(made.text)
        self.assertEqual((again.text, again.notes), (made.text, []))

    def parser(self, given, wanted, notes):
        self.compare(HEAD + given, wanted, notes)

    def lexer(self, given, wanted, notes):
        self.compare(HEAD + "a : A ;\n" + given, wanted and "a : A ;\n" + wanted, notes)

    def refused(self, given, error):
        made = convert(HEAD + given)
        self.assertTrue(made.failed)
        self.assertEqual([note for note in made.notes if "error" in note], [error])


named_tests(ConstructTests, ConstructTests.parser, PARSER)
named_tests(ConstructTests, ConstructTests.lexer, LEXER)
named_tests(ConstructTests, ConstructTests.refused, REFUSED)


def without_blank_lines(text):
    return "\n".join(line.strip() if line.strip() in ("", "a : 'x' ;") else line for line in text.split("\n") if line.strip()) + "\n"


def without_declared(wanted, made):
    """The wanted text with the declaration of tokens that the conversion made, which has no line of its own in the table."""
    declared = [line for line in made.text.split("\n") if line.startswith("tokens")]
    return wanted.replace(HEAD, HEAD + "".join(line + "\n" for line in declared))

