"""Lexer modes, types and splits."""
import unittest

from support import convert, named_tests

HEAD = "parser grammar P;\na : B* ;\n"

# A name, the lexer's rules, the rules that come of them, and the notes on modes.
ISLANDS = [
    (
        "string by more",
        "Q : '\"' -> more, mode(S) ;\nWS : ' ' -> skip ;\nmode S;\nB : '\"' -> mode(DEFAULT_MODE) ;\nT : . -> more ;\n",
        "B : '\"' .*? '\"' ;\nWS : ' ' -> skip ;\n",
        ["1.g4:4: mode S written into B"],
    ),
    (
        "string with escapes",
        "Q : '\"' -> more, pushMode(S) ;\nmode S;\nB : '\"' -> popMode ;\nE : '\\\\' . -> more ;\nT : . -> more ;\n",
        "B : '\"' (~[\"\\\\] | '\\\\' .)* '\"' ;\n",
        ["1.g4:3: mode S written into B", "1.g4:2: non-greedy loop written out"],
    ),
    (
        "string with some escapes",
        "Q : '\"' -> more, pushMode(S) ;\nmode S;\nB : '\"' -> popMode ;\nE : '\\\\' [n\"] -> more ;\nT : . -> more ;\n",
        "B : '\"' (~[\"\\\\] | '\\\\'+ ~'\\\\')* '\"' ;\n",
        ["1.g4:3: mode S written into B", "1.g4:2: non-greedy loop written out"],
    ),
    (
        "two ends",
        "Q : '<' -> more, pushMode(S) ;\nmode S;\nB : '>' -> popMode ;\nC : ']' -> popMode, skip ;\nT : [a-z] -> more ;\n",
        "B : '<' [a-z]*? '>' ;\nC : '<' [a-z]*? ']' -> skip ;\n",
        ["1.g4:3: mode S written into B, C"],
    ),
]

JOINED = [
    (
        "modes that can't be mistaken",
        "B : 'b' -> pushMode(S) ;\nmode S;\nC : [0-9]+ -> popMode ;\n",
        "B : 'b' ;\nC : [0-9]+ ;\n",
        ["1.g4:2: pushMode(S) dropped: there is one mode", "1.g4:3: mode S joined to the modes before it: none of its tokens can be mistaken for one of theirs", "1.g4:4: popMode dropped: there is one mode"],
    ),
    (
        "literals that begin alike",
        "B : '<a' -> pushMode(S) ;\nmode S;\nC : '<b' -> popMode ;\n",
        "B : '<a' ;\nC : '<b' ;\n",
        ["1.g4:2: pushMode(S) dropped: there is one mode", "1.g4:3: mode S joined to the modes before it: none of its tokens can be mistaken for one of theirs", "1.g4:4: popMode dropped: there is one mode"],
    ),
    (
        "blanks in both",
        "B : 'b' -> pushMode(S) ;\nWS : ' '+ -> skip ;\nmode S;\nC : 'c' -> popMode ;\nWS2 : ' '+ -> skip ;\n",
        "B : 'b' ;\nWS : ' '+ -> skip ;\nC : 'c' ;\n",
        [
            "1.g4:2: pushMode(S) dropped: there is one mode",
            "1.g4:4: mode S joined to the modes before it: none of its tokens can be mistaken for one of theirs",
            "1.g4:5: popMode dropped: there is one mode",
            "1.g4:6: rule WS2 dropped: WS of another mode is the same",
        ],
    ),
]


class ModeTests(unittest.TestCase):
    def islands(self, given, wanted, notes):
        made = convert(HEAD, "lexer grammar L;\n" + given)
        self.assertEqual([line for line in made.text.split("\n") if line][2:], wanted.split("\n")[:-1])
        self.assertEqual(sorted(made.notes[1:]), sorted(notes))
        self.assertFalse(made.failed)

    def test_same_token_of_another_mode_counts_as_the_other(self):
        made = convert("parser grammar P;\na : B ID D | ~D 'x' ;\n", "lexer grammar L;\nB : 'b' -> mode(S) ;\nID : 'x' ;\nmode S;\nD : 'x' -> mode(DEFAULT_MODE) ;\n")
        self.assertIn("a : B ID ID | ~ID 'x' ;\n", made.text)
        self.assertFalse(made.failed)

    def test_modes_that_can_be_mistaken_are_refused(self):
        made = convert("parser grammar P;\na : T | N ;\n", "lexer grammar L;\nO : '<' -> pushMode(S) ;\nT : ~'<'+ ;\nmode S;\nN : [a-z]+ ;\nC : '>' -> popMode ;\n")
        errors = [note for note in made.notes if "error" in note]
        self.assertEqual(errors, ["1.g4:4: error: mode S can't be joined: its N can begin like T of line 1.g4:3; write the tokens of the mode as one"])

    def test_type_of_a_rule_is_allowed_beside_it(self):
        made = convert("grammar G;\na : A 'x' ~A ~('x' | 'y') ;\nA : 'x' ;\nB : 'b' -> type(A) ;\nC : 'c' -> type(A), channel(HIDDEN) ;\n")
        self.assertEqual(made.text, "grammar G;\na : (A | B) (A | B) ~(A | B) ~(A | B | 'y') ;\nA : 'x' ;\nB : 'b' ;\nC : 'c' -> channel(HIDDEN) ;\n")
        self.assertEqual(made.notes, ["4: type(A) dropped: B is allowed where A is"])

    def test_type_without_a_rule_is_the_rules_that_have_it(self):
        made = convert("grammar G;\ntokens { A }\na : A ;\nB : 'b' -> type(A) ;\nC : 'c' | 'd' -> type(A) ;\n")
        self.assertIn("a : (B | C_2) ;\nB : 'b' ;\nC : 'c' ;\nC_2 : 'd' ;\n", made.text)

    def test_split_rule_is_both_in_lexer_rules(self):
        made = convert("grammar G;\na : A B ;\nA : 'x' | 'y' -> skip ;\nB : 'z' A ;\n")
        self.assertIn("a : A B ;\nA : 'x' ;\nA_2 : 'y' -> skip ;\nB : 'z' (A | A_2) ;\n", made.text)

    def test_case_of_a_combined_grammar_is_that_of_its_literals(self):
        made = convert("grammar G;\noptions { caseInsensitive = true; }\na : 'select' ID 'from' '*' ;\nFROM : 'FROM' ;\nID : [a-z]+ ;\n")
        self.assertEqual(
            made.text,
            "grammar G;\na : SELECT ID FROM '*' ;\nSELECT : [Ss] [Ee] [Ll] [Ee] [Cc] [Tt] ;\nFROM : [Ff] [Rr] [Oo] [Mm] ;\nID : [A-Za-z]+ ;\n",
        )

    def test_case_of_a_lexer_is_not_that_of_its_parser(self):
        made = convert("parser grammar P;\na : 'FROM' ID ;\n", "lexer grammar L;\noptions { caseInsensitive = true; }\nFROM : 'FROM' ;\nID options { caseInsensitive = false; } : [a-z]+ ;\n")
        self.assertIn("a : FROM ID ;\n", made.text)
        self.assertIn("ID : [a-z]+ ;\n", made.text)


named_tests(ModeTests, ModeTests.islands, ISLANDS + JOINED)
