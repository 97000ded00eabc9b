"""Several files, all constructs at once, grammars that are plain, broken ones, and the command line."""
import os
import random
import tempfile
import unittest
from pathlib import Path

from support import TOOL, convert, convert_pair, run

EXAMPLES = TOOL.parent.parent / "examples" / "grammars"

PARSER = """// The parser.
parser grammar XParser;
options { tokenVocab = XLexer; }

// all of it
file : (stat ';')* EOF ;
stat : ID '=' expr ;
expr : expr '+' expr | ID ;
"""

LEXER = """// The lexer.
lexer grammar XLexer;
channels { NOTES }

SEMI : ';' ;
IS : '=' ; // equals
ADD : '+' ;
ID : [a-z]+ ;
NOTE : '#' ~[\\n]* -> channel(NOTES) ;
WS : [ \\n]+ -> skip ;
"""

JOINED = """// The parser.
grammar XParser;

// all of it
file : (stat ';')* EOF ;
stat : ID '=' expr ;
expr : expr '+' expr | ID ;

// The lexer.

SEMI : ';' ;
IS : '=' ; // equals
ADD : '+' ;
ID : [a-z]+ ;
NOTE : '#' ~[\\n]* -> channel(HIDDEN) ;
WS : [ \\n]+ -> skip ;
"""

PAIR_LEXER = """// The lexer.
lexer grammar XLexer;

SEMI : ';' ;
IS : '=' ; // equals
ADD : '+' ;
ID : [a-z]+ ;
NOTE : '#' ~[\\n]* -> channel(HIDDEN) ;
WS : [ \\n]+ -> skip ;
"""

ALL = r"""/** A language. */
grammar All;
import Shared;
options { language = Java; tokenVocab = X; superClass = Base; }
tokens { INDENT, DEDENT }
channels { COMMENTS }
@header { import java.util.*; // it's } {
}
@parser::members { String s = "}"; char c = '}'; /* } */ }

// the start
public prog[int x] returns [List<String> y = null] locals [int z] throws Foo, bar.Baz
@init { y = 0; }
@after { }
    : ({isTop()}? s+=stat {done();} eos)* e=expr[3] EOF # Prog // end
    | <assoc=right, foo='x'> 'q' e2=expr # Q
    ;
    catch [RecognitionException re] { throw re; }
    finally { x(); }

stat : 'if' expr ('then' stat)?? | ID '=' expr<foo> ';' | INDENT stat*? DEDENT | ;
eos : ';' | EOF | {nl()}? ;
expr : expr '^'<assoc=right> expr | expr ('*' | '/') expr | primary ;
primary : expr '.' ID | ID | INT | STRING | '(' (options {greedy=false;} : expr) ')' ;
item : ~(';' | INT) . 'Key' ;

fragment LETTER : [\p{Pc}a-z] ;
ID : LETTER (LETTER | '0'..'9')* { setText(getText()); } ;
INT : x='0'..'9'+ ;
STRING : '"' ('\\"' | .)*? '"' ;
COMMENT : '/*' .*? ('*/' | EOF) -> channel(COMMENTS) ;
LINE : '//' .*? '\r'? '\n' {skip();} ;
WS : (' ' | '\t')* -> skip ;
NL : '\n' -> skip | '\r' ;
KEY options { caseInsensitive = true; } : 'key' | 'x'..'z' ;
"""

SHARED = "// shared rules\nlexer grammar Shared;\nID : 'never' ;\nAT : '@' -> type(INT) ;\n"

ALL_PLAIN = r"""/** A language. */
grammar All;
options { language = Java; superClass = Base; }
tokens { INDENT, DEDENT }

// the start
prog
    : (stat | eos)* e=expr EOF # Prog // end
    | <assoc=right> 'q' e2=expr # Q
    ;

stat : 'if' expr ('then' stat?)? | ID '=' expr ';' | INDENT stat* DEDENT ;
eos : ';' ;
expr : expr '^' expr | expr ('*' | '/') expr | expr '.' ID | ID | (INT | AT) | STRING | '(' ( expr) ')' ;
primary : expr '.' ID | ID | (INT | AT) | STRING | '(' ( expr) ')' ;
item : ~(';' | INT | AT) . 'Key' ;

fragment LETTER : [_a-z\u203F\u2040\u2054\uFE33\uFE34\uFE4D-\uFE4F\uFF3F] ;
ID : LETTER (LETTER | '0'..'9')* ;
INT : '0'..'9'+ ;
STRING : '"' (~["\\] | '\\'+ ~'\\')* '"' ;
COMMENT : '/*' (~'*' | '*'+ ~[*/])* ('*'+ '/'?)? -> channel(HIDDEN) ;
LINE : '//' .*? '\n' -> skip ;
WS : (' ' | '\t')+ -> skip ;
NL_2 : '\n' -> skip ;
NL : '\r' ;
KEY : [Kk] [Ee] [Yy] | [X-Zx-z] ;

// shared rules

AT : '@' ;
"""

# A name, a grammar's bytes, and the error.
BROKEN = [
    ("nothing", b"", "1: error: the end of the text where grammar has to be"),
    ("no grammar", b"hello", "1: error: hello where grammar has to be"),
    ("no name", b"grammar ;", "1: error: ; where the name of the grammar has to be"),
    ("not UTF-8", b"grammar G;\n\xff", "1: error: not UTF-8 at byte 11"),
    ("action that isn't closed", b"grammar G;\na : {x 'y' ;\n", "2: error: this action isn't closed"),
    ("comment that isn't closed", b"grammar G;\n/* a : 'x' ;\n", "2: error: this comment isn't closed"),
    ("literal that isn't closed", b"grammar G;\na : 'x ;\n", "2: error: this literal isn't closed on its line"),
    ("set that isn't closed", b"grammar G;\nA : [x ;\n", "2: error: this set isn't closed on its line"),
    ("arguments that aren't closed", b"grammar G;\na : b[x ;\n", "2: error: this bracket isn't closed"),
    ("double quotes", b'grammar G;\na : "x" ;\n', "2: error: a literal is between ' and '"),
    ("ANTLR 3", b"grammar G;\na : b -> ^(c d) ;\n", "2: error: '^' is no word of ANTLR 4's notation"),
    ("no colon", b"grammar G;\na 'x' ;\n", "2: error: 'x' where : has to be"),
    ("no semicolon", b"grammar G;\na : 'x'\nb : 'y' ;\n", "3: error: : where an element has to be"),
    ("no bracket", b"grammar G;\na : ('x' ;\n", "2: error: ; where ) has to be"),
    ("suffix alone", b"grammar G;\na : * ;\n", "2: error: * where an element has to be"),
    ("option without a value", b"grammar G;\noptions { a = ; }\n", "2: error: ; where the value of an option has to be"),
    ("token of lower case", b"grammar G;\ntokens { a }\n", "2: error: a isn't the name of a token"),
    ("lexer alone", b"lexer grammar G;\nA : 'x' ;\n", "1: error: there is no parser rule; give the file of the parser too"),
    ("blocks too deep", b"grammar G;\na : " + b"(" * 1000 + b"'x'" + b")" * 1000 + b" ;\n", "2: error: blocks are more than 64 deep in one another"),
    ("empty literal", b"grammar G;\na : '' ;\n", "2: error: a literal without characters"),
    ("empty set", b"grammar G;\na : A ;\nA : [] ;\n", "3: error: a set without characters"),
    ("range the wrong way round", b"grammar G;\na : A ;\nA : [z-a] ;\n", "3: error: the range in [z-a] is the wrong way round"),
]


class FileTests(unittest.TestCase):
    def test_lexer_and_parser_are_joined(self):
        made = convert(PARSER, LEXER)
        self.assertEqual(made.text, JOINED)
        self.assertEqual(
            made.notes,
            [
                "0.g4:3: option tokenVocab=XLexer dropped",
                "1.g4:2: lexer grammar XLexer joined to XParser",
                "1.g4:3: channels dropped",
                "1.g4:9: channel NOTES made HIDDEN",
            ],
        )

    def test_a_pair_stays_a_pair(self):
        for files in ((PARSER, LEXER), (LEXER, PARSER)):
            made = convert_pair(*files)
            self.assertEqual(made.text, (PAIR_LEXER, PARSER))
            lexer = files.index(LEXER)
            self.assertEqual(made.notes, [f"{lexer}.g4:3: channels dropped", f"{lexer}.g4:9: channel NOTES made HIDDEN"])
            self.assertEqual(convert_pair(*made.text).text, made.text)
            self.assertEqual(convert_pair(*made.text).notes, [])

    def test_each_text_of_a_pair_keeps_its_tokens_and_rules(self):
        made = convert_pair("parser grammar P;\noptions { tokenVocab = L; }\ntokens { X }\na : A X Y Z ;\n", "lexer grammar L;\noptions { language = C; }\ntokens { Y }\nA : 'a' ;\n")
        self.assertEqual(made.text[0], "lexer grammar L;\ntokens { Y }\nA : 'a' ;\n")
        self.assertEqual(made.text[1], "parser grammar P;\noptions { tokenVocab = L; }\ntokens { X }\ntokens { Z }\na : A X Y Z ;\n")
        self.assertEqual(made.notes, ["0.g4:4: token Z declared: there is no lexer rule for it", "1.g4:2: options dropped"])

    def test_a_pair_is_a_parser_and_one_lexer(self):
        error = "a pair is a parser grammar and one lexer grammar"
        self.assertEqual(convert_pair("grammar G;\na : 'x' ;\n").notes, [f"1: error: {error}"])
        self.assertEqual(convert_pair(PARSER).notes, [f"2: error: {error}"])
        self.assertIn(f"0.g4:2: error: {error}", convert_pair(PARSER, LEXER, "lexer grammar M;\nB : 'b' ;\n").notes)

    def test_the_lexer_of_a_pair_is_written_to_its_file(self):
        with tempfile.TemporaryDirectory() as folder:
            kept = Path(folder, "Plain.g4")
            status, output, _ = run("--pair", str(kept), "P.g4", "L.g4", P=PARSER, L=LEXER)
            self.assertEqual((status, output, kept.read_text(encoding="utf-8")), (0, PARSER, PAIR_LEXER))
        status, output, errors = run("--pair", "none/L.g4", "P.g4", "L.g4", P=PARSER, L=LEXER)
        self.assertEqual((status, output), (1, ""))
        self.assertIn("error: none/L.g4: No such file or directory", errors)

    def test_order_of_files_does_not_matter(self):
        self.assertEqual(convert(LEXER, PARSER).text, JOINED)

    def test_missing_lexer_is_named(self):
        made = convert(PARSER)
        self.assertIn("3: error: give the file of XLexer too, which has the tokens", made.notes)
        self.assertTrue(made.failed)

    def test_missing_import_is_named(self):
        made = convert("grammar G;\nimport H;\na : 'x' ;\n")
        self.assertEqual(made.notes, ["2: error: give the file of H too, which is imported"])

    def test_imports_are_inlined_once_and_do_not_replace(self):
        made = convert("grammar G;\nimport H, I;\na : b ;\n", "parser grammar H;\nimport I;\na : 'no' ;\nb : C ;\n", "lexer grammar I;\nC : 'c' ;\n")
        self.assertEqual(made.text.split("\n\n"), ["grammar G;\na : b ;", "b : C ;", "C : 'c' ;\n"])
        self.assertFalse(made.failed)

    def test_two_parsers_are_refused(self):
        made = convert("grammar G;\na : 'x' ;\n", "grammar H;\nb : 'x' ;\n")
        self.assertEqual(made.notes, ["1.g4:1: error: two grammars with parser rules, G and H, of which none imports the other"])

    def test_all_at_once(self):
        made = convert(ALL, SHARED)
        self.assertEqual(made.text, ALL_PLAIN)
        self.assertFalse(made.failed)
        self.assertEqual(convert(made.text).text, made.text)
        self.assertEqual(convert(made.text).notes, [])

    def test_plain_grammars_stay_as_they_are(self):
        for path in sorted(EXAMPLES.glob("*.g4")):
            text = path.read_text(encoding="utf-8")
            if path.stem.endswith(("Parser", "Lexer")):
                continue
            for given in (text, text.replace("\n", "\r\n")):
                made = convert(given)
                self.assertEqual((made.text, made.notes), (given, []), path)

    def test_plain_grammar_without_blanks_stays_as_it_is(self):
        text = "grammar G;options{a=b;}a:x=b y+=(C|'d')*|~(B|C)~B#n|(b|c)?.EOF;b:B+('x'|)c?;c:C\n;B:'b'|[c]~[d]|~('e'|'f'..'g');C:'c'.*?'d'->skip;fragment D:'d'?;"
        made = convert(text)
        self.assertEqual((made.text, made.notes), (text, []))

    def test_all_comments_stay(self):
        text = "grammar G; // 1\n// 2\na /*3*/ [int x] /*4*/ returns [int y] // 5\n : /*6*/ {f();} /*7*/ 'x' /*8*/ EOF /*9*/ 'y' // 10\n ; // 11\n catch [E e] /*12*/ {} // 13\n"
        made = convert(text).text
        for number in range(1, 14):
            self.assertRegex(made, rf"(// |/\*){number}\b")

    def test_example_is_converted(self):
        folder = EXAMPLES.parent / "public"
        made = convert(*[(folder / name).read_text(encoding="utf-8") for name in ("SqlParser.g4", "SqlLexer.g4")], lists=True)
        self.assertEqual(made.text, (folder / "Sql.g4").read_text(encoding="utf-8"))
        self.assertEqual(convert(made.text).notes, [])
        pair = convert_pair(*[(folder / name).read_text(encoding="utf-8") for name in ("SqlParser.g4", "SqlLexer.g4")], lists=True)
        self.assertEqual(pair.text, tuple((folder / "plain" / name).read_text(encoding="utf-8") for name in ("SqlLexer.g4", "SqlParser.g4")))

    def test_blocks_64_deep_are_changed(self):
        inner = "(" * 64 + "'x'? {f();}" + ")*" * 64
        made = convert(f"grammar G;\na : {inner} A ;\nA : {'(' * 64}'x'{')*' * 64} .*? 'y' 'z' ;\n")
        self.assertFalse(made.failed, made.notes)
        self.assertIn("a : 'x'* A ;\n", made.text)

    def test_what_is_left_out_may_be_nested_without_end(self):
        deep = "{" * 5000 + "}" * 5000
        made = convert(f"grammar G;\n@members {deep}\na[{'[' * 5000}{']' * 5000}] : {deep} 'x' {deep}? ;\n")
        self.assertEqual(made.text, "grammar G;\na : 'x' ;\n")

    def test_long_chains_of_rules_are_followed(self):
        rules = [f"a{number} : a{number + 1}? ;\nA{number} : 'x' A{number + 1} ;\n" for number in range(1500)]
        made = convert("grammar G;\ns : a0* A0 ;\n" + "".join(rules) + "a1500 : 'x' ;\nA1500 : 'y'*? 'z' ;\n")
        self.assertFalse(made.failed, made.notes[-3:])

    def test_start_rule_comes_first(self):
        made = convert("grammar G;\na : 'x' ;\nb : a ;\n", start="b")
        self.assertEqual(made.text, "grammar G;\nb : a ;\na : 'x' ;\n")

    def test_unknown_start_is_an_error(self):
        self.assertEqual(convert("grammar G;\na : 'x' ;\n", start="b").notes, ["1: error: there is no parser rule b"])


class CommandTests(unittest.TestCase):
    def test_result_and_notes_are_apart(self):
        status, output, errors = run("G.g4", G="grammar G;\na : 'x' {f();} ;\n")
        self.assertEqual((status, output, errors), (0, "grammar G;\na : 'x' ;\n", "2: action dropped\n"))

    def test_what_cannot_be_done_has_status_1(self):
        status, output, errors = run("G.g4", G="grammar G;\na : b {f();} ;\n")
        self.assertEqual((status, output, errors), (1, "grammar G;\na : b ;\n", "2: action dropped\n2: error: there is no rule b\n"))

    def test_missing_file_is_an_error(self):
        status, output, errors = run("G.g4")
        self.assertEqual((status, output, errors), (1, "", "0: error: No such file or directory\n"))

    def test_broken_input_has_a_line_and_a_status(self):
        for name, given, error in BROKEN:
            with self.subTest(name):
                status, output, errors = run("G.g4", G=given)
                self.assertEqual((status, errors.splitlines()[-1]), (1, error))

    def test_damaged_grammars_leave_no_trace(self):
        chosen = random.Random(1)
        words = ["'", "{", "}", "[", "]", "(", ")", ";", ":", "|", "->", "more", "EOF", "*?", "~", "<", ">", "\\", "\n", "/*", "mode X;", "é", "ID"]
        for _ in range(300):
            text = ALL if chosen.random() < 0.7 else PARSER + LEXER
            for _ in range(chosen.randint(1, 4)):
                at = chosen.randrange(len(text))
                text = text[:at] + chosen.choice(words) + text[at + chosen.randrange(12) :]
            made = convert(text, SHARED)
            self.assertTrue(made.text is not None or made.failed)

    def test_check_shows_a_fault_at_the_line_of_the_source(self):
        self.check("printf 'perses: grammar: no base in b\\n'; exit 5", ["4: error: perses: no base in b"])

    def test_check_shows_a_byte_at_the_line_of_the_source(self):
        self.check("printf 'perses: grammar: syntax at byte 23\\n'; exit 5", ["4: error: perses: syntax at byte 23"])

    def test_check_says_nothing_of_a_good_grammar(self):
        self.check("grep -q '^a : b ;' \"$3\"", [])

    def test_check_without_the_program_is_an_error(self):
        status, _, errors = run("--check", "--perses", "./none", "G.g4", G="grammar G;\na : 'x' ;\n")
        self.assertEqual((status, errors), (1, "1: error: perses: ./none: No such file or directory\n"))

    def test_check_of_a_pair_gives_both_texts_and_finds_the_lines_of_both(self):
        for fault, error in (
            ("in lexer: syntax at byte 37", "L.g4:5: error: perses: in lexer: syntax at byte 37"),
            ("in parser: syntax at byte 86", "P.g4:6: error: perses: in parser: syntax at byte 86"),
            ("empty token ADD", "L.g4:7: error: perses: empty token ADD"),
        ):
            with tempfile.TemporaryDirectory() as folder:
                program = Path(folder, "program")
                program.write_text(f"#!/bin/sh\ngrep -q '^parser' \"$3\" && test \"$4\" = --lexer && grep -q '^lexer' \"$5\" && printf 'perses: grammar: {fault}\\n'\nexit 5\n")
                os.chmod(program, 0o755)
                status, _, errors = run("--check", "--perses", str(program), "--pair", os.path.join(folder, "L.g4"), "P.g4", "L.g4", P=PARSER, L=LEXER)
            self.assertEqual(status, 1)
            self.assertIn(error, errors.splitlines())

    def check(self, script, errors):
        """Runs --check with a program in place of Perses."""
        with tempfile.TemporaryDirectory() as folder:
            program = Path(folder, "program")
            program.write_text("#!/bin/sh\n" + script + "\n")
            os.chmod(program, 0o755)
            status, output, notes = run("--check", "--perses", str(program), "G.g4", G="grammar G;\n@x {}\na : b ;\nb : 'x' ;\n")
        self.assertEqual(notes.splitlines(), ["2: @x dropped", *errors])
        self.assertEqual(status, 1 if errors else 0)
        self.assertEqual(output, "grammar G;\na : b ;\nb : 'x' ;\n")
