"""The grammar Mini and texts of it: functions of three lines each, as several benches have them."""
import re

GRAMMAR = r"""grammar Mini;
file : func* EOF ;
func : type ID '(' params? ')' block ;
params : type ID (',' type ID)* ;
type : 'int' | 'char' ;
block : '{' stmt* '}' ;
stmt : type ID ('=' expr)? ';'
     | ID '=' expr ';'
     | 'if' '(' expr ')' block ('else' block)?
     | 'while' '(' expr ')' block
     | 'return' expr? ';'
     | block
     ;
expr : expr ('*' | '/') expr
     | expr ('+' | '-') expr
     | ID '(' (expr (',' expr)*)? ')'
     | '(' expr ')'
     | ID
     | INT
     | STR
     ;
ID : [a-zA-Z_] [a-zA-Z_0-9]* ;
INT : [0-9]+ ;
STR : '"' (~["\\\n] | '\\' .)* '"' ;
COMMENT : '/*' .*? '*/' -> skip ;
LINE : '//' ~[\n]* -> channel(HIDDEN) ;
WS : [ \t\r\n]+ -> skip ;
"""

# A token is a group.
TOKEN = re.compile(rb'/\*.*?\*/|//[^\n]*|\s+|([a-zA-Z_]\w*|[0-9]+|"[^"]*"|[-+*/=(){},;])')

LINES = [
    "  int c = a * 2;\n",
    "  if (a) { b = f0(a, 1); } else { return b; }\n",
    "  while (b - 1) { b = (a + b) / 3; } // loop\n",
    '  /* note */ return "s" + a;\n',
]

TARGET = '  Q = f0(a, (b + "Z"));\n'


def functions(size, target=None):
    """So many functions, of which the target, if there is one, has a line more."""
    made = []
    for function in range(size):
        made.append(f"int f{function}(int a, char b) {{\n")
        made += [LINES[(function + line) % 4] for line in range(3)]
        if function == target:
            made.append(TARGET)
        made.append("}\n")
    return "".join(made)


def made_case(number, size):
    """The generated case of this number: so many functions, one of which, chosen by the number, is the target."""
    return functions(size, (number * 6364136223846793005 + 1442695040888963407) % 2**64 // 2**33 % size)


def tokens(text):
    """The tokens of a text, which is bytes."""
    return [match[1] for match in TOKEN.finditer(text) if match[1] is not None]
