// Expressions with fifteen levels of binary operators, each level a rule of its own, as grammars of C or Java have.
//
// A file is assignments, each with a semicolon. Operators of a later level bind tighter: a comma joins least, `*` most.
// The tree of a single name has each level once, so its trees are large for their text.
grammar Expressions;

file : statement* EOF ;

statement : ID '=' expression ';' ;

expression : implication (',' implication)* ;
implication : equivalence ('=>' equivalence)* ;
equivalence : coalescing ('<=>' coalescing)* ;
coalescing : disjunction ('??' disjunction)* ;
disjunction : exclusion ('||' exclusion)* ;
exclusion : conjunction ('^^' conjunction)* ;
conjunction : bitOr ('&&' bitOr)* ;
bitOr : bitXor ('|' bitXor)* ;
bitXor : bitAnd ('^' bitAnd)* ;
bitAnd : equality ('&' equality)* ;
equality : relation (('==' | '!=') relation)* ;
relation : shift (('<' | '>' | '<=' | '>=') shift)* ;
shift : sum (('<<' | '>>') sum)* ;
sum : product (('+' | '-') product)* ;
product : unary (('*' | '/' | '%') unary)* ;

unary : ('-' | '!' | '~') unary | primary ;
primary : ID ('(' expression? ')')? | NUMBER | '(' expression ')' ;

ID : [a-zA-Z_] [a-zA-Z_0-9]* ;
NUMBER : [0-9]+ ('.' [0-9]+)? ;

COMMENT : '//' ~[\n]* -> skip ;
BLANKS : [ \t\r\n]+ -> skip ;
