// S-expressions, as Lisp and Scheme programs are written in: lists and atoms.
//
// Covers proper and dotted lists in round and square brackets, vectors, quotes, strings, characters, numbers, booleans
// and keywords, symbols, and comments to the end of the line and in `#| |#`. Not covered: nested `#| |#`, datum comments
// (`#;`), symbols between bars, and reader macros.
grammar SExpression;

file : form* EOF ;

form : '(' form* ')'
     | '(' form+ '.' form ')'
     | '[' form* ']'
     | '#(' form* ')'
     | ('\'' | '`' | ',' | ',@' | '#\'') form
     | atom
     ;

atom : NUMBER | STRING | CHARACTER | BOOLEAN | SYMBOL ;

NUMBER : [+\-]? DIGIT+ ('.' DIGIT* | '/' DIGIT+)? EXPONENT?
       | [+\-]? '.' DIGIT+ EXPONENT?
       | '#' [xX] [+\-]? [0-9a-fA-F]+
       | '#' [bB] [+\-]? [01]+
       ;
STRING : '"' (~["\\] | '\\' .)* '"' ;
CHARACTER : '#\\' (. | [a-zA-Z] [a-zA-Z0-9]+) ;
BOOLEAN : '#' ('t' | 'f' | 'true' | 'false') ;
SYMBOL : INITIAL (INITIAL | DIGIT | [.+\-@])* | [+\-] | '...' | [+\-] INITIAL (INITIAL | DIGIT | [.+\-@])* ;

BLOCK_COMMENT : '#|' .*? '|#' -> skip ;
LINE_COMMENT : ';' ~[\n]* -> skip ;
BLANKS : [ \t\r\n\f]+ -> skip ;

fragment INITIAL : [a-zA-Z!$%&*/:<=>?^_~] | [\u00A1-\uFFFD] ;
fragment DIGIT : [0-9] ;
fragment EXPONENT : [eE] [+\-]? DIGIT+ ;
