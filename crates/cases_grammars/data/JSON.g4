// JSON, as RFC 8259 has it: one value, with blanks between its parts.
//
// Covers objects, arrays, strings with their escapes, numbers and the three names. Members and elements stand in
// lists that may be empty, so that each but the first can be deleted by itself, and all of them at once.
grammar JSON;

json : value EOF ;

value : object | array | STRING | NUMBER | 'true' | 'false' | 'null' ;

object : '{' (member (',' member)*)? '}' ;
member : STRING ':' value ;
array : '[' (value (',' value)*)? ']' ;

STRING : '"' (~["\\\u0000-\u001F] | ESCAPE)* '"' ;
NUMBER : '-'? INTEGER ('.' DIGIT+)? ([eE] [+\-]? DIGIT+)? ;
BLANKS : [ \t\r\n]+ -> skip ;

fragment ESCAPE : '\\' (["\\/bfnrt] | 'u' HEX HEX HEX HEX) ;
fragment INTEGER : '0' | [1-9] DIGIT* ;
fragment DIGIT : [0-9] ;
fragment HEX : [0-9a-fA-F] ;
