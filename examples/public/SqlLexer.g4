// The words of a part of SQL, as public ANTLR 4 grammars are mostly written: a lexer of its own, key words in any
// case, comments on a channel, members and actions in the parser's language, and a mode for quoted names.
lexer grammar SqlLexer;

options { caseInsensitive = true; }

channels { COMMENTS }

@members {
    /** The text of a quoted name without its quotes. */
    private String unquoted(String text) {
        return text.substring(1, text.length() - 1).replace("\"\"", "\""); // the quote in a name is '"' twice
    }
}

// Key words

AFTER : 'AFTER' ;
ALL : 'ALL' ;
AND : 'AND' ;
AS : 'AS' ;
ASC : 'ASC' ;
BEFORE : 'BEFORE' ;
BEGIN : 'BEGIN' ;
BETWEEN : 'BETWEEN' ;
BY : 'BY' ;
CASE : 'CASE' ;
CAST : 'CAST' ;
CHECK : 'CHECK' ;
CONFLICT : 'CONFLICT' ;
CREATE : 'CREATE' ;
DEFAULT : 'DEFAULT' ;
DELETE : 'DELETE' ;
DESC : 'DESC' ;
DISTINCT : 'DISTINCT' ;
DO : 'DO' ;
EACH : 'EACH' ;
ELSE : 'ELSE' ;
END : 'END' ;
EXCEPT : 'EXCEPT' ;
EXISTS : 'EXISTS' ;
FOR : 'FOR' ;
FOREIGN : 'FOREIGN' ;
FROM : 'FROM' ;
GROUP : 'GROUP' ;
HAVING : 'HAVING' ;
IF : 'IF' ;
IN : 'IN' ;
INDEX : 'INDEX' ;
INNER : 'INNER' ;
INSERT : 'INSERT' ;
INTERSECT : 'INTERSECT' ;
INTO : 'INTO' ;
IS : 'IS' ;
JOIN : 'JOIN' ;
KEY : 'KEY' ;
LEFT : 'LEFT' ;
LIKE : 'LIKE' ;
LIMIT : 'LIMIT' ;
NEW : 'NEW' ;
NOT : 'NOT' ;
NOTHING : 'NOTHING' ;
NULL : 'NULL' ;
OF : 'OF' ;
ON : 'ON' ;
OR : 'OR' ;
ORDER : 'ORDER' ;
OUTER : 'OUTER' ;
PRIMARY : 'PRIMARY' ;
REFERENCES : 'REFERENCES' ;
RETURNING : 'RETURNING' ;
ROW : 'ROW' ;
SELECT : 'SELECT' ;
SET : 'SET' ;
TABLE : 'TABLE' ;
THEN : 'THEN' ;
TRIGGER : 'TRIGGER' ;
UNION : 'UNION' ;
UNIQUE : 'UNIQUE' ;
UPDATE : 'UPDATE' ;
VALUES : 'VALUES' ;
VIEW : 'VIEW' ;
WHEN : 'WHEN' ;
WHERE : 'WHERE' ;
WITH : 'WITH' ;

// Signs

SEMICOLON : ';' ;
COMMA : ',' ;
DOT : '.' ;
OPEN : '(' ;
CLOSE : ')' ;
STAR : '*' ;
SLASH : '/' ;
PERCENT : '%' ;
PLUS : '+' ;
MINUS : '-' ;
JOINED : '||' ;
EQUAL : '=' | '==' ;
UNEQUAL : '<>' | '!=' ;
LESS : '<' ;
LESS_OR_EQUAL : '<=' ;
GREATER : '>' ;
GREATER_OR_EQUAL : '>=' ;

// Values and names

NUMBER : DIGIT+ ('.' DIGIT*)? EXPONENT? | '.' DIGIT+ EXPONENT? ;
STRING : '\'' (~'\'' | '\'\'')* '\'' { setText(unquoted(getText())); } ;
NAME : LETTER (LETTER | DIGIT)* ;
QUOTE : '"' -> more, pushMode(QUOTED) ;

fragment LETTER : [A-Z_] ;
fragment DIGIT : [0-9] ;
fragment EXPONENT : 'E' [+\-]? DIGIT+ ;

// Blanks and comments

BLANKS : [ \t\r\n]+ -> skip ;
LINE_COMMENT : '--' .*? ('\r'? '\n' | EOF) -> channel(COMMENTS) ;
BLOCK_COMMENT : '/*' .*? ('*/' | EOF) -> channel(COMMENTS) ;

// A name in quotes

mode QUOTED;

QUOTED_NAME : '"' { setText(unquoted(getText())); } -> popMode ;
QUOTED_QUOTE : '""' -> more ;
QUOTED_TEXT : ~'"' -> more ;
