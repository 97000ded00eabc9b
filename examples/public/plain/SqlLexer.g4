// The words of a part of SQL, as public ANTLR 4 grammars are mostly written: a lexer of its own, key words in any
// case, comments on a channel, members and actions in the parser's language, and a mode for quoted names.
lexer grammar SqlLexer;

// Key words

AFTER : [Aa] [Ff] [Tt] [Ee] [Rr] ;
ALL : [Aa] [Ll] [Ll] ;
AND : [Aa] [Nn] [Dd] ;
AS : [Aa] [Ss] ;
ASC : [Aa] [Ss] [Cc] ;
BEFORE : [Bb] [Ee] [Ff] [Oo] [Rr] [Ee] ;
BEGIN : [Bb] [Ee] [Gg] [Ii] [Nn] ;
BETWEEN : [Bb] [Ee] [Tt] [Ww] [Ee] [Ee] [Nn] ;
BY : [Bb] [Yy] ;
CASE : [Cc] [Aa] [Ss] [Ee] ;
CAST : [Cc] [Aa] [Ss] [Tt] ;
CHECK : [Cc] [Hh] [Ee] [Cc] [Kk] ;
CONFLICT : [Cc] [Oo] [Nn] [Ff] [Ll] [Ii] [Cc] [Tt] ;
CREATE : [Cc] [Rr] [Ee] [Aa] [Tt] [Ee] ;
DEFAULT : [Dd] [Ee] [Ff] [Aa] [Uu] [Ll] [Tt] ;
DELETE : [Dd] [Ee] [Ll] [Ee] [Tt] [Ee] ;
DESC : [Dd] [Ee] [Ss] [Cc] ;
DISTINCT : [Dd] [Ii] [Ss] [Tt] [Ii] [Nn] [Cc] [Tt] ;
DO : [Dd] [Oo] ;
EACH : [Ee] [Aa] [Cc] [Hh] ;
ELSE : [Ee] [Ll] [Ss] [Ee] ;
END : [Ee] [Nn] [Dd] ;
EXCEPT : [Ee] [Xx] [Cc] [Ee] [Pp] [Tt] ;
EXISTS : [Ee] [Xx] [Ii] [Ss] [Tt] [Ss] ;
FOR : [Ff] [Oo] [Rr] ;
FOREIGN : [Ff] [Oo] [Rr] [Ee] [Ii] [Gg] [Nn] ;
FROM : [Ff] [Rr] [Oo] [Mm] ;
GROUP : [Gg] [Rr] [Oo] [Uu] [Pp] ;
HAVING : [Hh] [Aa] [Vv] [Ii] [Nn] [Gg] ;
IF : [Ii] [Ff] ;
IN : [Ii] [Nn] ;
INDEX : [Ii] [Nn] [Dd] [Ee] [Xx] ;
INNER : [Ii] [Nn] [Nn] [Ee] [Rr] ;
INSERT : [Ii] [Nn] [Ss] [Ee] [Rr] [Tt] ;
INTERSECT : [Ii] [Nn] [Tt] [Ee] [Rr] [Ss] [Ee] [Cc] [Tt] ;
INTO : [Ii] [Nn] [Tt] [Oo] ;
IS : [Ii] [Ss] ;
JOIN : [Jj] [Oo] [Ii] [Nn] ;
KEY : [Kk] [Ee] [Yy] ;
LEFT : [Ll] [Ee] [Ff] [Tt] ;
LIKE : [Ll] [Ii] [Kk] [Ee] ;
LIMIT : [Ll] [Ii] [Mm] [Ii] [Tt] ;
NEW : [Nn] [Ee] [Ww] ;
NOT : [Nn] [Oo] [Tt] ;
NOTHING : [Nn] [Oo] [Tt] [Hh] [Ii] [Nn] [Gg] ;
NULL : [Nn] [Uu] [Ll] [Ll] ;
OF : [Oo] [Ff] ;
ON : [Oo] [Nn] ;
OR : [Oo] [Rr] ;
ORDER : [Oo] [Rr] [Dd] [Ee] [Rr] ;
OUTER : [Oo] [Uu] [Tt] [Ee] [Rr] ;
PRIMARY : [Pp] [Rr] [Ii] [Mm] [Aa] [Rr] [Yy] ;
REFERENCES : [Rr] [Ee] [Ff] [Ee] [Rr] [Ee] [Nn] [Cc] [Ee] [Ss] ;
RETURNING : [Rr] [Ee] [Tt] [Uu] [Rr] [Nn] [Ii] [Nn] [Gg] ;
ROW : [Rr] [Oo] [Ww] ;
SELECT : [Ss] [Ee] [Ll] [Ee] [Cc] [Tt] ;
SET : [Ss] [Ee] [Tt] ;
TABLE : [Tt] [Aa] [Bb] [Ll] [Ee] ;
THEN : [Tt] [Hh] [Ee] [Nn] ;
TRIGGER : [Tt] [Rr] [Ii] [Gg] [Gg] [Ee] [Rr] ;
UNION : [Uu] [Nn] [Ii] [Oo] [Nn] ;
UNIQUE : [Uu] [Nn] [Ii] [Qq] [Uu] [Ee] ;
UPDATE : [Uu] [Pp] [Dd] [Aa] [Tt] [Ee] ;
VALUES : [Vv] [Aa] [Ll] [Uu] [Ee] [Ss] ;
VIEW : [Vv] [Ii] [Ee] [Ww] ;
WHEN : [Ww] [Hh] [Ee] [Nn] ;
WHERE : [Ww] [Hh] [Ee] [Rr] [Ee] ;
WITH : [Ww] [Ii] [Tt] [Hh] ;

// Signs

SEMICOLON : ';' ;
COMMA : ',' ;
DOT : '.' ;
OPEN : '(' ;
CLOSE : ')' ;
STAR : '*' ;
SLASH : '/' ;
PERCENT : '%' ;
PLUS : '+' ;
MINUS : '-' ;
JOINED : '||' ;
EQUAL : '=' | '==' ;
UNEQUAL : '<>' | '!=' ;
LESS : '<' ;
LESS_OR_EQUAL : '<=' ;
GREATER : '>' ;
GREATER_OR_EQUAL : '>=' ;

// Values and names

NUMBER : DIGIT+ ('.' DIGIT*)? EXPONENT? | '.' DIGIT+ EXPONENT? ;
STRING : '\'' (~'\'' | '\'\'')* '\'' ;
NAME : LETTER (LETTER | DIGIT)* ;
QUOTED_NAME : '"' (~'"' | '""')* '"' ;

fragment LETTER : [A-Z_a-z] ;
fragment DIGIT : [0-9] ;
fragment EXPONENT : [Ee] [+\-]? DIGIT+ ;

// Blanks and comments

BLANKS : [ \t\r\n]+ -> skip ;
LINE_COMMENT : '--' ~'\n'* '\n'? -> channel(HIDDEN) ;
BLOCK_COMMENT : '/*' (~'*' | '*'+ ~[*/])* ('*'+ '/'?)? -> channel(HIDDEN) ;
