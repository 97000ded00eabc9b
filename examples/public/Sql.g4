// A part of SQL, as public ANTLR 4 grammars are mostly written: with a lexer in a file of its own, and members, actions,
// arguments, results and a predicate in the language that the parser is generated in.
grammar SqlParser;

options {
    superClass = SqlBaseParser;
}

script
    : (statement? SEMICOLON)* EOF
    ;

statement
    : query
    | insert
    | update
    | deletion
    | created=createTable
    | createIndex
    | createView
    | createTrigger
    ;

// Queries

query : with? compound orderBy? limit? ;
with : WITH tableExpression (COMMA tableExpression)* ;
tableExpression : identifier (OPEN names CLOSE)? AS OPEN query CLOSE ;

compound
    : left=compound (UNION ALL? | EXCEPT | INTERSECT) right=compound # SetOperation
    | SELECT (DISTINCT | ALL)? column (COMMA column)* from? where? groupBy? # Select
    | VALUES row (COMMA row)* # Values
    ;

column : (identifier DOT)? STAR | expr (AS? alias=identifier)? ;
from : FROM source (COMMA source)* ;
source
    : source (LEFT OUTER? | INNER)? JOIN source (ON expr)?
    | (qualified | OPEN query CLOSE) (AS? alias=identifier)?
    ;
where : WHERE expr ;
groupBy : GROUP BY exprs (HAVING expr)? ;
orderBy : ORDER BY ordered (COMMA ordered)* ;
ordered : expr (ASC | DESC)? ;
limit : LIMIT expr ;

// Statements that change rows

insert : INSERT (OR identifier)? INTO qualified (OPEN names CLOSE)? (query | DEFAULT VALUES) conflict? returning? ;
conflict : ON CONFLICT (OPEN names CLOSE)? DO (NOTHING | UPDATE SET assignments where?) ;
update : UPDATE qualified SET assignments where? returning? ;
deletion : DELETE FROM qualified where? returning? ;
assignments : assignment (COMMA assignment)* ;
assignment : identifier EQUAL expr ;
returning : RETURNING column (COMMA column)* ;

// Statements that create something

createTable
    : CREATE TABLE (IF NOT EXISTS)? name=qualified
      (OPEN part (COMMA part)* CLOSE | AS query)
    ;
part : columnDefinition | tableConstraint ;
columnDefinition : identifier type? columnConstraint* ;
type : ( NAME )+ (OPEN NUMBER (COMMA NUMBER)? CLOSE)? ;
columnConstraint
    : NOT? NULL
    | PRIMARY KEY
    | UNIQUE
    | DEFAULT (literal | (PLUS | MINUS) NUMBER | OPEN expr CLOSE)
    | CHECK OPEN expr CLOSE
    | reference
    ;
tableConstraint
    : (PRIMARY KEY | UNIQUE) OPEN names CLOSE
    | CHECK OPEN expr CLOSE
    | FOREIGN KEY OPEN names CLOSE reference
    ;
reference : REFERENCES qualified (OPEN names CLOSE)? ;

createIndex : CREATE UNIQUE? INDEX qualified ON qualified OPEN names CLOSE ;
createView : CREATE VIEW qualified AS query ;
createTrigger
    : CREATE TRIGGER qualified (BEFORE | AFTER) (INSERT | DELETE | UPDATE (OF names)?) ON qualified
      (FOR EACH ROW)? (WHEN expr)? BEGIN ((query | insert | update | deletion) SEMICOLON)+ END
    ;

// Expressions; the argument is how deep an expression is.

row : OPEN exprs CLOSE ;
exprs : expr (COMMA expr)* ;

expr
    : op=(PLUS | MINUS) expr
    | expr JOINED expr
    | expr op=(STAR | SLASH | PERCENT) expr
    | expr op=(PLUS | MINUS) expr
    | expr op=(LESS | LESS_OR_EQUAL | GREATER | GREATER_OR_EQUAL) expr
    | expr op=(EQUAL | UNEQUAL) expr
    | expr IS NOT? expr
    | expr NOT? LIKE expr
    | expr NOT? BETWEEN expr AND expr
    | expr NOT? IN (OPEN exprs? CLOSE | OPEN query CLOSE)
    | <assoc=right> NOT expr
    | expr AND expr
    | expr OR expr
    | primary
    ;

primary
    : literal
    | qualified
    | (NEW DOT identifier)
    | identifier OPEN STAR? CLOSE
    | identifier OPEN DISTINCT? exprs CLOSE
    | CASE expr? (WHEN expr THEN expr)+ (ELSE expr)? END
    | CAST OPEN expr AS type CLOSE
    | (NOT? EXISTS)? OPEN query CLOSE
    | OPEN exprs CLOSE
    ;

literal : NUMBER | STRING | NULL ;
qualified : identifier (DOT identifier)? ;
names : identifier (COMMA identifier)* ;
identifier
    : word=NAME
    | quoted=QUOTED_NAME
    ;

// The words of a part of SQL, as public ANTLR 4 grammars are mostly written: a lexer of its own, key words in any
// case, comments on a channel, members and actions in the parser's language, and a mode for quoted names.

// Key words

AFTER : [Aa] [Ff] [Tt] [Ee] [Rr] ;
ALL : [Aa] [Ll] [Ll] ;
AND : [Aa] [Nn] [Dd] ;
AS : [Aa] [Ss] ;
ASC : [Aa] [Ss] [Cc] ;
BEFORE : [Bb] [Ee] [Ff] [Oo] [Rr] [Ee] ;
BEGIN : [Bb] [Ee] [Gg] [Ii] [Nn] ;
BETWEEN : [Bb] [Ee] [Tt] [Ww] [Ee] [Ee] [Nn] ;
BY : [Bb] [Yy] ;
CASE : [Cc] [Aa] [Ss] [Ee] ;
CAST : [Cc] [Aa] [Ss] [Tt] ;
CHECK : [Cc] [Hh] [Ee] [Cc] [Kk] ;
CONFLICT : [Cc] [Oo] [Nn] [Ff] [Ll] [Ii] [Cc] [Tt] ;
CREATE : [Cc] [Rr] [Ee] [Aa] [Tt] [Ee] ;
DEFAULT : [Dd] [Ee] [Ff] [Aa] [Uu] [Ll] [Tt] ;
DELETE : [Dd] [Ee] [Ll] [Ee] [Tt] [Ee] ;
DESC : [Dd] [Ee] [Ss] [Cc] ;
DISTINCT : [Dd] [Ii] [Ss] [Tt] [Ii] [Nn] [Cc] [Tt] ;
DO : [Dd] [Oo] ;
EACH : [Ee] [Aa] [Cc] [Hh] ;
ELSE : [Ee] [Ll] [Ss] [Ee] ;
END : [Ee] [Nn] [Dd] ;
EXCEPT : [Ee] [Xx] [Cc] [Ee] [Pp] [Tt] ;
EXISTS : [Ee] [Xx] [Ii] [Ss] [Tt] [Ss] ;
FOR : [Ff] [Oo] [Rr] ;
FOREIGN : [Ff] [Oo] [Rr] [Ee] [Ii] [Gg] [Nn] ;
FROM : [Ff] [Rr] [Oo] [Mm] ;
GROUP : [Gg] [Rr] [Oo] [Uu] [Pp] ;
HAVING : [Hh] [Aa] [Vv] [Ii] [Nn] [Gg] ;
IF : [Ii] [Ff] ;
IN : [Ii] [Nn] ;
INDEX : [Ii] [Nn] [Dd] [Ee] [Xx] ;
INNER : [Ii] [Nn] [Nn] [Ee] [Rr] ;
INSERT : [Ii] [Nn] [Ss] [Ee] [Rr] [Tt] ;
INTERSECT : [Ii] [Nn] [Tt] [Ee] [Rr] [Ss] [Ee] [Cc] [Tt] ;
INTO : [Ii] [Nn] [Tt] [Oo] ;
IS : [Ii] [Ss] ;
JOIN : [Jj] [Oo] [Ii] [Nn] ;
KEY : [Kk] [Ee] [Yy] ;
LEFT : [Ll] [Ee] [Ff] [Tt] ;
LIKE : [Ll] [Ii] [Kk] [Ee] ;
LIMIT : [Ll] [Ii] [Mm] [Ii] [Tt] ;
NEW : [Nn] [Ee] [Ww] ;
NOT : [Nn] [Oo] [Tt] ;
NOTHING : [Nn] [Oo] [Tt] [Hh] [Ii] [Nn] [Gg] ;
NULL : [Nn] [Uu] [Ll] [Ll] ;
OF : [Oo] [Ff] ;
ON : [Oo] [Nn] ;
OR : [Oo] [Rr] ;
ORDER : [Oo] [Rr] [Dd] [Ee] [Rr] ;
OUTER : [Oo] [Uu] [Tt] [Ee] [Rr] ;
PRIMARY : [Pp] [Rr] [Ii] [Mm] [Aa] [Rr] [Yy] ;
REFERENCES : [Rr] [Ee] [Ff] [Ee] [Rr] [Ee] [Nn] [Cc] [Ee] [Ss] ;
RETURNING : [Rr] [Ee] [Tt] [Uu] [Rr] [Nn] [Ii] [Nn] [Gg] ;
ROW : [Rr] [Oo] [Ww] ;
SELECT : [Ss] [Ee] [Ll] [Ee] [Cc] [Tt] ;
SET : [Ss] [Ee] [Tt] ;
TABLE : [Tt] [Aa] [Bb] [Ll] [Ee] ;
THEN : [Tt] [Hh] [Ee] [Nn] ;
TRIGGER : [Tt] [Rr] [Ii] [Gg] [Gg] [Ee] [Rr] ;
UNION : [Uu] [Nn] [Ii] [Oo] [Nn] ;
UNIQUE : [Uu] [Nn] [Ii] [Qq] [Uu] [Ee] ;
UPDATE : [Uu] [Pp] [Dd] [Aa] [Tt] [Ee] ;
VALUES : [Vv] [Aa] [Ll] [Uu] [Ee] [Ss] ;
VIEW : [Vv] [Ii] [Ee] [Ww] ;
WHEN : [Ww] [Hh] [Ee] [Nn] ;
WHERE : [Ww] [Hh] [Ee] [Rr] [Ee] ;
WITH : [Ww] [Ii] [Tt] [Hh] ;

// Signs

SEMICOLON : ';' ;
COMMA : ',' ;
DOT : '.' ;
OPEN : '(' ;
CLOSE : ')' ;
STAR : '*' ;
SLASH : '/' ;
PERCENT : '%' ;
PLUS : '+' ;
MINUS : '-' ;
JOINED : '||' ;
EQUAL : '=' | '==' ;
UNEQUAL : '<>' | '!=' ;
LESS : '<' ;
LESS_OR_EQUAL : '<=' ;
GREATER : '>' ;
GREATER_OR_EQUAL : '>=' ;

// Values and names

NUMBER : DIGIT+ ('.' DIGIT*)? EXPONENT? | '.' DIGIT+ EXPONENT? ;
STRING : '\'' (~'\'' | '\'\'')* '\'' ;
NAME : LETTER (LETTER | DIGIT)* ;
QUOTED_NAME : '"' (~'"' | '""')* '"' ;

fragment LETTER : [A-Z_a-z] ;
fragment DIGIT : [0-9] ;
fragment EXPONENT : [Ee] [+\-]? DIGIT+ ;

// Blanks and comments

BLANKS : [ \t\r\n]+ -> skip ;
LINE_COMMENT : '--' ~'\n'* '\n'? -> channel(HIDDEN) ;
BLOCK_COMMENT : '/*' (~'*' | '*'+ ~[*/])* ('*'+ '/'?)? -> channel(HIDDEN) ;
// A name in quotes
