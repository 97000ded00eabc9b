// A part of SQL, as public ANTLR 4 grammars are mostly written: with a lexer in a file of its own, and members, actions,
// arguments, results and a predicate in the language that the parser is generated in.
parser grammar SqlParser;
options { tokenVocab = SqlLexer; }

options {
    superClass = SqlBaseParser;
}

script
    : (statement? SEMICOLON)* EOF
    ;

statement
    : query
    | insert
    | update
    | deletion
    | created=createTable
    | createIndex
    | createView
    | createTrigger
    ;

// Queries

query : with? compound orderBy? limit? ;
with : WITH tableExpression (COMMA tableExpression)* ;
tableExpression : identifier (OPEN names CLOSE)? AS OPEN query CLOSE ;

compound
    : left=compound (UNION ALL? | EXCEPT | INTERSECT) right=compound # SetOperation
    | SELECT (DISTINCT | ALL)? column (COMMA column)* from? where? groupBy? # Select
    | VALUES row (COMMA row)* # Values
    ;

column : (identifier DOT)? STAR | expr (AS? alias=identifier)? ;
from : FROM source (COMMA source)* ;
source
    : source (LEFT OUTER? | INNER)? JOIN source (ON expr)?
    | (qualified | OPEN query CLOSE) (AS? alias=identifier)?
    ;
where : WHERE expr ;
groupBy : GROUP BY exprs (HAVING expr)? ;
orderBy : ORDER BY ordered (COMMA ordered)* ;
ordered : expr (ASC | DESC)? ;
limit : LIMIT expr ;

// Statements that change rows

insert : INSERT (OR identifier)? INTO qualified (OPEN names CLOSE)? (query | DEFAULT VALUES) conflict? returning? ;
conflict : ON CONFLICT (OPEN names CLOSE)? DO (NOTHING | UPDATE SET assignments where?) ;
update : UPDATE qualified SET assignments where? returning? ;
deletion : DELETE FROM qualified where? returning? ;
assignments : assignment (COMMA assignment)* ;
assignment : identifier EQUAL expr ;
returning : RETURNING column (COMMA column)* ;

// Statements that create something

createTable
    : CREATE TABLE (IF NOT EXISTS)? name=qualified
      (OPEN part (COMMA part)* CLOSE | AS query)
    ;
part : columnDefinition | tableConstraint ;
columnDefinition : identifier type? columnConstraint* ;
type : ( NAME )+ (OPEN NUMBER (COMMA NUMBER)? CLOSE)? ;
columnConstraint
    : NOT? NULL
    | PRIMARY KEY
    | UNIQUE
    | DEFAULT (literal | (PLUS | MINUS) NUMBER | OPEN expr CLOSE)
    | CHECK OPEN expr CLOSE
    | reference
    ;
tableConstraint
    : (PRIMARY KEY | UNIQUE) OPEN names CLOSE
    | CHECK OPEN expr CLOSE
    | FOREIGN KEY OPEN names CLOSE reference
    ;
reference : REFERENCES qualified (OPEN names CLOSE)? ;

createIndex : CREATE UNIQUE? INDEX qualified ON qualified OPEN names CLOSE ;
createView : CREATE VIEW qualified AS query ;
createTrigger
    : CREATE TRIGGER qualified (BEFORE | AFTER) (INSERT | DELETE | UPDATE (OF names)?) ON qualified
      (FOR EACH ROW)? (WHEN expr)? BEGIN ((query | insert | update | deletion) SEMICOLON)+ END
    ;

// Expressions; the argument is how deep an expression is.

row : OPEN exprs CLOSE ;
exprs : expr (COMMA expr)* ;

expr
    : op=(PLUS | MINUS) expr
    | expr JOINED expr
    | expr op=(STAR | SLASH | PERCENT) expr
    | expr op=(PLUS | MINUS) expr
    | expr op=(LESS | LESS_OR_EQUAL | GREATER | GREATER_OR_EQUAL) expr
    | expr op=(EQUAL | UNEQUAL) expr
    | expr IS NOT? expr
    | expr NOT? LIKE expr
    | expr NOT? BETWEEN expr AND expr
    | expr NOT? IN (OPEN exprs? CLOSE | OPEN query CLOSE)
    | <assoc=right> NOT expr
    | expr AND expr
    | expr OR expr
    | primary
    ;

primary
    : literal
    | qualified
    | (NEW DOT identifier)
    | identifier OPEN STAR? CLOSE
    | identifier OPEN DISTINCT? exprs CLOSE
    | CASE expr? (WHEN expr THEN expr)+ (ELSE expr)? END
    | CAST OPEN expr AS type CLOSE
    | (NOT? EXISTS)? OPEN query CLOSE
    | OPEN exprs CLOSE
    ;

literal : NUMBER | STRING | NULL ;
qualified : identifier (DOT identifier)? ;
names : identifier (COMMA identifier)* ;
identifier
    : word=NAME
    | quoted=QUOTED_NAME
    ;
// A name in quotes
