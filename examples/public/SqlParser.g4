// A part of SQL, as public ANTLR 4 grammars are mostly written: with a lexer in a file of its own, and members, actions,
// arguments, results and a predicate in the language that the parser is generated in.
parser grammar SqlParser;

options {
    tokenVocab = SqlLexer;
    superClass = SqlBaseParser;
}

@header {
package org.example.sql;

import java.util.*;
}

@members {
    /** The version of the database, as 33500 for 3.35. */
    private int version = 30000;

    private boolean has(int wanted) {
        return version >= wanted; // RETURNING is of 3.35 }
    }
}

script returns [List<String> tables]
@init { $tables = new ArrayList<>(); }
    : (statement[$tables]? SEMICOLON)* EOF
    ;

statement[List<String> tables]
    : query
    | insert
    | update
    | deletion
    | created=createTable { $tables.add($created.table); }
    | createIndex
    | createView
    | createTrigger
    ;
    catch [RecognitionException fault] { report(fault); }

// Queries

query : with? compound orderBy? limit? ;
with : WITH tableExpression (COMMA tableExpression)* ;
tableExpression : identifier (OPEN names CLOSE)? AS OPEN query CLOSE ;

compound
    : left=compound (UNION ALL? | EXCEPT | INTERSECT) right=compound # SetOperation
    | SELECT (DISTINCT | ALL)? column (COMMA column)* from? where? groupBy? # Select
    | VALUES row (COMMA row)* # Values
    ;

column : STAR | identifier DOT STAR | expr[0] (AS? alias=identifier)? ;
from : FROM source (COMMA source)* ;
source
    : source (LEFT OUTER? | INNER)? JOIN source (ON expr[0])?
    | (qualified | OPEN query CLOSE) (AS? alias=identifier)?
    ;
where : WHERE expr[0] ;
groupBy : GROUP BY exprs (HAVING expr[0])? ;
orderBy : ORDER BY ordered (COMMA ordered)* ;
ordered : expr[0] (ASC | DESC)? ;
limit : LIMIT expr[0] ;

// Statements that change rows

insert : INSERT (OR identifier)? INTO qualified (OPEN names CLOSE)? (query | DEFAULT VALUES) conflict? returning? ;
conflict : ON CONFLICT (OPEN names CLOSE)? DO (NOTHING | UPDATE SET assignments where?) ;
update : UPDATE qualified SET assignments where? returning? ;
deletion : DELETE FROM qualified where? returning? ;
assignments : assignment (COMMA assignment)*? ;
assignment : identifier EQUAL expr[0] ;
returning : {has(33500)}? RETURNING column (COMMA column)* ;

// Statements that create something

createTable returns [String table]
    : CREATE TABLE (IF NOT EXISTS)? name=qualified { $table = $name.text; }
      (OPEN part (COMMA part)* CLOSE | AS query)
    ;
part : columnDefinition | tableConstraint ;
columnDefinition : identifier type? columnConstraint* ;
type locals [int words = 0] : ({$words < 3}? NAME {$words++;})+ (OPEN NUMBER (COMMA NUMBER)? CLOSE)? ;
columnConstraint
    : NOT? NULL
    | PRIMARY KEY
    | UNIQUE
    | DEFAULT (literal | (PLUS | MINUS) NUMBER | OPEN expr[0] CLOSE)
    | CHECK OPEN expr[0] CLOSE
    | reference
    ;
tableConstraint
    : (PRIMARY KEY | UNIQUE) OPEN names CLOSE
    | CHECK OPEN expr[0] CLOSE
    | FOREIGN KEY OPEN names CLOSE reference
    ;
reference : REFERENCES qualified (OPEN names CLOSE)? ;

createIndex : CREATE UNIQUE? INDEX qualified ON qualified OPEN names CLOSE ;
createView : CREATE VIEW qualified AS query ;
createTrigger
    : CREATE TRIGGER qualified (BEFORE | AFTER) (INSERT | DELETE | UPDATE (OF names)?) ON qualified
      (FOR EACH ROW)? (WHEN expr[0])? BEGIN ((query | insert | update | deletion) SEMICOLON)+ END
    ;

// Expressions; the argument is how deep an expression is.

row : OPEN exprs CLOSE ;
exprs : expr[0] (COMMA exprs)? ;

expr[int depth]
    : op=(PLUS | MINUS) expr[$depth + 1]
    | expr[$depth + 1] JOINED expr[$depth + 1]
    | expr[$depth + 1] op=(STAR | SLASH | PERCENT) expr[$depth + 1]
    | expr[$depth + 1] op=(PLUS | MINUS) expr[$depth + 1]
    | expr[$depth + 1] op=(LESS | LESS_OR_EQUAL | GREATER | GREATER_OR_EQUAL) expr[$depth + 1]
    | expr[$depth + 1] op=(EQUAL | UNEQUAL) expr[$depth + 1]
    | expr[$depth + 1] IS NOT? expr[$depth + 1]
    | expr[$depth + 1] NOT? LIKE expr[$depth + 1]
    | expr[$depth + 1] NOT? BETWEEN expr[$depth + 1] AND expr[$depth + 1]
    | expr[$depth + 1] NOT? IN (OPEN CLOSE | OPEN exprs CLOSE | OPEN query CLOSE)
    | <assoc=right> NOT expr[$depth + 1]
    | expr[$depth + 1] AND expr[$depth + 1]
    | expr[$depth + 1] OR expr[$depth + 1]
    | primary
    ;

primary
    : literal
    | qualified
    | (NEW DOT identifier)
    | identifier OPEN CLOSE
    | identifier OPEN STAR CLOSE
    | identifier OPEN DISTINCT? exprs CLOSE
    | CASE expr[0]? (WHEN expr[0] THEN expr[0])+ (ELSE expr[0])? END
    | CAST OPEN expr[0] AS type CLOSE
    | NOT? EXISTS OPEN query CLOSE
    | OPEN query CLOSE
    | OPEN exprs CLOSE
    ;

literal : NUMBER | STRING | NULL ;
qualified : identifier (DOT identifier)? ;
names : identifier (COMMA names)? ;
identifier returns [String name]
    : word=NAME { $name = $word.text; }
    | quoted=QUOTED_NAME { $name = $quoted.text; }
    ;
