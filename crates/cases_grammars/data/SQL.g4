// SQL as SQLite 3.40 reads it: any number of statements, each but the last ended by a semicolon. Written for
// reducing, from SQLite's documentation ("SQL As Understood By SQLite") and the grammar of its own parser.
//
// Covers all statements: queries with common tables, compounds, joins, windows; insert with upsert, update, delete,
// all with RETURNING; tables, virtual tables, indexes, views and triggers; ALTER, transactions, PRAGMA, ATTACH,
// EXPLAIN and the rest. Key words are read in any case, and most of them are names where nothing else can be meant,
// as in SQLite.
//
// Operators are in one flat list, AND and OR too: `a = b AND c` can become `a AND c`, and `a BETWEEN b AND c` keeps
// its AND. ORDER BY and LIMIT are taken at the end of UPDATE and DELETE, which SQLite takes if it was built so.
//
// Not covered: lines with commands of the shell (`.mode`), and a comment that is never closed (for SQLite it ends
// where the text does).
//
// Of the 36,932 different statements in the tests of SQLite 3.40.1 (test/*.test) that it accepts, 36,928 parse by a
// second parser that follows such grammars; the other four end in an open comment. Of 746 dumps of these tests'
// databases, each of at most 256 KiB, all parse. `perses` takes 2,096 of the 2,101 files of statements and dumps that
// aren't too long (`bench/corpora`). Twice the tokens take 1.57 times the time; the slowest file is joinD.test with
// 76,477 tokens and 0.7 s.
grammar SQL;

script : (statement? ';')* statement? EOF ;

statement : (EXPLAIN (QUERY PLAN)?)? command ;

command
    : query | insert | update | delete
    | createTable | createVirtualTable | createIndex | createView | createTrigger | drop | alterTable
    | begin | commit | rollback | savepoint | release | pragma | attach | detach | vacuum | analyze | reindex
    ;

// Queries

query : with? core (setOperator core)* orderBy? limit? ;

with : WITH RECURSIVE? commonTable (',' commonTable)* ;
commonTable : name indexedNames? AS (NOT? MATERIALIZED)? '(' query ')' ;

setOperator : UNION ALL? | EXCEPT | INTERSECT ;

core : select | values ;
select : SELECT (DISTINCT | ALL)? columns from? where? groupBy? having? windows? ;
values : VALUES row (',' row)* ;
row : '(' expressions ')' ;

columns : column (',' column)* ;
column : expression alias? | '*' | name '.' '*' ;
alias : AS name | aliasName ;

from : FROM sources ;
sources : source (joinOperator source)* ;
joinOperator : ',' | joinWord* JOIN ;
source : (table | '(' query ')' | '(' sources ')') alias? indexing? (ON expression | USING names)? ;
table : qualifiedName ('(' expressions? ')')? ;
indexing : INDEXED BY name | NOT INDEXED ;

where : WHERE expression ;
groupBy : GROUP BY expressions ;
having : HAVING expression ;
orderBy : ORDER BY orders ;
orders : order (',' order)* ;
order : expression (ASC | DESC)? (NULLS (FIRST | LAST))? ;
limit : LIMIT expression ((OFFSET | ',') expression)? ;

windows : WINDOW namedWindow (',' namedWindow)* ;
namedWindow : name AS window ;
window : '(' name? (PARTITION BY expressions)? orderBy? frame? ')' ;
frame : (RANGE | ROWS | GROUPS) (bound | BETWEEN bound AND bound) (EXCLUDE (NO OTHERS | CURRENT ROW | GROUP | TIES))? ;
// UNBOUNDED is a name here
bound : CURRENT ROW | expression (PRECEDING | FOLLOWING) ;

// Changes of rows

insert : with? (INSERT orResolution? | REPLACE) INTO target names? (query upsert* | DEFAULT VALUES) returning? ;
upsert : ON CONFLICT ('(' orders ')' where?)? DO (NOTHING | UPDATE SET settings where?) ;
update : with? UPDATE orResolution? target indexing? SET settings from? where? returning? orderBy? limit? ;
settings : setting (',' setting)* ;
setting : (name | names) '=' expression ;
delete : with? DELETE FROM target indexing? where? returning? orderBy? limit? ;

target : qualifiedName (AS name)? ;
returning : RETURNING columns ;
orResolution : OR resolution ;
onConflict : ON CONFLICT resolution ;
resolution : ROLLBACK | ABORT | FAIL | IGNORE | REPLACE ;

// Definitions

createTable : CREATE TEMP? TABLE ifNotExists? qualifiedName (tableParts tableOptions? | AS query) ;
tableParts : '(' tablePart (',' tablePart)* ')' ;
tablePart : columnDefinition | tableConstraint+ ;
tableOptions : tableOption (',' tableOption)* ;
tableOption : WITHOUT? name ;

columnDefinition : name type? columnConstraint* ;
type : typeWord+ ('(' signed (',' signed)? ')')? ;
signed : ('+' | '-')? NUMBER ;

columnConstraint
    : CONSTRAINT name
    | DEFAULT ('(' expression ')' | ('+' | '-')? literal | word)
    | NOT? NULL onConflict?
    | PRIMARY KEY (ASC | DESC)? onConflict? AUTOINCREMENT?
    | UNIQUE onConflict?
    | CHECK '(' expression ')'
    | references
    | deferral
    | COLLATE aliasName
    | (GENERATED ALWAYS)? AS '(' expression ')' word?
    ;

tableConstraint
    : CONSTRAINT name
    | PRIMARY KEY '(' orders AUTOINCREMENT? ')' onConflict?
    | UNIQUE '(' orders ')' onConflict?
    | CHECK '(' expression ')' onConflict?
    | FOREIGN KEY indexedNames references deferral?
    ;

references : REFERENCES name indexedNames? referenceRule* ;
referenceRule : MATCH name | ON (INSERT | DELETE | UPDATE) (SET (NULL | DEFAULT) | CASCADE | RESTRICT | NO ACTION) ;
deferral : NOT? DEFERRABLE (INITIALLY (DEFERRED | IMMEDIATE))? ;

createVirtualTable : CREATE VIRTUAL TABLE ifNotExists? qualifiedName USING name ('(' moduleArguments ')')? ;
moduleArguments : moduleWord* (',' moduleWord*)* ;
moduleWord : ~('(' | ')' | ',' | ';') | '(' innerWord* ')' ;
innerWord : ~('(' | ')' | ';') | '(' innerWord* ')' ;

createIndex : CREATE UNIQUE? INDEX ifNotExists? qualifiedName ON name '(' orders ')' where? ;

createView : CREATE TEMP? VIEW ifNotExists? qualifiedName indexedNames? AS query ;

createTrigger
    : CREATE TEMP? TRIGGER ifNotExists? qualifiedName (BEFORE | AFTER | INSTEAD OF)?
      (DELETE | INSERT | UPDATE (OF nameList)?) ON qualifiedName (FOR EACH ROW)? (WHEN expression)?
      BEGIN (triggerCommand ';')+ END
    ;
triggerCommand : query | insert | update | delete ;

drop : DROP (TABLE | VIEW | INDEX | TRIGGER) (IF EXISTS)? qualifiedName ;

alterTable
    : ALTER TABLE qualifiedName
      (RENAME TO name | RENAME COLUMN? name TO name | ADD COLUMN? columnDefinition | DROP COLUMN? name)
    ;

ifNotExists : IF NOT EXISTS ;
indexedNames : '(' indexedName (',' indexedName)* ')' ;
indexedName : name (COLLATE aliasName)? (ASC | DESC)? ;

// Transactions, and the database itself

begin : BEGIN (DEFERRED | IMMEDIATE | EXCLUSIVE)? transaction? ;
commit : (COMMIT | END) transaction? ;
rollback : ROLLBACK transaction? (TO SAVEPOINT? name)? ;
transaction : TRANSACTION name? ;
savepoint : SAVEPOINT name ;
release : RELEASE SAVEPOINT? name ;

pragma : PRAGMA qualifiedName ('=' pragmaValue | '(' pragmaValue ')')? ;
pragmaValue : signed | name | ON | DELETE | DEFAULT ;
attach : ATTACH DATABASE? expression AS expression (KEY expression)? ;
detach : DETACH DATABASE? expression ;
vacuum : VACUUM name? (INTO expression)? ;
analyze : ANALYZE qualifiedName? ;
reindex : REINDEX qualifiedName? ;

// Expressions

expressions : expression (',' expression)* ;
expression : operation | operand ;
operation : operand (operator | logic)+ ;

logic : (AND | OR) operand ;

operator
    : binaryOperator operand
    | IS (NOT? DISTINCT FROM)? operand
    | NOT? (LIKE | GLOB | REGEXP | MATCH) operand (ESCAPE operand)?
    | NOT? BETWEEN operand operator* AND operand
    | NOT? IN (qualifiedName ('(' expressions? ')')? | '(' (query | expressions)? ')')
    | ISNULL | NOTNULL | NOT NULL
    | COLLATE aliasName
    ;
binaryOperator
    : '||' | '->' | '->>' | '*' | '/' | '%' | '+' | '-' | '<<' | '>>' | '&' | '|'
    | '<' | '<=' | '>' | '>=' | '=' | '==' | '!=' | '<>'
    ;

operand
    : signedOperand | literal | columnName | call | cast | caseExpression | exists | nested | subquery | rowValue | raise
    ;
signedOperand : ('+' | '-' | '~' | NOT) operand ;
nested : '(' expression ')' ;
subquery : '(' query ')' ;
rowValue : '(' expression (',' expression)+ ')' ;
exists : EXISTS subquery ;
caseExpression : CASE expression? (WHEN expression THEN expression)+ (ELSE expression)? END ;
cast : CAST '(' expression AS type? ')' ;
raise : RAISE '(' (IGNORE | (ROLLBACK | ABORT | FAIL) ',' name) ')' ;

call : functionName '(' ('*' | (DISTINCT | ALL)? expressions)? ')' filter? over? ;
filter : FILTER '(' WHERE expression ')' ;
over : OVER (name | window) ;

literal : NUMBER | STRING | BLOB | VARIABLE | NULL | CURRENT_DATE | CURRENT_TIME | CURRENT_TIMESTAMP ;

// Names: most key words are names too where nothing else can be meant

columnName : word | INDEXED | joinWord | name '.' name ('.' name)? ;
functionName : word | INDEXED ;
qualifiedName : name ('.' name)? ;
names : '(' nameList ')' ;
nameList : name (',' name)* ;
name : word | STRING | INDEXED | joinWord | CURRENT_DATE | CURRENT_TIME | CURRENT_TIMESTAMP | CAST | RAISE ;
aliasName : word | STRING ;
typeWord : plainWord | STRING ;
joinWord : CROSS | FULL | INNER | LEFT | NATURAL | OUTER | RIGHT ;
word : plainWord | ALWAYS | GENERATED ;
plainWord
    : NAME | QUOTED
    | ABORT | ACTION | AFTER | ANALYZE | ASC | ATTACH | BEFORE | BEGIN | BY | CASCADE | COLUMN | CONFLICT | CURRENT
    | DATABASE | DEFERRED | DESC | DETACH | DO | EACH | END | EXCLUDE | EXCLUSIVE | EXPLAIN | FAIL | FILTER | FIRST
    | FOLLOWING | FOR | GLOB | GROUPS | IF | IGNORE | IMMEDIATE | INITIALLY | INSTEAD | KEY | LAST | LIKE | MATCH
    | MATERIALIZED | NO | NULLS | OF | OFFSET | OTHERS | OVER | PARTITION | PLAN | PRAGMA | PRECEDING | QUERY | RANGE
    | RECURSIVE | REGEXP | REINDEX | RELEASE | RENAME | REPLACE | RESTRICT | ROLLBACK | ROW | ROWS | SAVEPOINT | TEMP
    | TIES | TRIGGER | UNBOUNDED | VACUUM | VIEW | VIRTUAL | WINDOW | WITH | WITHOUT
    ;

ABORT : A B O R T ;
ACTION : A C T I O N ;
ADD : A D D ;
AFTER : A F T E R ;
ALL : A L L ;
ALTER : A L T E R ;
ALWAYS : A L W A Y S ;
ANALYZE : A N A L Y Z E ;
AND : A N D ;
AS : A S ;
ASC : A S C ;
ATTACH : A T T A C H ;
AUTOINCREMENT : A U T O I N C R E M E N T ;
BEFORE : B E F O R E ;
BEGIN : B E G I N ;
BETWEEN : B E T W E E N ;
BY : B Y ;
CASCADE : C A S C A D E ;
CASE : C A S E ;
CAST : C A S T ;
CHECK : C H E C K ;
COLLATE : C O L L A T E ;
COLUMN : C O L U M N ;
COMMIT : C O M M I T ;
CONFLICT : C O N F L I C T ;
CONSTRAINT : C O N S T R A I N T ;
CREATE : C R E A T E ;
CROSS : C R O S S ;
CURRENT : C U R R E N T ;
CURRENT_DATE : C U R R E N T '_' D A T E ;
CURRENT_TIME : C U R R E N T '_' T I M E ;
CURRENT_TIMESTAMP : C U R R E N T '_' T I M E S T A M P ;
DATABASE : D A T A B A S E ;
DEFAULT : D E F A U L T ;
DEFERRED : D E F E R R E D ;
DEFERRABLE : D E F E R R A B L E ;
DELETE : D E L E T E ;
DESC : D E S C ;
DETACH : D E T A C H ;
DISTINCT : D I S T I N C T ;
DO : D O ;
DROP : D R O P ;
EACH : E A C H ;
ELSE : E L S E ;
END : E N D ;
ESCAPE : E S C A P E ;
EXCEPT : E X C E P T ;
EXCLUDE : E X C L U D E ;
EXCLUSIVE : E X C L U S I V E ;
EXISTS : E X I S T S ;
EXPLAIN : E X P L A I N ;
FAIL : F A I L ;
FILTER : F I L T E R ;
FIRST : F I R S T ;
FOLLOWING : F O L L O W I N G ;
FOR : F O R ;
FOREIGN : F O R E I G N ;
FROM : F R O M ;
FULL : F U L L ;
GENERATED : G E N E R A T E D ;
GLOB : G L O B ;
GROUP : G R O U P ;
GROUPS : G R O U P S ;
HAVING : H A V I N G ;
IF : I F ;
IGNORE : I G N O R E ;
IMMEDIATE : I M M E D I A T E ;
IN : I N ;
INDEX : I N D E X ;
INDEXED : I N D E X E D ;
INITIALLY : I N I T I A L L Y ;
INNER : I N N E R ;
INSERT : I N S E R T ;
INSTEAD : I N S T E A D ;
INTERSECT : I N T E R S E C T ;
INTO : I N T O ;
IS : I S ;
ISNULL : I S N U L L ;
JOIN : J O I N ;
KEY : K E Y ;
LAST : L A S T ;
LEFT : L E F T ;
LIKE : L I K E ;
LIMIT : L I M I T ;
MATCH : M A T C H ;
MATERIALIZED : M A T E R I A L I Z E D ;
NATURAL : N A T U R A L ;
NO : N O ;
NOT : N O T ;
NOTHING : N O T H I N G ;
NOTNULL : N O T N U L L ;
NULL : N U L L ;
NULLS : N U L L S ;
OF : O F ;
OFFSET : O F F S E T ;
ON : O N ;
OR : O R ;
ORDER : O R D E R ;
OTHERS : O T H E R S ;
OUTER : O U T E R ;
OVER : O V E R ;
PARTITION : P A R T I T I O N ;
PLAN : P L A N ;
PRAGMA : P R A G M A ;
PRECEDING : P R E C E D I N G ;
PRIMARY : P R I M A R Y ;
QUERY : Q U E R Y ;
RAISE : R A I S E ;
RANGE : R A N G E ;
RECURSIVE : R E C U R S I V E ;
REFERENCES : R E F E R E N C E S ;
REGEXP : R E G E X P ;
REINDEX : R E I N D E X ;
RELEASE : R E L E A S E ;
RENAME : R E N A M E ;
REPLACE : R E P L A C E ;
RESTRICT : R E S T R I C T ;
RETURNING : R E T U R N I N G ;
RIGHT : R I G H T ;
ROLLBACK : R O L L B A C K ;
ROW : R O W ;
ROWS : R O W S ;
SAVEPOINT : S A V E P O I N T ;
SELECT : S E L E C T ;
SET : S E T ;
TABLE : T A B L E ;
TEMP : T E M P (O R A R Y)? ;
THEN : T H E N ;
TIES : T I E S ;
TO : T O ;
TRANSACTION : T R A N S A C T I O N ;
TRIGGER : T R I G G E R ;
UNBOUNDED : U N B O U N D E D ;
UNION : U N I O N ;
UNIQUE : U N I Q U E ;
UPDATE : U P D A T E ;
USING : U S I N G ;
VACUUM : V A C U U M ;
VALUES : V A L U E S ;
VIEW : V I E W ;
VIRTUAL : V I R T U A L ;
WHEN : W H E N ;
WHERE : W H E R E ;
WINDOW : W I N D O W ;
WITH : W I T H ;
WITHOUT : W I T H O U T ;

NAME : [a-zA-Z_\u0080-\u{10FFFF}] [a-zA-Z_0-9$\u0080-\u{10FFFF}]* ;
QUOTED : '"' (~["] | '""')* '"' | '`' (~[`] | '``')* '`' | '[' ~[\]]* ']' ;
STRING : '\'' (~['] | '\'\'')* '\'' ;
BLOB : [xX] '\'' [0-9a-fA-F]* '\'' ;
NUMBER : ([0-9]+ ('.' [0-9]*)? | '.' [0-9]+) ([eE] [+\-]? [0-9]+)? | '0' [xX] [0-9a-fA-F]+ ;
VARIABLE : '?' [0-9]* | [$@:#] ('::' | [a-zA-Z_0-9$\u0080-\u{10FFFF}])+ ('(' ~[ \t\r\n)]* ')')? ;

BLANKS : [ \t\r\n\f\uFEFF]+ -> skip ;
BLOCK_COMMENT : '/*' .*? '*/' -> skip ;
LINE_COMMENT : '--' ~[\n]* -> skip ;

fragment A : [aA] ;
fragment B : [bB] ;
fragment C : [cC] ;
fragment D : [dD] ;
fragment E : [eE] ;
fragment F : [fF] ;
fragment G : [gG] ;
fragment H : [hH] ;
fragment I : [iI] ;
fragment J : [jJ] ;
fragment K : [kK] ;
fragment L : [lL] ;
fragment M : [mM] ;
fragment N : [nN] ;
fragment O : [oO] ;
fragment P : [pP] ;
fragment Q : [qQ] ;
fragment R : [rR] ;
fragment S : [sS] ;
fragment T : [tT] ;
fragment U : [uU] ;
fragment V : [vV] ;
fragment W : [wW] ;
fragment X : [xX] ;
fragment Y : [yY] ;
fragment Z : [zZ] ;
