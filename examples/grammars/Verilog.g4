// Verilog 2005, after the preprocessor.
//
// Written after the syntax in IEEE 1364-2005. Covers modules, primitives, generate blocks, tasks, functions, all
// statements, gates, strengths, delays, specify blocks and attributes, and more than the standard allows where that
// makes a rule simpler: the words of a declaration are in any order, and declarations are where statements are. Lines
// of the preprocessor, as of `timescale`, are comments. Of what Yosys adds there are functions and tasks outside of
// modules, `...` among ports, and names that begin with `$`. Not covered: configurations, libraries, macros that
// aren't replaced yet, a comment within a number, and SystemVerilog.
//
// Of the 339 test files of Yosys 0.23 that Yosys reads without SystemVerilog 337 parse (`bench/corpora`). One of the
// others has a comment within a number, and one SystemVerilog's `i++`. Twice the tokens take 1.56 times the time; the
// slowest file is luttrees.v of gatemate with 30,213 tokens and 0.1 s.
grammar Verilog;

source : description* EOF ;

description : module | primitive | function | task | attributedDescription ;
attributedDescription : attribute description ;
attribute : '(*' attributePart (',' attributePart)* '*)' ;
attributePart : (ID | SYSTEM) ('=' expression)? ;

module : ('module' | 'macromodule') (ID | SYSTEM) ('#' ports)? ports? ';' item* 'endmodule' ;
ports : '(' port? (',' port?)* ')' ;
port : attributedPort | typedPort | declarator | namedConnection | concatenation | '...' ;
attributedPort : attribute port ;
typedPort : type declarator ;

// Declarations: of ports, nets, variables and parameters.

declaration : type declarator (',' declarator)* ';' ;
type : (typeWord | strength | charge)+ select* delay? ;
typeWord : 'input' | 'output' | 'inout' | 'wire' | 'uwire' | 'tri' | 'tri0' | 'tri1' | 'wand' | 'wor' | 'triand'
         | 'trior' | 'trireg' | 'supply0' | 'supply1' | 'reg' | 'integer' | 'time' | 'real' | 'realtime' | 'event'
         | 'genvar' | 'parameter' | 'localparam' | 'specparam' | 'signed' | 'unsigned' | 'vectored' | 'scalared'
         | 'automatic' ;
strength : '(' strengthWord (',' strengthWord)? ')' ;
strengthWord : 'supply0' | 'supply1' | 'strong0' | 'strong1' | 'pull0' | 'pull1' | 'weak0' | 'weak1'
             | 'highz0' | 'highz1' ;
charge : '(' ID ')' ;
declarator : ID select* ('=' range)? ;

item : declaration
     | continuousAssignment
     | defparam
     | gate
     | instantiation
     | always
     | generate
     | generateBlock
     | generateIf
     | generateCase
     | generateFor
     | function
     | task
     | specify
     | attributedItem
     | ';'
     ;
attributedItem : attribute item ;

continuousAssignment : 'assign' strength? delay? assignment (',' assignment)* ';' ;
assignment : target '=' expression ;
target : name | concatenation ;
defparam : 'defparam' parameterAssignment (',' parameterAssignment)* ';' ;
parameterAssignment : name '=' range ;

gate : gateWord strength? delay? instance (',' instance)* ';' ;
gateWord : 'and' | 'nand' | 'or' | 'nor' | 'xor' | 'xnor' | 'buf' | 'not' | 'bufif0' | 'bufif1' | 'notif0' | 'notif1'
         | 'nmos' | 'pmos' | 'rnmos' | 'rpmos' | 'cmos' | 'rcmos' | 'tran' | 'rtran' | 'tranif0' | 'tranif1'
         | 'rtranif0' | 'rtranif1' | 'pullup' | 'pulldown' ;
instantiation : (ID | SYSTEM) strength? parameters? instance (',' instance)* ';' ;
parameters : '#' (connections | NUMBER | ID) ;
instance : (ID select*)? connections ;
connections : '(' connection? (',' connection?)* ')' ;
connection : range | namedConnection | attributedConnection ;
namedConnection : '.' ID '(' range? ')' ;
attributedConnection : attribute connection ;

always : ('always' | 'initial') statement ;

generate : 'generate' item* 'endgenerate' ;
generateBlock : 'begin' label? item* 'end' ;
generateIf : 'if' '(' expression ')' item ('else' item)? ;
generateCase : 'case' '(' expression ')' generateChoice* 'endcase' ;
generateChoice : choice item ;
generateFor : 'for' '(' typeWord* assignment ';' expression ';' assignment ')' item ;

function : 'function' typeWord* select* ID ports? ';' statement* 'endfunction' ;
task : 'task' typeWord* ID ports? ';' statement* 'endtask' ;

statement : block
          | declaration
          | assignmentStatement
          | force
          | release
          | ifStatement
          | caseStatement
          | foreverStatement
          | repeatStatement
          | whileStatement
          | forStatement
          | timed
          | waitStatement
          | disable
          | trigger
          | call
          | attributedStatement
          | ';'
          ;
attributedStatement : attribute statement ;

block : 'begin' label? statement* 'end' | 'fork' label? statement* 'join' ;
label : ':' ID ;
assignmentStatement : target ('=' | '<=') ('repeat' '(' expression ')')? timing? expression ';' ;
force : ('assign' | 'force') assignment ';' ;
release : ('deassign' | 'release') target ';' ;
ifStatement : 'if' '(' expression ')' statement ('else' statement)? ;
caseStatement : ('case' | 'casex' | 'casez') '(' expression ')' caseChoice* 'endcase' ;
caseChoice : choice statement ;
choice : expression (',' expression)* ':' | 'default' ':'? ;
foreverStatement : 'forever' statement ;
repeatStatement : 'repeat' '(' expression ')' statement ;
whileStatement : 'while' '(' expression ')' statement ;
forStatement : 'for' '(' typeWord* assignment ';' expression ';' assignment ')' statement ;
timed : timing statement ;
waitStatement : 'wait' '(' expression ')' statement ;
disable : 'disable' name ';' ;
trigger : '->' name ';' ;
call : (name | SYSTEM) arguments? ';' ;

timing : delay | '@' event ;
delay : '#' (NUMBER | ID | '(' range (',' range)* ')') ;
event : name
      | '*'
      | '(' eventExpression (('or' | ',') eventExpression)* ')'
      | '(' '*' ')'
      | '(*' ')'
      | '(' '*)'
      ;
eventExpression : edge? expression ;
edge : 'posedge' | 'negedge' ;

// Expressions. A range is a least, a usual and a greatest value, or one value.

range : expression (':' expression ':' expression)? ;
expression : operand (binaryOperator attribute* operand)* ('?' attribute* expression ':' expression)? ;
binaryOperator : '+' | '-' | '*' | '/' | '%' | '**' | '==' | '!=' | '===' | '!==' | '&&' | '||' | '<' | '<=' | '>'
               | '>=' | '&' | '|' | '^' | '^~' | '~^' | '~&' | '~|' | '<<' | '>>' | '<<<' | '>>>' ;
operand : unaryOperator* primary ;
unaryOperator : '+' | '-' | '!' | '~' | '&' | '~&' | '|' | '~|' | '^' | '~^' | '^~' ;
primary : name (attribute* arguments)?
        | SYSTEM arguments?
        | NUMBER
        | STRING
        | concatenation
        | '(' range ')'
        ;
arguments : '(' argument? (',' argument?)* ')' ;
argument : expression | attributedArgument ;
attributedArgument : attribute argument ;
concatenation : '{' expression (',' expression)* '}' | '{' expression concatenation '}' ;
name : ID (select | '.' ID)* ;
select : '[' expression ((':' | '+:' | '-:') expression)? ']' ;

// Timing.

specify : 'specify' specifyItem* 'endspecify' ;
specifyItem : declaration | path | check | pulse ;
path : pathCondition? '(' edge? pathNames ('+' | '-')? ('=>' | '*>') pathTarget ')' '=' pathDelay ';' ;
pathCondition : 'if' '(' expression ')' | 'ifnone' ;
pathNames : name (',' name)* ;
pathTarget : pathNames | '(' pathNames (':' | '+:' | '-:') expression ')' ;
pathDelay : range | '(' range (',' range)+ ')' ;
check : SYSTEM '(' checkPart? (',' checkPart?)* ')' ';' ;
checkPart : (edge | 'edge' edges?)? range ('&&&' expression)? ;
edges : '[' edgeWord (',' edgeWord)* ']' ;
edgeWord : NUMBER | ID | NUMBER ID ;
pulse : ('pulsestyle_onevent' | 'pulsestyle_ondetect' | 'showcancelled' | 'noshowcancelled') pathNames ';' ;

// Primitives.

primitive : 'primitive' ID ports ';' primitiveItem* 'endprimitive' ;
primitiveItem : declaration | always | table ;
table : 'table' entry* 'endtable' ;
entry : level+ ':' level (':' level)? ';' ;
level : levelWord | '(' levelWord+ ')' ;
levelWord : NUMBER | ID | '?' | '*' | '-' ;

SYSTEM : '$' [a-zA-Z0-9_$]+ ;
ID : [a-zA-Z_] [a-zA-Z0-9_$]* | '\\' ~[ \t\r\n\f]+ ;
NUMBER : DIGITS ('.' DIGITS)? ([eE] [+\-]? DIGITS)?
       | (DIGITS SPACE*)? '\'' [sS]? [bB] SPACE* [01xXzZ?_]+
       | (DIGITS SPACE*)? '\'' [sS]? [oO] SPACE* [0-7xXzZ?_]+
       | (DIGITS SPACE*)? '\'' [sS]? [dD] SPACE* ([0-9_]+ | [xXzZ?] '_'*)
       | (DIGITS SPACE*)? '\'' [sS]? [hH] SPACE* [0-9a-fA-FxXzZ?_]+
       | '\'' [01xXzZ] ;
STRING : '"' (~["\\\n] | '\\' .)* '"' ;

DIRECTIVE : '`' ~[\n]* -> skip ;
BLOCK_COMMENT : '/*' .*? '*/' -> skip ;
LINE_COMMENT : '//' ~[\n]* -> skip ;
BLANKS : [ \t\r\n\f]+ -> skip ;

fragment DIGITS : [0-9] [0-9_]* ;
fragment SPACE : [ \t\r\n\f] ;
