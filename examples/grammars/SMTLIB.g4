// SMT-LIB, version 2.6: scripts for SMT solvers, as z3 and cvc4 read them.
//
// Written after the syntax in "The SMT-LIB Standard, Version 2.6" (Barrett, Fontaine, Tinelli). Covers all its
// commands, terms, sorts and datatypes, the datatypes of version 2.5, and what solvers add to it: lambda and its kin,
// functions as values, sorts as indices, codatatypes, and any other command as a list of S-expressions. The words of
// commands may be names; those of terms, as `let` and `match`, may not. Not covered: strings with `\"` in them, as in
// version 2.0, and names of other characters than the standard's.
//
// Of the 1,727 regression tests of cvc4 1.8 that aren't too long 1,717 parse (`bench/corpora`). Of the others five have
// strings with `\"`, two name a function `match` or `lambda`, one has a term as an index, and two have commands that
// aren't SMT-LIB's. Twice the tokens take 2.07 times the time; the slowest file is error0.smt2 with 180,886 tokens and
// 1.2 s.
grammar SMTLIB;

script : command* EOF ;

command : assertion
        | check
        | constantDeclaration
        | functionDeclaration
        | sortDeclaration
        | datatypeDeclaration
        | datatypesDeclaration
        | oldDatatypesDeclaration
        | constantDefinition
        | functionDefinition
        | functionsDefinition
        | sortDefinition
        | setting
        | logic
        | query
        | values
        | level
        | plain
        | echo
        | other
        ;

assertion : '(' 'assert' term ')' ;
check : '(' 'check-sat-assuming' '(' term* ')' ')' ;

constantDeclaration : '(' 'declare-const' symbol sort ')' ;
functionDeclaration : '(' 'declare-fun' symbol '(' sort* ')' sort ')' ;
sortDeclaration : '(' 'declare-sort' symbol NUMERAL? ')' ;

datatypeDeclaration : '(' ('declare-datatype' | 'declare-codatatype') symbol datatype ')' ;
datatypesDeclaration : '(' manyDatatypes '(' arity+ ')' '(' datatype+ ')' ')' ;
oldDatatypesDeclaration : '(' manyDatatypes '(' symbol* ')' '(' oldDatatype+ ')' ')' ;
manyDatatypes : 'declare-datatypes' | 'declare-codatatypes' ;
arity : '(' symbol NUMERAL ')' ;
datatype : '(' constructor+ ')' | '(' 'par' '(' symbol+ ')' '(' constructor+ ')' ')' ;
oldDatatype : '(' symbol constructor+ ')' ;
constructor : symbol | '(' symbol selector* ')' ;
selector : '(' symbol sort ')' ;

constantDefinition : '(' 'define-const' symbol sort term ')' ;
functionDefinition : '(' ('define-fun' | 'define-fun-rec') signature term ')' ;
functionsDefinition : '(' 'define-funs-rec' '(' declaredSignature+ ')' '(' term+ ')' ')' ;
declaredSignature : '(' signature ')' ;
signature : symbol '(' variable* ')' sort ;
sortDefinition : '(' 'define-sort' symbol '(' symbol* ')' sort ')' ;

setting : '(' ('set-info' | 'set-option') attribute ')' ;
logic : '(' 'set-logic' symbol ')' ;
query : '(' ('get-info' | 'get-option') KEYWORD ')' ;
values : '(' 'get-value' '(' term+ ')' ')' ;
level : '(' ('push' | 'pop') NUMERAL? ')' ;
plain : '(' plainWord ')' ;
plainWord : 'check-sat' | 'exit' | 'get-assertions' | 'get-assignment' | 'get-model' | 'get-proof'
          | 'get-unsat-assumptions' | 'get-unsat-core' | 'reset' | 'reset-assertions' ;
echo : '(' 'echo' STRING ')' ;
other : '(' name expression* ')' ;

// Terms. A function may be a term itself, as `(_ extract 3 0)` and, where functions are values, any application.

term : constant
     | identifier
     | qualified
     | application
     | let
     | binder
     | match
     | annotated
     ;

application : '(' term term+ ')' ;
let : '(' 'let' '(' binding+ ')' term ')' ;
binding : '(' symbol term ')' ;
binder : '(' binderWord '(' variable+ ')' term+ ')' ;
binderWord : 'forall' | 'exists' | 'lambda' | 'choice' | 'witness' | 'comprehension' ;
variable : '(' symbol sort ')' ;
match : '(' 'match' term '(' matchCase+ ')' ')' ;
matchCase : '(' pattern term ')' ;
pattern : symbol | '_' | '(' symbol (symbol | '_')+ ')' ;
annotated : '(' '!' term attribute+ ')' ;

constant : NUMERAL | DECIMAL | HEXADECIMAL | BINARY | STRING ;
qualified : '(' 'as' identifier sort ')' ;
identifier : symbol | indexed ;
indexed : '(' '_' symbol index+ ')' ;
index : constant | sort ;

sort : identifier | parametric ;
parametric : '(' identifier sort+ ')' ;

attribute : KEYWORD value? ;
value : constant | symbol | group ;
group : '(' expression* ')' ;
expression : constant | symbol | reserved | KEYWORD | group ;

symbol : name | commandWord ;
name : SYMBOL | QUOTED ;
commandWord : 'assert' | 'check-sat-assuming' | 'declare-const' | 'declare-fun' | 'declare-sort' | 'declare-datatype'
            | 'declare-codatatype' | 'declare-datatypes' | 'declare-codatatypes' | 'define-const' | 'define-fun'
            | 'define-fun-rec' | 'define-funs-rec' | 'define-sort' | 'set-info' | 'set-option' | 'set-logic'
            | 'get-info' | 'get-option' | 'get-value' | 'push' | 'pop' | 'check-sat' | 'exit' | 'get-assertions'
            | 'get-assignment' | 'get-model' | 'get-proof' | 'get-unsat-assumptions' | 'get-unsat-core' | 'reset'
            | 'reset-assertions' | 'echo' ;
reserved : '_' | '!' | 'as' | 'let' | 'match' | 'par' | binderWord ;

NUMERAL : [0-9]+ ;
DECIMAL : [0-9]+ '.' [0-9]+ ;
HEXADECIMAL : '#x' [0-9a-fA-F]+ ;
BINARY : '#b' [01]+ ;
STRING : '"' (~["] | '""')* '"' ;
KEYWORD : ':' [a-zA-Z0-9~!@$%^&*_+=<>.?/\-]+ ;
SYMBOL : [a-zA-Z~!@$%^&*_+=<>.?/\-] [a-zA-Z0-9~!@$%^&*_+=<>.?/\-]* ;
QUOTED : '|' ~[|\\]* '|' ;

COMMENT : ';' ~[\r\n]* -> skip ;
BLANKS : [ \t\r\n]+ -> skip ;
