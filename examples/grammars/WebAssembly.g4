// The text format of WebAssembly, written from the grammar of the WebAssembly specification, release 2.0.
//
// Covers modules, also as a list of fields without `(module ..)`, and flat and folded instructions in any mixture.
// Beyond that release: indices of 64 bits, several memories, threads, tail calls, exceptions with `try`, types of
// structs and arrays, and the commands of test scripts.
//
// It takes more than the format allows. Parts of a function's head, of an element segment and of a data segment may
// come in any order and number. Most instructions are told by the form of their names, so that others of these forms
// are read too. Annotations, `(@..)`, are read over as comments are.
//
// Not covered: instructions on structs and arrays; comments more than three deep in one another, and annotations
// with brackets that are.
//
// Measured on the tests of Debian's wabt 1.0.32: all of the 657 files parse that `wat2wasm --enable-all` or `wast2json
// --enable-all` takes, each tried with ANTLR 4 or with `perses`. `bench/corpora` has those that `wat2wasm` takes: all
// 531 parse. Twice the tokens take 1.16 times the time; each takes 0.02 s at most.
grammar WebAssembly;

script : (command | field)* EOF ;

// modules

module : '(' 'module' ID? (field* | ('binary' | 'quote') STRING*) ')' ;

field : type
      | imported
      | exported
      | function
      | table
      | memory
      | global
      | tag
      | start
      | elements
      | data
      ;

type : '(' 'type' ID? (functionType | structType | arrayType) ')' ;
functionType : '(' 'func' (parameter | result)* ')' ;
structType : '(' 'struct' member* ')' ;
arrayType : '(' 'array' member ')' ;
member : '(' 'field' ID? storage ')' | storage ;
storage : valueType | '(' 'mut' valueType ')' ;

imported : '(' 'import' STRING STRING importedKind ')' ;
importedKind : '(' 'func' ID? signature* ')'
             | '(' 'table' ID? tableType ')'
             | '(' 'memory' ID? memoryType ')'
             | '(' 'global' ID? storage ')'
             | '(' 'tag' ID? signature* ')'
             ;
exported : '(' 'export' STRING '(' ('func' | 'table' | 'memory' | 'global' | 'tag') index ')' ')' ;

// the name under which a field is imported or exported, within the field
link : '(' 'export' STRING ')' | '(' 'import' STRING STRING ')' ;

function : '(' 'func' ID? (link | signature | local)* instructions ')' ;
local : '(' 'local' ID? valueType* ')' ;

table : '(' 'table' ID? link* tableType ')' ;
tableType : indexType? (limits 'shared'?)? valueType ('(' 'elem' elementPart* ')')? ;
memory : '(' 'memory' ID? link* memoryType ')' ;
memoryType : indexType? (limits 'shared'? | '(' 'data' STRING* ')') ;
indexType : 'i32' | 'i64' ;
limits : NATURAL NATURAL? ;
global : '(' 'global' ID? link* storage instructions ')' ;
tag : '(' 'tag' ID? link* signature* ')' ;
start : '(' 'start' index ')' ;

elements : '(' 'elem' elementPart* ')' ;
elementPart : index
            | 'declare'
            | 'func'
            | valueType
            | '(' 'table' index ')'
            | '(' ('offset' | 'item') instructions ')'
            | folded
            ;
data : '(' 'data' dataPart* ')' ;
dataPart : index | '(' 'memory' index ')' | '(' 'offset' instructions ')' | folded | STRING ;

// types

signature : typeUse | parameter | result ;
typeUse : '(' 'type' index ')' ;
parameter : '(' 'param' ID? valueType* ')' ;
result : '(' 'result' valueType* ')' ;
valueType : 'i32' | 'i64' | 'f32' | 'f64' | 'v128' | 'i8' | 'i16'
          | 'funcref' | 'externref' | 'exnref' | 'anyref' | 'eqref' | 'i31ref'
          | '(' 'ref' 'null'? heapType ')'
          ;
heapType : index | 'func' | 'extern' | 'exn' | 'any' | 'eq' | 'i31' | 'struct' | 'array' ;
index : NATURAL | ID ;

// instructions: a list of them is a rule, so that one within another can take its place

instructions : instruction* ;
instruction : plain | block | folded ;

folded : '(' plain folded* ')'
       | '(' ('block' | 'loop') ID? signature* instructions ')'
       | '(' 'if' ID? signature* folded* ('(' 'then' instructions ')' ('(' 'else' instructions ')')?)? ')'
       | '(' 'try' ID? signature* '(' 'do' instructions ')' foldedHandler* ')'
       ;
foldedHandler : '(' 'catch' index instructions ')' | '(' 'catch_all' instructions ')' | '(' 'delegate' index ')' ;

block : ('block' | 'loop') ID? signature* instructions 'end' ID?
      | 'if' ID? signature* instructions ('else' ID? instructions)? 'end' ID?
      | 'try' ID? signature* instructions (handler* 'end' ID? | 'delegate' index)
      ;
handler : ('catch' index | 'catch_all') instructions ;

plain : 'unreachable' | 'nop' | 'drop' | 'return' | 'ref.is_null' | 'ref.as_non_null' | 'atomic.fence'
      | NUMERIC
      | CONSTANT number
      | 'v128.const' ('i8x16' | 'i16x8' | 'i32x4' | 'i64x2' | 'f32x4' | 'f64x2') number+
      | ofIndex index
      | ofMemoryOrTable (index | '(' 'memory' index ')')*
      | ACCESS (index | '(' 'memory' index ')' | OFFSET | ALIGNMENT)*
      | LANES (NATURAL | INTEGER)+
      | 'br_table' index+
      | 'select' result*
      | 'ref.null' heapType
      | ('call_indirect' | 'return_call_indirect') index? signature*
      | ('call_ref' | 'return_call_ref') index?
      ;
ofIndex : 'local.get' | 'local.set' | 'local.tee' | 'global.get' | 'global.set' | 'br' | 'br_if' | 'br_on_null'
        | 'br_on_non_null' | 'call' | 'return_call' | 'ref.func' | 'throw' | 'rethrow' | 'data.drop' | 'elem.drop' ;
ofMemoryOrTable : 'memory.size' | 'memory.grow' | 'memory.fill' | 'memory.copy' | 'memory.init'
                | 'table.size' | 'table.grow' | 'table.fill' | 'table.copy' | 'table.init' | 'table.get' | 'table.set' ;
number : NATURAL | INTEGER | FLOAT ;

// the commands of a test script

command : module
        | action
        | '(' 'register' STRING ID? ')'
        | '(' ASSERTION (action | module) expected* STRING? ')'
        | '(' ('input' | 'output') ID? STRING? ')'
        ;
action : '(' 'invoke' ID? STRING constant* ')' | '(' 'get' ID? STRING ')' ;
constant : '(' CONSTANT number ')'
         | '(' 'v128.const' ('i8x16' | 'i16x8' | 'i32x4' | 'i64x2' | 'f32x4' | 'f64x2') number+ ')'
         | '(' 'ref.null' heapType? ')'
         | '(' ('ref.extern' | 'ref.func') NATURAL? ')'
         ;
expected : constant | '(' 'either' constant* ')' ;

// words

ASSERTION : 'assert_' [a-z_]+ ;
CONSTANT : NUMBER_TYPE '.const' ;
ACCESS : (NUMBER_TYPE | 'v128') '.' 'atomic.'? ('load' | 'store' | 'rmw') [a-z0-9_.]*
       | 'memory.atomic.' ('notify' | 'wait32' | 'wait64')
       ;
LANES : VECTOR_TYPE '.' ('extract_lane' | 'replace_lane' | 'shuffle') [su_]* ;
NUMERIC : (NUMBER_TYPE | VECTOR_TYPE | 'v128') '.' [a-z0-9_.]+ ;
OFFSET : 'offset=' (DECIMAL | HEXADECIMAL) ;
ALIGNMENT : 'align=' (DECIMAL | HEXADECIMAL) ;
NATURAL : DECIMAL | HEXADECIMAL ;
INTEGER : [+\-] (DECIMAL | HEXADECIMAL) ;
FLOAT : [+\-]? (DECIMAL '.' DECIMAL? ([eE] [+\-]? DECIMAL)?
      | DECIMAL [eE] [+\-]? DECIMAL
      | HEXADECIMAL '.' HEX_DIGITS? ([pP] [+\-]? DECIMAL)?
      | HEXADECIMAL [pP] [+\-]? DECIMAL
      | 'inf' | 'nan' (':' (HEXADECIMAL | [a-z]+))?) ;
ID : '$' [0-9A-Za-z!#$%&'*+\-./:<=>?@\\^_`|~]+ ;
STRING : TEXT ;

ANNOTATION : '(@' (~[()"] | TEXT | BRACKETS)* ')' -> skip ;
BLOCK_COMMENT : '(;' (IN_COMMENT | ';'* COMMENT_OF_TWO)* ';'+ ')' -> skip ;
LINE_COMMENT : ';;' ~[\n]* -> skip ;
BLANKS : [ \t\r\n]+ -> skip ;

fragment NUMBER_TYPE : [if] ('32' | '64') ;
fragment VECTOR_TYPE : 'i8x16' | 'i16x8' | 'i32x4' | 'i64x2' | 'f32x4' | 'f64x2' ;
fragment DECIMAL : [0-9]+ ('_' [0-9]+)* ;
fragment HEXADECIMAL : '0x' HEX_DIGITS ;
fragment HEX_DIGITS : [0-9a-fA-F]+ ('_' [0-9a-fA-F]+)* ;
fragment TEXT : '"' (~["\\\n] | '\\' ~[\n])* '"' ;
fragment BRACKETS : '(' (~[()"] | TEXT | '(' (~[()"] | TEXT)* ')')* ')' ;
// what a comment may have that neither begins another nor ends it
fragment IN_COMMENT : ~[(;] | ';'* '('+ ~[(;] | ';'+ ~[;()] ;
fragment COMMENT_OF_TWO : '('+ ';' (IN_COMMENT | ';'* COMMENT_OF_ONE)* ';'+ ')' ;
fragment COMMENT_OF_ONE : '('+ ';' IN_COMMENT* ';'+ ')' ;
