// The textual form of LLVM 14's intermediate representation, written from the LLVM Language Reference Manual.
//
// Covers whole modules: types with typed and opaque pointers, globals, aliases, comdats, functions, attribute groups,
// metadata with its specialised nodes, summaries and orders of uses. All constants, constant expressions and
// instructions are covered, with their flags and metadata.
//
// It takes more than LLVM does. A linkage, calling convention, attribute, flag, predicate or ordering is any word, so
// that those of other versions are read too. Types and values need not fit. A branch's target may itself be a
// condition with two targets, so that one of them can take its place.
//
// Not covered: opcodes and types that came after LLVM 14.
//
// Of the 7,271 files of `llvm/test/Transforms` in Debian's llvm-toolchain-14 7,269 parse (`bench/corpora`). Of the
// other two one has no blank between a type and `addrspace`, and one a line that isn't IR. Twice the tokens take 1.71
// times the time; the slowest file is amdgcn-intrinsics.ll with 35,628 tokens and 0.1 s.
grammar LLVM;

module : entry* EOF ;

entry : sourceFile
      | target
      | moduleAssembly
      | typeDefinition
      | comdat
      | global
      | alias
      | declaration
      | definition
      | attributeGroup
      | namedMetadata
      | metadataDefinition
      | useListOrder
      | summary
      ;

sourceFile : 'source_filename' '=' STRING ;
target : 'target' ('triple' | 'datalayout') '=' STRING ;
moduleAssembly : 'module' 'asm' STRING ;
typeDefinition : LOCAL '=' 'type' ('opaque' | type) ;
comdat : COMDAT '=' 'comdat' WORD ;

global : GLOBAL '=' modifier* ('global' | 'constant') type value? (',' globalProperty)* attribute* ;
globalProperty : section | partition | inComdat | attachment | attribute ;
alias : GLOBAL '=' modifier* ('alias' | 'ifunc') type ',' (typedValue | constantExpression) (',' partition)* ;

declaration : 'declare' attachment* header ;
definition : 'define' header attachment* body ;
header : attribute* type GLOBAL '(' (parameter (',' parameter)*)? ')' functionProperty* ;
parameter : type attribute* LOCAL? | '...' ;
functionProperty : section
                 | partition
                 | inComdat
                 | 'gc' STRING
                 | ('prefix' | 'prologue' | 'personality') typedValue
                 | addressSpace
                 | attribute
                 ;
section : 'section' STRING ;
partition : 'partition' STRING ;
inComdat : 'comdat' ('(' COMDAT ')')? ;

// a linkage, visibility, calling convention or attribute
attribute : WORD
          | WORD '(' (attributeArgument (',' attributeArgument)*)? ')'
          | WORD '=' INTEGER
          | 'cc' INTEGER
          | alignment
          | STRING ('=' STRING)?
          | ATTRIBUTES
          ;
attributeArgument : type | INTEGER | STRING | LABEL? WORD ;
modifier : attribute | addressSpace ;
alignment : 'align' (INTEGER | '(' INTEGER ')' | '=' INTEGER) ;
addressSpace : 'addrspace' '(' INTEGER ')' ;
attributeGroup : 'attributes' ATTRIBUTES '=' '{' attribute* '}' ;

// functions' bodies

body : '{' block* useListOrder* '}' ;
block : LABEL? instruction* terminator ;
instruction : (LOCAL '=')? operation (',' attachment)* ;
terminator : (LOCAL '=')? jump (',' attachment)* ;
attachment : METADATA_NAME metadata ;

operation : binary
          | negation
          | comparison
          | cast
          | selection
          | freeze
          | element
          | member
          | address
          | allocation
          | load
          | store
          | fence
          | compareAndExchange
          | readModifyWrite
          | phi
          | call
          | variadicArgument
          | landingPad
          | pad
          ;

binary : binaryOpcode WORD* type value ',' value ;
binaryOpcode : 'add' | 'sub' | 'mul' | 'udiv' | 'sdiv' | 'urem' | 'srem' | 'shl' | 'lshr' | 'ashr'
             | 'and' | 'or' | 'xor' | 'fadd' | 'fsub' | 'fmul' | 'fdiv' | 'frem' ;
negation : 'fneg' WORD* typedValue ;
comparison : ('icmp' | 'fcmp') predicate+ type value ',' value ;
predicate : WORD | 'true' | 'false' ;
cast : castOpcode WORD* typedValue 'to' type ;
castOpcode : 'trunc' | 'zext' | 'sext' | 'fptrunc' | 'fpext' | 'fptoui' | 'fptosi' | 'uitofp' | 'sitofp' | 'ptrtoint'
           | 'inttoptr' | 'bitcast' | 'addrspacecast' ;
selection : 'select' WORD* typedValue ',' typedValue ',' typedValue ;
freeze : 'freeze' typedValue ;

element : elementOpcode typedValue (',' typedValue)+ ;
elementOpcode : 'extractelement' | 'insertelement' | 'shufflevector' ;
member : 'extractvalue' typedValue (',' INTEGER)+
       | 'insertvalue' typedValue ',' typedValue (',' INTEGER)+
       ;

address : 'getelementptr' WORD* type (',' typedValue)+ ;
allocation : 'alloca' WORD* type (',' typedValue)? (',' alignment)? (',' addressSpace)? ;
load : 'load' WORD* type ',' typedValue ordering? (',' alignment)? ;
store : 'store' WORD* typedValue ',' typedValue ordering? (',' alignment)? ;
fence : 'fence' ordering ;
compareAndExchange : 'cmpxchg' WORD* typedValue ',' typedValue ',' typedValue scope? WORD WORD (',' alignment)? ;
readModifyWrite : 'atomicrmw' (WORD | binaryOpcode)+ typedValue ',' typedValue ordering (',' alignment)? ;
ordering : scope? WORD ;
scope : 'syncscope' '(' STRING ')' ;

phi : 'phi' WORD* type incoming (',' incoming)* ;
incoming : '[' value ',' LOCAL ']' ;

call : ('tail' | 'musttail' | 'notail')? 'call' callee ;
callee : modifier* type value arguments attribute* bundles? ;
arguments : '(' (argument (',' argument)*)? ')' ;
argument : type attribute* value | 'metadata' (metadata | typedValue) | '...' ;
bundles : '[' (bundle (',' bundle)*)? ']' ;
bundle : STRING arguments ;
variadicArgument : 'va_arg' typedValue ',' type ;

landingPad : 'landingpad' type 'cleanup'? clause* ;
clause : ('catch' | 'filter') typedValue ;
pad : ('catchpad' | 'cleanuppad') 'within' parent '[' (argument (',' argument)*)? ']' ;
parent : LOCAL | 'none' ;

jump : 'ret' ('void' | typedValue)
     | 'br' branch
     | 'switch' typedValue ',' label '[' switchCase* ']'
     | 'indirectbr' typedValue ',' '[' (label (',' label)*)? ']'
     | 'invoke' callee 'to' label 'unwind' label
     | 'callbr' callee 'to' label '[' (label (',' label)*)? ']'
     | 'resume' typedValue
     | 'catchswitch' 'within' parent '[' label (',' label)* ']' 'unwind' destination
     | 'catchret' 'from' LOCAL 'to' label
     | 'cleanupret' 'from' LOCAL 'unwind' destination
     | 'unreachable'
     ;
branch : label | typedValue ',' branch ',' branch ;
switchCase : typedValue ',' label ;
destination : label | 'to' 'caller' ;
label : 'label' LOCAL ;

useListOrder : ('uselistorder' typedValue | 'uselistorder_bb' GLOBAL ',' LOCAL) ',' '{' INTEGER (',' INTEGER)* '}' ;

// types

type : plainType typeSuffix* ;
typeSuffix : '*' | addressSpace | '(' (parameterType (',' parameterType)*)? ')' ;
parameterType : type | '...' ;
plainType : 'void' | INTEGER_TYPE
          | 'half' | 'bfloat' | 'float' | 'double' | 'fp128' | 'x86_fp80' | 'ppc_fp128' | 'x86_mmx' | 'x86_amx'
          | 'ptr' | 'label' | 'metadata' | 'token'
          | LOCAL
          | array | vector | structure | '<' structure '>'
          ;
array : '[' INTEGER 'x' type ']' ;
vector : '<' ('vscale' 'x')? INTEGER 'x' type '>' ;
structure : '{' (type (',' type)*)? '}' ;

// values

typedValue : type value ;

value : LOCAL | GLOBAL
      | INTEGER | FLOAT | HEXADECIMAL
      | 'true' | 'false' | 'null' | 'none' | 'undef' | 'poison' | 'zeroinitializer'
      | CHARACTERS
      | aggregate
      | assembly
      | constantExpression
      ;

aggregate : '[' elements? ']' | '{' elements? '}' | '<' elements '>' | '<' '{' elements? '}' '>' ;
elements : typedValue (',' typedValue)* ;

assembly : 'asm' (WORD | 'unwind')* STRING ',' STRING ;

constantExpression : castOpcode WORD* '(' typedValue 'to' type ')'
                   | 'getelementptr' WORD* '(' type (',' WORD? typedValue)+ ')'
                   | binaryOpcode WORD* '(' typedValue ',' typedValue ')'
                   | ('icmp' | 'fcmp') predicate+ '(' typedValue ',' typedValue ')'
                   | ('select' | 'fneg' | elementOpcode) '(' elements ')'
                   | 'extractvalue' '(' typedValue (',' INTEGER)+ ')'
                   | 'insertvalue' '(' typedValue ',' typedValue (',' INTEGER)+ ')'
                   | 'blockaddress' '(' value ',' value ')'
                   | ('dso_local_equivalent' | 'no_cfi') GLOBAL
                   ;

// metadata

namedMetadata : METADATA_NAME '=' '!' '{' (metadata (',' metadata)*)? '}' ;
metadataDefinition : METADATA_ID '=' 'distinct'? metadata ;

metadata : METADATA_ID
         | METADATA_STRING
         | '!' '{' (operand (',' operand)*)? '}'
         | METADATA_NAME '(' (field (',' field)*)? ')'
         ;
operand : metadata | typedValue | 'null' ;
field : LABEL? fieldValue ;
fieldValue : metadata
           | typedValue
           | INTEGER | STRING | 'true' | 'false' | 'null'
           | WORD ('|' WORD)*
           | '{' (metadata (',' metadata)*)? '}'
           ;

// the summary of a module for link-time optimisation

summary : SUMMARY_ID '=' LABEL summaryValue ;
summaryValue : '(' (summaryField (',' summaryField)*)? ')'
             | '[' (summaryField (',' summaryField)*)? ']'
             | WORD* SUMMARY_ID
             | INTEGER | STRING | WORD | 'none'
             ;
summaryField : LABEL? summaryValue ;

// words

LABEL : (NAME_CHARACTER+ | STRING) ':' ;
INTEGER : '-'? [0-9]+ | [us] '0x' HEX+ ;
INTEGER_TYPE : 'i' [0-9]+ ;
WORD : [a-zA-Z_] [a-zA-Z_0-9]* ;
LOCAL : '%' NAME ;
GLOBAL : '@' NAME ;
COMDAT : '$' NAME ;
METADATA_ID : '!' [0-9]+ ;
METADATA_NAME : '!' ([a-zA-Z\-$._] | '\\' HEX HEX) ([a-zA-Z\-$._0-9] | '\\' HEX HEX)* ;
METADATA_STRING : '!' STRING ;
ATTRIBUTES : '#' [0-9]+ ;
SUMMARY_ID : '^' [0-9]+ ;
FLOAT : [\-+]? [0-9]+ '.' [0-9]* ([eE] [\-+]? [0-9]+)? ;
HEXADECIMAL : '0x' [KLMHR]? HEX+ ;
CHARACTERS : 'c' STRING ;
STRING : '"' ~["]* '"' ;

COMMENT : ';' ~[\n]* -> skip ;
BLANKS : [ \t\r\n\f]+ -> skip ;

fragment NAME : [a-zA-Z\-$._] NAME_CHARACTER* | [0-9]+ | STRING ;
fragment NAME_CHARACTER : [a-zA-Z\-$._0-9] ;
fragment HEX : [0-9A-Fa-f] ;
