// C17, and what GNU C adds to it, after the preprocessor. Written from Annex A of ISO/IEC 9899:2018, and from
// "Extensions to the C Language Family" in the manual of GCC 12.
//
// Covers all of Annex A but digraphs; and of GNU C: attributes, `__extension__`, `typeof`, statement expressions,
// `asm`, labels as values, local labels, nested functions, case ranges, omitted middle operands, designators of both
// styles, vector, complex and `__int128` types, and old-style definitions with implicit int. A call may have types as
// arguments, as `__builtin_va_arg (list, int)` has. Lines of the preprocessor are passed over, also those of `gcc -E`.
// Not covered: digraphs and trigraphs, `[[..]]` and what else C23 adds, and words of other compilers, as `__declspec`.
//
// After `gcc -E` 3,811 of the 3,812 files of GCC 12's c-torture, zlib 1.2, bzip2 1.0, Lua 5.4 and cJSON 1.7 parse that
// GCC takes and that aren't too long (`bench/corpora`); the other one isn't UTF-8. Twice the tokens take 1.85 times the
// time; the slowest file is 20001226-1.c with 204,831 tokens and 1.4 s. Time grows as the text does, but in chains of
// `if` and `else`, and of casts by names alone: there with the square of the chain.
//
// A grammar can't know which names are types, so what is read goes by its shape. `(a)` is an expression, also in
// `sizeof (a)`; `(a) b` and `(a) (b)` are casts, but `(a) - b` isn't, nor is it with `+`, `*` or `&`. In a block
// `a * b;` and `a (b);` are expressions; `a * b = c;` and `a b;` are declarations.
//
// In `x | x (',' x)*` the first alternative lets any x take the place of all, and the second lets those after the
// first be deleted.
grammar C;

translationUnit : external* EOF ;

external : function | declaration | declarators ';' | assembly ';' | ';' ;

function : specifiers? pointer* functionDirect oldParameter* block ;
functionDirect : ID '(' parameters? ')' | '(' attribute* declarator ')' suffix+ ;
// Not any declaration: `int f (int) __attribute__ ((pure));` would go on as a function's beginning.
oldParameter : specifiers declarators ';' ;

declaration : specifiers declarators? ';'
            | '__label__' ID (',' ID)* ';'
            | staticAssertion ';'
            ;
staticAssertion : '_Static_assert' '(' conditional (',' STRING+)? ')' ;
declarators : initDeclarator | initDeclarator (',' attribute* initDeclarator)* ;
initDeclarator : declarator assembly? attribute* ('=' initializer)? ;
initializer : assignment | braces ;
braces : '{' (element ',')* element? '}' ;
element : designation? initializer ;
designation : designator+ '='? | ID ':' ;
designator : '.' ID | '[' conditional ('...' conditional)? ']' ;

specifiers : (basic | qualifier)+ | qualifier* (tagged | ID) qualifier* ;
tagged : structOrUnion
       | enumeration
       | ('typeof' | '__typeof__' | '__typeof') '(' (expression | typeName) ')'
       | '_Atomic' '(' (ID | typeName) ')'
       ;
basic : 'void' | 'char' | 'short' | 'int' | 'long' | 'float' | 'double' | 'signed' | '__signed__' | '__signed'
      | 'unsigned' | '_Bool' | '_Complex' | '__complex__' | '__complex' | '__int128' | '_Float16' | '_Float32'
      | '_Float64' | '_Float128' | '_Float32x' | '_Float64x' | '__float128' | '__float80' | '_Decimal32' | '_Decimal64'
      | '_Decimal128' | '__auto_type'
      ;
qualifier : 'typedef' | 'extern' | 'static' | 'auto' | 'register' | '_Thread_local' | '__thread'
          | 'inline' | '__inline' | '__inline__' | '_Noreturn' | '__extension__'
          | 'const' | '__const' | '__const__' | 'volatile' | '__volatile' | '__volatile__'
          | 'restrict' | '__restrict' | '__restrict__' | '_Atomic' | '__seg_fs' | '__seg_gs'
          | '_Alignas' '(' argument ')'
          | attribute
          ;
attribute : ('__attribute__' | '__attribute') '(' '(' arguments? ')' ')' ;

structOrUnion : ('struct' | 'union') attribute* ID? members? ;
members : '{' (member? ';')* member? '}' ;
member : specifiers memberDeclarators? | staticAssertion ;
memberDeclarators : memberDeclarator | memberDeclarator (',' attribute* memberDeclarator)* ;
memberDeclarator : declarator bits? attribute* | bits attribute* ;
bits : ':' conditional ;
enumeration : 'enum' attribute* ID? enumerators? ;
enumerators : '{' (enumerator ',')* enumerator? '}' ;
enumerator : ID attribute* ('=' conditional)? ;

declarator : pointer* (ID | '(' attribute* declarator ')') suffix* ;
pointer : '*' qualifier* ;
suffix : bounds | '(' parameters? ')' ;
bounds : '[' qualifier* ('*' | assignment)? ']' ;
parameters : parameter | parameter ((',' | ';') parameter)* ;
parameter : specifiers (declarator | abstractDeclarator)? attribute* | '...' ;
abstractDeclarator : pointed | abstractDirect ;
pointed : pointer+ abstractDirect? ;
abstractDirect : '(' attribute* abstractDeclarator ')' suffix* | suffix+ ;

// What can be no expression.
typeName : qualifier* ID qualifier* (pointer+ bounds* | pointer* '(' attribute* pointed ')' suffix*)
         | (basic | qualifier)+ abstractDeclarator?
         | qualifier* tagged qualifier* abstractDeclarator?
         | qualifier+ ID qualifier* abstractDeclarator?
         | ID qualifier+ abstractDeclarator?
         ;

block : '{' item* '}' ;
item : label | statement | declaration | function ;
label : ('case' conditional ('...' conditional)? | 'default' | ID) ':' attribute* ;

statement : expression? ';'
          | block
          | 'if' '(' expression ')' body ('else' body)?
          | 'switch' '(' expression ')' body
          | 'while' '(' expression ')' body
          | 'do' body 'while' '(' expression ')' ';'
          | 'for' '(' (expression? ';' | declaration) expression? ';' expression? ')' body
          | 'goto' expression ';'
          | ('break' | 'continue') ';'
          | 'return' expression? ';'
          | assembly ';'
          ;
body : statement | label+ statement | attribute+ ';' ;

assembly : ('asm' | '__asm__' | '__asm') (qualifier | 'goto')* '(' STRING+ (':' (operand (',' operand)*)?)* ')' ;
operand : ('[' ID ']')? STRING+ ('(' expression ')')? | ID ;

expression : assignment | assignment (',' assignment)* ;
assignment : conditional | (cast assignmentOperator)* conditional ;
assignmentOperator : '=' | '*=' | '/=' | '%=' | '+=' | '-=' | '<<=' | '>>=' | '&=' | '^=' | '|=' ;
conditional : logical | logical ('?' expression? ':' logical)* ;
logical : binary | binary (('&&' | '||') binary)* ;
binary : cast | cast (binaryOperator cast)* ;
binaryOperator : '*' | '/' | '%' | '+' | '-' | '<<' | '>>' | '<' | '>' | '<=' | '>=' | '==' | '!=' | '&' | '^' | '|' ;

cast : conversion | unary | ('+' | '-' | '*' | '&') cast | '&&' ID ;
conversion : '(' typeName ')' cast | '(' ID ')' (conversion | unary) ;
unary : postfix
      | ('++' | '--' | '~' | '!' | '__extension__' | '__real__' | '__real' | '__imag__' | '__imag') cast
      | ('sizeof' | '_Alignof' | '__alignof__' | '__alignof') ('(' typeName ')' | unary | ('+' | '-' | '*' | '&') cast)
      ;

postfix : primary access* ;
access : '[' expression ']' | '(' arguments? ')' | ('.' | '->') ID | '++' | '--' ;
arguments : argument | argument (',' argument)* ;
argument : assignment | typeName ;
primary : ID | NUMBER | CHARACTER | STRING+
        | '(' expression ')'
        | '(' block ')'
        | '(' (typeName | ID bounds*) ')' braces
        | '_Generic' '(' assignment (',' (typeName | ID | 'default') ':' assignment)* ')'
        ;

ID : LETTER (LETTER | DIGIT)* ;
NUMBER : '.'? DIGIT ([a-zA-Z0-9_.] | [eEpP] [+\-])* ;
CHARACTER : PREFIX? '\'' (~['\\\n] | '\\' .)+ '\'' ;
STRING : PREFIX? '"' (~["\\\n] | '\\' .)* '"' ;

DIRECTIVE : '#' (~[\\\n] | '\\' .)* -> skip ;
BLOCK_COMMENT : '/*' .*? '*/' -> skip ;
LINE_COMMENT : '//' ~[\n]* -> skip ;
BLANKS : [ \t\r\n\f\u000B]+ -> skip ;

fragment DIGIT : [0-9] ;
fragment LETTER : [a-zA-Z_$\u0080-\u{10FFFF}] | '\\u' HEX HEX HEX HEX | '\\U' HEX HEX HEX HEX HEX HEX HEX HEX ;
fragment HEX : [0-9a-fA-F] ;
fragment PREFIX : 'L' | 'u' | 'U' | 'u8' ;
