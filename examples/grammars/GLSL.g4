// GLSL 4.60 and GLSL ES 3.20, and the versions before them, after the preprocessor.
//
// Written after the grammars in "The OpenGL Shading Language, Version 4.60" and "The OpenGL ES Shading Language,
// Version 3.20" (Khronos). Covers all stages with their qualifiers, blocks and subroutines, and of the extensions
// those of ray tracing, meshes, buffer references, cooperative matrices, control flow attributes, SPIR-V intrinsics
// and initialiser lists. A type's name is a name as any other. Lines of `#version` and `#extension` are parts of the
// shader, and stay until they are deleted; other lines of the preprocessor are comments. Not covered: macros that
// aren't replaced yet, and HLSL.
//
// Of 125 test shaders of glslang 12.0.0 without definitions, whose stored results have no error, 124 parse without the
// preprocessor. The other one has a line that only the preprocessor makes GLSL of. As the preprocessor leaves them,
// 654 of its 655 test shaders parse (`bench/corpora`); the other one has attributes round a function's head. Twice the
// tokens take 1.64 times the time; the slowest file is spv.subgroupExtendedTypesArithmetic.comp with 11,101 tokens and
// 0.1 s.
grammar GLSL;

shader : external* EOF ;

external : function
         | prototype
         | block
         | declaration
         | precision
         | defaults
         | directive
         | ';'
         ;

directive : VERSION | EXTENSION ;
precision : 'precision' qualifier type ';' ;
defaults : qualifier+ ';' ;

function : qualifier* type name '(' parameters? ')' compound ;
prototype : qualifier* type name '(' parameters? ')' ';' ;
parameters : parameter (',' parameter)* ;
parameter : qualifier* type (name dimension*)? ;

block : qualifier+ name '{' member* '}' (name dimension*)? ';' ;
member : qualifier* (type | structure) declarator (',' declarator)* ';' ;

declaration : qualifier+ declarators ';'
            | qualifier* type declarators ';'
            | qualifier* structure declarators? ';'
            ;
declarators : declarator (',' declarator)* ;
declarator : name dimension* ('=' initializer)? ;
initializer : assignment | initializers ;
initializers : '{' (initializer (',' initializer)* ','?)? '}' ;
dimension : '[' expression? ']' ;

structure : 'struct' name? '{' member* '}' dimension* ;
type : (name | matrix | spirv) dimension* ;
matrix : COOPERATIVE '<' size (',' size)* '>' ;
size : primary (arithmetic primary)* ;
arithmetic : '+' | '-' | '*' | '/' ;

qualifier : layout
          | 'subroutine' ('(' name (',' name)* ')')?
          | storage
          | spirv
          ;
layout : 'layout' '(' layoutPart (',' layoutPart)* ')' ;
layoutPart : (name | EXTENSION_STORAGE | NUMBER | STRING) ('=' layoutValue)? ;
layoutValue : conditional | '[' layoutValue (',' layoutValue)* ']' ;
spirv : SPIRV '(' (layoutPart (',' layoutPart)*)? ')' ;
storage : 'const' | 'in' | 'out' | 'inout' | 'uniform' | 'buffer' | 'shared' | 'attribute' | 'varying' | 'centroid'
        | 'sample' | 'patch' | 'smooth' | 'flat' | 'noperspective' | 'invariant' | 'precise' | 'coherent' | 'volatile'
        | 'restrict' | 'readonly' | 'writeonly' | 'highp' | 'mediump' | 'lowp' | 'nonuniformEXT'
        | 'spirv_by_reference' | 'spirv_literal' | EXTENSION_STORAGE ;

// Names. What is no key word in all versions may be one.

name : ID | 'buffer' | 'shared' | 'sample' | 'patch' | 'smooth' | 'flat' | 'noperspective' | 'precise' | 'coherent'
     | 'restrict' | 'readonly' | 'writeonly' | 'subroutine' | 'nonuniformEXT' ;

compound : '{' statement* '}' ;

statement : compound
          | declaration
          | prototype
          | precision
          | simple
          | ifStatement
          | switchStatement
          | whileStatement
          | doStatement
          | forStatement
          | label
          | jump
          | attributed
          | directive
          | block
          ;

simple : expression? ';' ;
ifStatement : 'if' '(' expression ')' statement ('else' statement)? ;
switchStatement : 'switch' '(' expression ')' compound ;
whileStatement : 'while' '(' condition ')' statement ;
doStatement : 'do' statement 'while' '(' expression ')' ';' ;
forStatement : 'for' '(' (simple | declaration) condition? ';' expression? ')' statement ;
condition : expression | qualifier* type name '=' initializer ;
label : ('case' expression | 'default') ':' ;
jump : ('break' | 'continue' | 'discard' | 'return' expression?) ';' ;
attributed : '[' '[' expression ']' ']' statement ;

expression : assignment (',' assignment)* ;
assignment : (unary assignmentOperator)* conditional ;
assignmentOperator : '=' | '*=' | '/=' | '%=' | '+=' | '-=' | '<<=' | '>>=' | '&=' | '^=' | '|=' ;
conditional : binary ('?' expression ':' assignment)? ;
binary : unary (binaryOperator unary)* ;
binaryOperator : '*' | '/' | '%' | '+' | '-' | '<<' | '>>' | '<' | '>' | '<=' | '>=' | '==' | '!=' | '&' | '^' | '|'
               | '&&' | '^^' | '||' ;
unary : prefix* postfix ;
prefix : '++' | '--' | '+' | '-' | '!' | '~' ;
postfix : primary suffix* ;
suffix : '[' expression? ']' | '.' name | arguments | '++' | '--' ;
arguments : '(' (argument (',' argument)*)? ')' ;
argument : assignment | initializers ;
primary : name | NUMBER | STRING | matrix | spirv | '(' expression ')' ;

COOPERATIVE : [fiu] 'coopmatNV' | 'coopmat' ;
SPIRV : 'spirv_' [a-z_]+ ;
EXTENSION_STORAGE : ('rayPayload' 'In'? | 'hitAttribute' | 'hitObjectAttribute' | 'callableData' 'In'?
                  | 'shaderRecord' | 'perprimitive' | 'pervertex' | 'perview' | 'task' | 'taskPayloadShared')
                    ('EXT' | 'NV')
                  | ('device' | 'queuefamily' | 'workgroup' | 'subgroup' | 'shadercall') 'coherent' | 'nonprivate'
                  | '__'? 'explicitInterpAMD' ;
ID : [a-zA-Z_] [a-zA-Z_0-9]* ;

NUMBER : '0' [xX] [0-9a-fA-F]+ SUFFIX?
       | DIGITS EXPONENT? SUFFIX?
       | (DIGITS '.' DIGITS? | '.' DIGITS) EXPONENT? SUFFIX? ;
STRING : '"' (~["\\\n] | '\\' .)* '"' ;

VERSION : '#' [ \t]* 'version' ~[\n]* '\n' ;
EXTENSION : '#' [ \t]* 'extension' ~[\n]* '\n' ;
DIRECTIVE : '#' (~[\\\n] | '\\' .)* -> skip ;
BLOCK_COMMENT : '/*' .*? '*/' -> skip ;
LINE_COMMENT : '//' ~[\n]* -> skip ;
BLANKS : ([ \t\r\n\f\u000B] | '\\' '\r'? '\n')+ -> skip ;

fragment DIGITS : [0-9]+ ;
fragment EXPONENT : [eE] [+\-]? [0-9]+ ;
fragment SUFFIX : [uU] [lLsS]? | [lLsS] | [lL]? [fF] | [hH] [fF] ;
