// A part of C: what realistic functions, declarations and control flow are written in, after the preprocessor.
//
// Covers declarations with initialisers, structs, unions, enums, typedefs, pointers, arrays, function pointers, all
// statements and all expressions of C99, and lines of the preprocessor as comments. A name that stands where a type
// may stand is taken for a type where nothing else fits. Not covered: old-style parameters, bit-fields, attributes,
// designated initialisers other than `.name =` and `[e] =`, inline assembly and the key words of C11.
grammar C;

translationUnit : external* EOF ;

external : function | declaration | ';' ;

function : specifiers? declarator block ;

declaration : specifiers (initDeclarator (',' initDeclarator)*)? ';' ;
initDeclarator : declarator ('=' initializer)? ;
initializer : assignment | '{' (element (',' element)* ','?)? '}' ;
element : (designator+ '=')? initializer ;
designator : '.' ID | '[' conditional ']' ;

specifiers : qualifier* (basic+ | structOrUnion | enumeration | ID) qualifier* ;
qualifier : 'typedef' | 'extern' | 'static' | 'auto' | 'register' | 'inline' | 'const' | 'volatile' | 'restrict' ;
basic : 'void' | 'char' | 'short' | 'int' | 'long' | 'float' | 'double' | 'signed' | 'unsigned' | '_Bool' ;
structOrUnion : ('struct' | 'union') (ID | ID? '{' member* '}') ;
member : specifiers (declarator (',' declarator)*)? ';' ;
enumeration : 'enum' (ID | ID? '{' enumerator (',' enumerator)* ','? '}') ;
enumerator : ID ('=' conditional)? ;

declarator : pointer* direct ;
pointer : '*' qualifier* ;
direct : direct '[' assignment? ']'
       | direct '(' (parameters | ID (',' ID)*)? ')'
       | '(' declarator ')'
       | ID
       ;
parameters : parameter (',' parameter)* (',' '...')? ;
parameter : specifiers (declarator | abstractDeclarator)? ;
abstractDeclarator : pointer+ | pointer* directAbstract ;
directAbstract : directAbstract '[' assignment? ']'
               | directAbstract '(' parameters? ')'
               | '(' abstractDeclarator ')'
               | '[' assignment? ']'
               | '(' parameters? ')'
               ;
typeName : specifiers abstractDeclarator? ;

block : '{' item* '}' ;
item : statement | declaration ;

statement : expression? ';'
          | block
          | 'if' '(' expression ')' statement ('else' statement)?
          | 'switch' '(' expression ')' statement
          | 'while' '(' expression ')' statement
          | 'do' statement 'while' '(' expression ')' ';'
          | 'for' '(' (expression? ';' | declaration) expression? ';' expression? ')' statement
          | ('case' conditional | 'default' | ID) ':' statement
          | 'goto' ID ';'
          | ('break' | 'continue') ';'
          | 'return' expression? ';'
          ;

expression : assignment (',' assignment)* ;

assignment : unary assignmentOperator assignment | conditional ;
assignmentOperator : '=' | '*=' | '/=' | '%=' | '+=' | '-=' | '<<=' | '>>=' | '&=' | '^=' | '|=' ;

conditional : binary ('?' expression ':' conditional)? ;

binary : binary ('*' | '/' | '%') binary
       | binary ('+' | '-') binary
       | binary ('<<' | '>>') binary
       | binary ('<' | '>' | '<=' | '>=') binary
       | binary ('==' | '!=') binary
       | binary '&' binary
       | binary '^' binary
       | binary '|' binary
       | binary '&&' binary
       | binary '||' binary
       | cast
       ;

cast : unary | '(' typeName ')' cast ;

unary : postfix
      | ('++' | '--') unary
      | ('&' | '*' | '+' | '-' | '~' | '!') cast
      | 'sizeof' (unary | '(' typeName ')')
      ;

postfix : postfix '[' expression ']'
        | postfix '(' (assignment (',' assignment)*)? ')'
        | postfix ('.' | '->') ID
        | postfix ('++' | '--')
        | '(' typeName ')' '{' (element (',' element)* ','?)? '}'
        | primary
        ;

primary : ID | NUMBER | CHARACTER | STRING+ | '(' expression ')' ;

ID : [a-zA-Z_$] [a-zA-Z_$0-9]* ;
NUMBER : '.'? DIGIT ([a-zA-Z0-9_.] | [eEpP] [+\-])* ;
CHARACTER : PREFIX? '\'' (~['\\\n] | '\\' ~[\n])+ '\'' ;
STRING : PREFIX? '"' (~["\\\n] | '\\' .)* '"' ;

DIRECTIVE : '#' (~[\\\n] | '\\' .)* -> skip ;
BLOCK_COMMENT : '/*' .*? '*/' -> skip ;
LINE_COMMENT : '//' ~[\n]* -> skip ;
BLANKS : [ \t\r\n\f]+ -> skip ;

fragment DIGIT : [0-9] ;
fragment PREFIX : 'L' | 'u' | 'U' | 'u8' ;
