// Java 17: files with a package, imports and types, and module declarations. Written for reducing, from the grammar
// in the Java Language Specification, Java SE 17 Edition (chapters 3 and 19).
//
// Covers that grammar: records, sealed types, enums, annotations in all places, generics, lambdas and method
// references, both forms of switch as a statement and as an expression, patterns of instanceof, text blocks, var,
// modules. Words that are key words in some places alone (record, sealed, permits, var, yield, module, open and
// others) are names elsewhere.
//
// It takes more than the language, for the compiler to refuse: any modifiers at any declaration, any member in any
// type, a try without catch and finally, both forms of cases in one switch.
//
// A `>` is always a token of its own, so that `List<List<String>>` is read as it is meant, and a shift to the right
// is two or three of them. What follows each other in the input is printed as there, so they go on touching. With
// --squeeze they would be apart: of an input with such a shift the squeezed text is no Java, and the run goes on
// without it.
//
// Not covered: escapes such as \u007B but in names, strings and character literals; `>=` and `>>=` right after type
// arguments (`List<String>=`, which javac alone takes); what is a preview in Java 17, as patterns in switch.
//
// Of guava-libraries 31.1 (Debian's source package) all 3,050 files parse by a second parser that follows such grammars,
// and all 3,039 that `bench/corpora` takes by `perses`. Twice the tokens take 1.92 times the time; the slowest is
// CharMatcherBenchmark.java with 40,946 tokens and 0.6 s.
grammar Java;

// Files

file
    : packageHeader? importLine* (typeDeclaration | ';')* EOF
    | importLine* moduleDeclaration EOF
    ;

packageHeader : annotation* 'package' qualifiedName ';' ;
importLine : 'import' 'static'? qualifiedName ('.' '*')? ';' ;

moduleDeclaration : annotation* 'open'? 'module' qualifiedName '{' directive* '}' ;
directive
    : 'requires' ('transitive' | 'static')* qualifiedName ';'
    | ('exports' | 'opens') qualifiedName ('to' qualifiedNames)? ';'
    | 'uses' qualifiedName ';'
    | 'provides' qualifiedName 'with' qualifiedNames ';'
    ;

// Types that are declared

typeDeclaration
    : classDeclaration | interfaceDeclaration | enumDeclaration | recordDeclaration | annotationDeclaration
    ;

classDeclaration
    : modifier* 'class' typeName typeParameters? ('extends' type)? ('implements' types)? ('permits' types)? classBody
    ;
interfaceDeclaration
    : modifier* 'interface' typeName typeParameters? ('extends' types)? ('permits' types)? classBody
    ;
enumDeclaration
    : modifier* 'enum' typeName ('implements' types)? '{' (enumConstant ',')* enumConstant? (';' member*)? '}'
    ;
enumConstant : annotation* name arguments? classBody? ;
recordDeclaration : modifier* 'record' typeName typeParameters? parameters ('implements' types)? classBody ;
annotationDeclaration : modifier* '@' 'interface' typeName classBody ;

modifier
    : annotation
    | 'public' | 'protected' | 'private' | 'static' | 'abstract' | 'final' | 'native' | 'synchronized' | 'transient'
    | 'volatile' | 'strictfp' | 'default' | 'sealed' | 'non-sealed'
    ;

typeParameters : '<' typeParameter (',' typeParameter)* '>' ;
typeParameter : annotation* typeName ('extends' bounds)? ;
bounds : type ('&' type)* ;

// Members

classBody : '{' member* '}' ;

member : typeDeclaration | field | method | constructor | compactConstructor | initializer | ';' ;

field : modifier* bareType variables ';' ;
method
    : modifier* (typeParameters annotation*)? result name parameters dimension* throwsTypes? ('default' elementValue)?
      (block | ';')
    ;
constructor : modifier* typeParameters? typeName parameters throwsTypes? block ;
compactConstructor : modifier* typeName block ;
initializer : 'static'? block ;

result : 'void' | bareType ;
throwsTypes : 'throws' types ;

parameters : '(' (parameter (',' parameter)*)? ')' ;
parameter
    : variableModifier* bareType name dimension*
    | variableModifier* bareType annotation* '...' name
    | annotation* bareType (name '.')* 'this'
    ;
variableModifier : 'final' | annotation ;

variables : variable (',' variable)* ;
variable : name dimension* ('=' initialValue)? ;
initialValue : expression | arrayInitializer ;
arrayInitializer : '{' (initialValue ',')* initialValue? '}' | '{' ',' '}' ;

// Annotations

annotation : '@' qualifiedName ('(' (elementPair (',' elementPair)* | elementValue)? ')')? ;
elementPair : name '=' elementValue ;
elementValue : value | annotation | elementValues ;
elementValues : '{' (elementValue ',')* elementValue? '}' | '{' ',' '}' ;

// Types that are used

types : type (',' type)* ;
type : annotatedType | bareType ;
annotatedType : annotation+ bareType ;
bareType : primitiveType | referenceType ;
referenceType : classType | arrayType ;
arrayType : (primitiveType | classType) dimension+ ;
dimension : annotation* '[' ']' ;
primitiveType : 'boolean' | 'byte' | 'char' | 'double' | 'float' | 'int' | 'long' | 'short' ;
classType : typeName typeArguments? ('.' annotation* typeName typeArguments?)* ;
typeArguments : '<' (typeArgument (',' typeArgument)*)? '>' ;
typeArgument : type | wildcard ;
wildcard : annotation* '?' (('extends' | 'super') type)? ;

// Statements

block : '{' blockStatement* '}' ;

blockStatement : statement | localVariables | typeDeclaration ;

localVariables : localVariable ';' ;
localVariable : variableModifier* localType variables ;
localType : 'var' | bareType ;

statement
    : block | ifStatement | forStatement | forEachStatement | whileStatement | doStatement | switchBlock
    | tryStatement | synchronizedStatement | returnStatement | throwStatement | breakStatement | continueStatement
    | yieldStatement | assertStatement | labelledStatement | expressionStatement | ';'
    ;

ifStatement : 'if' '(' expression ')' statement ('else' statement)? ;
forStatement : 'for' '(' forStart? ';' expression? ';' effects? ')' statement ;
forStart : localVariable | effects ;
effects : effect (',' effect)* ;
forEachStatement : 'for' '(' variableModifier* localType name dimension* ':' expression ')' statement ;
whileStatement : 'while' '(' expression ')' statement ;
doStatement : 'do' statement 'while' '(' expression ')' ';' ;
tryStatement : 'try' resources? block catchClause* ('finally' block)? ;
resources : '(' resource (';' resource)* ';'? ')' ;
resource : variableModifier* localType name '=' expression | primary ;
catchClause : 'catch' '(' variableModifier* catchTypes name ')' block ;
catchTypes : (classType '|')* classType ;
synchronizedStatement : 'synchronized' '(' expression ')' block ;
returnStatement : 'return' expression? ';' ;
throwStatement : 'throw' expression ';' ;
breakStatement : 'break' name? ';' ;
continueStatement : 'continue' name? ';' ;
yieldStatement : 'yield' expression ';' ;
assertStatement : 'assert' expression (':' expression)? ';' ;
labelledStatement : name ':' statement ;
expressionStatement : effect ';' ;

// a statement, and an expression too
switchBlock : 'switch' '(' expression ')' '{' switchPart* '}' ;
switchPart : switchGroup | switchRule ;
switchGroup : switchLabel ':' blockStatement* ;
switchRule : switchLabel '->' (block | throwStatement | expression ';') ;
switchLabel : 'case' value (',' value)* | 'default' ;

// Expressions

expression : assignment | lambda | castLambda | value ;
value : conditional | operation | unary ;

// what is a statement with a semicolon
effect : assignment | stepBefore | stepAfter | invocation | creation ;

assignment : primary assignmentOperator expression ;
assignmentOperator
    : '=' | '+=' | '-=' | '*=' | '/=' | '%=' | '&=' | '|=' | '^=' | '<<=' | '>>=' | '>>>='
    ;

lambda : lambdaParameters '->' lambdaBody ;
lambdaParameters : name | '(' (name (',' name)*)? ')' | '(' lambdaParameter (',' lambdaParameter)* ')' ;
lambdaParameter
    : variableModifier* localType name dimension*
    | variableModifier* localType annotation* '...' name
    ;
lambdaBody : expression | block ;
castLambda : '(' castType ')' (lambda | castLambda) ;
castType : annotation* referenceType ('&' type)* ;

conditional : (operation | unary) '?' expression ':' expression ;

operation : unary (operator unary | 'instanceof' pattern)+ ;
pattern : type | variableModifier* bareType name ;
operator
    : '||' | '&&' | '|' | '^' | '&' | '==' | '!=' | '<' | '>' | '<=' | '>=' | '<<' | '>' '>' | '>' '>' '>'
    | '+' | '-' | '*' | '/' | '%'
    ;

unary : sign | stepBefore | unsigned ;
sign : ('+' | '-') unary ;
stepBefore : ('++' | '--') unary ;
unsigned : negation | primitiveCast | cast | stepAfter | switchBlock | primary ;
negation : ('!' | '~') unary ;
primitiveCast : '(' annotation* primitiveType ('&' type)* ')' unary ;
cast : '(' castType ')' unsigned ;
stepAfter : primary ('++' | '--') ;

primary : atom | invocation | access | reference ;

// a call or a new object: what may be a statement
invocation : typeArguments? call | chain callSuffix ;
call : (name | 'this' | 'super') arguments ;
callSuffix : '.' typeArguments? call | '.' creation ;
arguments : '(' (expression (',' expression)*)? ')' ;

access : chain accessSuffix ;
accessSuffix : '.' name | '[' expression ']' | '.' 'this' | '.' 'super' | '.' 'class' ;

chain : (atom | call) (callSuffix | accessSuffix)* ;

reference : (chain | typeOfReference) '::' typeArguments? (name | 'new') ;
typeOfReference
    : (primitiveType | name ('.' name)*) dimension+
    | (name '.')* name typeArguments ('.' annotation* name typeArguments?)* dimension*
    ;

atom : name | literal | parenthesized | 'this' | 'super' | creation | newArray | typeLiteral ;
parenthesized : '(' expression ')' ;
typeLiteral : ((primitiveType | name ('.' name)*) dimension+ | primitiveType | 'void') '.' 'class' ;

creation : 'new' typeArguments? annotation* classType arguments classBody? ;
newArray
    : 'new' annotation* (primitiveType | classType) (newDimension+ dimension* | dimension+ arrayInitializer)
    ;
newDimension : annotation* '[' expression ']' ;

literal : INTEGER | FLOAT | CHARACTER | STRING | TEXT | 'true' | 'false' | 'null' ;

// Names: the key words of some places are names elsewhere

qualifiedNames : qualifiedName (',' qualifiedName)* ;
qualifiedName : name ('.' name)* ;
name : typeName | 'permits' | 'record' | 'sealed' | 'var' | 'yield' ;
typeName
    : NAME | 'exports' | 'module' | 'open' | 'opens' | 'provides' | 'requires' | 'to' | 'transitive' | 'uses' | 'with'
    ;

NAME : LETTER (LETTER | [0-9])* ;

INTEGER : (DIGITS | '0' [xX] HEX_DIGITS | '0' [bB] DIGITS) [lL]? ;
FLOAT
    : (DIGITS '.' DIGITS? | '.' DIGITS) EXPONENT? [fFdD]?
    | DIGITS EXPONENT [fFdD]?
    | DIGITS [fFdD]
    | '0' [xX] (HEX_DIGITS '.'? | HEX_DIGITS? '.' HEX_DIGITS) [pP] [+\-]? DIGITS [fFdD]?
    ;
CHARACTER : '\'' (~['\\\r\n] | ESCAPE) '\'' ;
STRING : '"' (~["\\\r\n] | ESCAPE)* '"' ;
TEXT : '"""' [ \t\f]* [\r\n] (('"' '"'?)? (~["\\] | '\\' .))* '"""' ;

BLANKS : [ \t\r\n\f\u001A]+ -> skip ;
BLOCK_COMMENT : '/*' .*? '*/' -> skip ;
LINE_COMMENT : '//' ~[\r\n]* -> skip ;

fragment LETTER : [a-zA-Z_$\u00A0-\u{10FFFF}] | UNICODE_ESCAPE ;
fragment DIGITS : [0-9] ([0-9_]* [0-9])? ;
fragment HEX_DIGITS : HEX_DIGIT ([0-9a-fA-F_]* HEX_DIGIT)? ;
fragment HEX_DIGIT : [0-9a-fA-F] ;
fragment EXPONENT : [eE] [+\-]? DIGITS ;
fragment ESCAPE : '\\' [btnfrs"'\\] | '\\' [0-7] [0-7]? | '\\' [0-3] [0-7] [0-7] | UNICODE_ESCAPE ;
fragment UNICODE_ESCAPE : '\\' 'u'+ HEX_DIGIT HEX_DIGIT HEX_DIGIT HEX_DIGIT ;
