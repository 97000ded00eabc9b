grammar Sums; e : e '+' e | e '!' | '(' e ')' | 'x' ;
