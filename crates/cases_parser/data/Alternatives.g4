grammar Alternatives; s : a | b ; a : 'x' ; b : 'x' ;
