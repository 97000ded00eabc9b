grammar Lists; s : a* ; a : '(' s ')' | b ; b : 'x' | 'y' ;
