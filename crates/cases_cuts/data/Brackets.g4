grammar Brackets; s : '(' s ')' | 'x' ;
