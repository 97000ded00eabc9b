grammar Stars; s : a* a* EOF ; a : 'x' ;
