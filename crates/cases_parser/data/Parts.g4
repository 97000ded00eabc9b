grammar Parts; s : a b ; a : 'x' | 'x' 'x' ; b : 'x'* ;
