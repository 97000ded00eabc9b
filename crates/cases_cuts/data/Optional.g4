grammar Optional; s : a? 'x' ; a : 'y'* ;
