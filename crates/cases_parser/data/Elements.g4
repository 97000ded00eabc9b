grammar Elements; s : e* ; e : 'x' | 'x' 'x' ;
