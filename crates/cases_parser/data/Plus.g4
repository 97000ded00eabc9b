grammar Plus; s : e+ 'x' ; e : 'x' | 'x' 'y' ;
