grammar Empty; s : e? 'y' ; e : 'x'* ;
