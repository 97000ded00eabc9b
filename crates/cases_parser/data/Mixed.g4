grammar Mixed; s : 'x'? . ('y' | 'x' 'y')+ ;
