grammar Dangling; s : 'i' s 'e' s | 'i' s | 'x' ;
