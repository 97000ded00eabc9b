unsigned int hash_type; stirred( )
{ hash >> 33 ;
}
