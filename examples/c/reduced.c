typedef int hash_type;
struct entry {
hash_type hash;
}; hash_type stirred( struct entry *entry)
{ entry->hash >> 33 ;
}
