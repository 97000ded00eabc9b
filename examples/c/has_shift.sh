#!/bin/sh
# For a machine without a compiler: exits with 0 while the text in "$1" shifts the hash by 33 bits and has its
# type's definition. The result need not compile.
grep -q 'unsigned int hash_type;' "$1" && grep -q 'hash >> 33' "$1"
