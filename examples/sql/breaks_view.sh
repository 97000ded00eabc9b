#!/bin/sh
# Exits with 0 while SQLite runs the statements in "$1" up to one that takes a column from a table and so breaks the
# view lent_out. -bail ends it at the first error, so that an earlier one is no; timeout ends one that hangs.
timeout 10 sqlite3 -batch -bail :memory: <"$1" 2>&1 >/dev/null |
    grep -q 'error in view lent_out after drop column: no such column'
