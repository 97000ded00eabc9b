#!/bin/sh
# Exits with 0 while SQLite runs the statements in "$1" up to one of which it says that `price` is of more than
# one table. -bail ends it at the first error, so that an earlier one is no.
timeout 10 sqlite3 -batch -bail :memory: <"$1" 2>&1 >/dev/null | grep -q 'ambiguous column name: price'
