#!/bin/sh
# Exits with 0 while SQLite runs the statements in "$1" up to one that gives a day and an account a second total.
# -bail ends it at the first error, so that an earlier one is no; timeout ends one that hangs.
timeout 10 sqlite3 -batch -bail :memory: <"$1" 2>&1 >/dev/null |
    grep -q 'UNIQUE constraint failed: day_total.day, day_total.account'
