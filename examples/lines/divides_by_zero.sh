#!/bin/sh
# Exits with 0 while the shell script in "$1" still divides by zero on an empty input. The message
# is looked for, so that a candidate that fails in another way is no; timeout ends one that hangs.
timeout 5 sh "$1" </dev/null 2>&1 | grep -Eqi 'division by (zero|0)'
