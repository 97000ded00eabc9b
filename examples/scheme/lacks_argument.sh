#!/bin/sh
# Exits with 0 while the program in "$1" defines `average` with an argument and calls it without one. Only the
# text is looked at, so no Scheme is needed, and the result need not run.
grep -q '(define (average [a-z]' "$1" && grep -q '(average)' "$1"
