#!/bin/sh
# Exits with 0 while z3 finds, without an error, that the assertions of the script in "$1" can't hold together,
# and instantiates a quantifier on the way. timeout ends a search that goes on and on.
answers=$(timeout 10 z3 -smt2 -st "$1" 2>&1)
case $answers in
*error*) exit 1 ;;
*unsat*:quant-instantiations*) exit 0 ;;
*) exit 1 ;;
esac
