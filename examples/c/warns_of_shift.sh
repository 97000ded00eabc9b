#!/bin/sh
# Exits with 0 while the C program in "$1" compiles without an error and the compiler, GCC or Clang, warns
# of a shift by too many bits. Its message is looked for in English; timeout ends a compiler that hangs.
messages=$(LC_ALL=C timeout 10 cc -std=c99 -pedantic-errors -fsyntax-only "$1" 2>&1) || exit 1
case $messages in
*'shift count >= width of type'*) exit 0 ;;
*) exit 1 ;;
esac
