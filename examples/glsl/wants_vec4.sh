#!/bin/sh
# Exits with 0 while the first error that glslangValidator finds in the fragment shader in "$1" is a vector of three
# parts where one of four is wanted. The shader is read from standard input, so that its name doesn't matter; timeout
# ends a compiler that hangs.
messages=$(timeout 10 glslangValidator --stdin -S frag <"$1" 2>&1)
case $messages in
*"cannot convert from "*" 3-component vector of float' to "*" 4-component vector of float'"*) exit 0 ;;
*) exit 1 ;;
esac
