#!/bin/sh
# Exits with 0 while wat2wasm says of the module in "$1" that an i32.store gets a value of type i64, and has no
# other error. Where there is none the module would be written, to /dev/null; timeout ends a wat2wasm that hangs.
messages=$(LC_ALL=C timeout 10 wat2wasm -o /dev/null "$1" 2>&1) && exit 1
case $messages in
*error:*error:*) exit 1 ;;
*'type mismatch in i32.store, expected [i32, i32] but got [i32, i64]'*) exit 0 ;;
*) exit 1 ;;
esac
