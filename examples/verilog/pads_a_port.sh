#!/bin/sh
# Exits with 0 while Icarus Verilog takes the design in "$1" and warns that the shifter's amount has a bit less than its
# port. Nothing is written but the messages; timeout ends a compiler that hangs.
messages=$(timeout 10 iverilog -Wall -t null "$1" 2>&1) || exit 1
case $messages in
*'Port 2 (amount) of shifter expects 5 bits, got 4.'*) exit 0 ;;
*) exit 1 ;;
esac
