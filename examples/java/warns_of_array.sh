#!/bin/sh
# Exits with 0 while the Java program in "$1" compiles without an error and javac warns of an array of a
# generic type that a call makes for its variable arguments. Classes go into a folder of the script's own.
classes=$(mktemp -d) || exit 1
trap 'rm -rf -- "$classes"' EXIT
trap 'exit 1' HUP INT TERM
messages=$(LC_ALL=C timeout 20 javac -J-XX:TieredStopAtLevel=1 -J-XX:+UseSerialGC -J-XX:-UsePerfData \
    -proc:none -Xlint:unchecked -d "$classes" "$1" 2>&1) || exit 1
case $messages in
*'unchecked generic array creation for varargs parameter'*) exit 0 ;;
*) exit 1 ;;
esac
