# The program reduces this text with the script /bin/sh, which ends with 0 only where each check of
# the program, as the machine runs it, holds. The empty text is interesting too, so nothing is left.
# `stdout` has the report of that, with the number of lines and bytes of this text: who changes this
# text changes these two.
set -e
program=$(readlink "/proc/$PPID/exe")
mkdir trial
# The script's standard input is empty, although the program's own isn't.
test "$(wc -c)" -eq 0
cd trial

# make_script NAME COMMAND: a script that the shell runs.
make_script() {
    printf '#!/bin/sh\n%s\n' "$2" > "$1"
    chmod 755 "$1"
}
make_script has-a 'grep -q a "$1"'
make_script has-equals 'grep -q = "$1"'
make_script always 'exit 0'
make_script no-run-bit 'exit 0'
chmod 644 no-run-bit
make_script killed 'kill -9 $$'
make_script killing 'test -s "$1" || kill -9 $PPID'
make_script noisy 'echo noise; test /dev/fd/1 -ef /dev/null'
make_script removing 'rm "$1"'
make_script ends-in-00-ff "test \"\$(tail -c 2 \"\$1\" | od -An -tx1)\" = ' 00 ff'"

# ends STATUS TEXT WORD..: the program, run with these words, ends with this status, and puts this text
# and a newline.
ends() {
    wanted=$1
    printf '%s\n' "$2" > text
    shift 2
    status=0
    "$program" "$@" > put || status=$?
    test "$status" = "$wanted"
    cmp put text
}

# report UNITS BYTES ROUNDS USED RECORDS: the report of a reduction.
report() {
    printf 'units: %s\nbytes: %s\nrounds: %s\nused: %s\nrecords: %s\n' "$@"
}

# journal_text INPUT EVENTS: the journal of a run over this input, with these events, which are written as
# printf takes them.
journal_text() {
    printf "perses-journal 2\nS %s\n$2" "$(sha256sum < "$1" | cut -c 1-64)"
}
# journal_is INPUT OUTPUT EVENTS: the journal beside this output is that.
journal_is() {
    journal_text "$1" "$3" | cmp - "$2.journal"
}

# reduces STATUS TEXT BYTES INPUT OUTPUT SCRIPT: so ends the command `reduce` of these files. Then `o`,
# which held `old`, holds these bytes, in hexadecimal, and each input is as it was.
printf 'a\nb\n' > lines
printf 'drop\n\000\377' > bytes
: > empty
cat lines bytes empty > inputs
mkdir folder
reduces() {
    printf old > o
    ends "$1" "$2" reduce --mode lines --input "$4" --output "$5" --script "$6"
    test "$(od -An -tx1 o | tr -d ' \n')" = "$3"
    cat lines bytes empty | cmp - inputs
}
# From the second case on, the work folder is there already, and so is the journal.
reduces 0 "$(report '0 -> 0' '0 -> 0' 1 1 1)" '' empty o always
journal_is empty o 'R y 0\n\nC 1\n'
test "$(wc -c < o.journal)" -eq 95
reduces 0 "$(report '2 -> 0' '4 -> 0' 2 2 2)" '' lines o removing
reduces 0 "$(report '2 -> 0' '4 -> 0' 2 2 2)" '' lines o noisy
reduces 0 "$(report '2 -> 1' '7 -> 2' 2 5 4)" 00ff bytes o ends-in-00-ff
journal_is bytes o 'R y 7\ndrop\n\000\377\nC 1\nR n 0\n\nC 2\nR n 5\ndrop\n\nC 3\nR y 2\n\000\377\nC 4\nC 2\n'
rm o.journal
reduces 3 'perses: cannot read input' 6f6c64 missing o always
test ! -e o.journal
# In a folder that isn't there it is the journal that can't be made, before anything is asked.
reduces 12 'perses: journal fault' 6f6c64 lines missing/o always
reduces 4 'perses: cannot write' 6f6c64 lines folder always
journal_is lines folder 'R y 4\na\nb\n\nC 1\nR y 0\n\nC 2\n'
reduces 8 'perses: start is not interesting' 6f6c64 lines o killed
journal_is lines o 'R n 4\na\nb\n\nC 1\n'
reduces 11 'perses: script fault at worker 1' 6f6c64 lines o no-run-bit
journal_is lines o ''
reduces 11 'perses: script fault at worker 1' 6f6c64 lines o missing
journal_is lines o ''

# A program that is killed leaves the journal of what it was answered, and no result.
# (the shell itself says on standard error that it was killed)
status=0
{
    "$program" reduce --mode lines --input lines --output unwritten --script killing > put || status=$?
} 2> /dev/null
test "$status" = 137
test ! -s put
journal_is lines unwritten 'R y 4\na\nb\n\nC 1\n'
test ! -e unwritten
# It is resumed from there, in the same file: what the journal has isn't asked again.
make_script empty-only 'test ! -s "$1"'
ends 0 "$(report '2 -> 0' '4 -> 0' 2 2 2)" reduce --mode lines --input lines --output unwritten --script empty-only \
    --resume unwritten.journal
journal_is lines unwritten 'K y 4\na\nb\n\nC 1\nR y 0\n\nC 2\n'
test ! -e unwritten.journal.resumed
# A journal of other bytes isn't, nor is what is no journal; no file changes then.
cp unwritten.journal other
other="journal is of another start: $(sha256sum < lines | cut -c 1-64), input: $(sha256sum < bytes | cut -c 1-64)"
ends 13 "perses: $other" reduce --mode lines --input bytes --output unwritten --script always --resume other
ends 14 'perses: bad journal head' reduce --mode lines --input lines --output unwritten --script always --resume lines
ends 3 'perses: cannot read journal' reduce --mode lines --input lines --output unwritten --script always --resume missing
cmp other unwritten.journal

# Nothing of that journal is lost where the run that resumes it is killed too: it is set aside. A killed run
# asks once more than it records, and that alone is asked again.
printf 'a\nb\nc\nd\n' > letters
make_script counting 'printf x >> asks; test "$(wc -c < asks)" != "$(cat kill-at)" || kill -9 $PPID; grep -q a "$1"'
# counts STATUS N WORD..: a run with these words is killed at the ask of this number, from 1 over all runs,
# or ends with this status.
counts() {
    wanted=$1
    echo "$2" > kill-at
    shift 2
    status=0
    {
        "$program" reduce --mode lines --input letters --output counted --script counting "$@" > put || status=$?
    } 2> /dev/null
    test "$status" = "$wanted"
}
resume='--resume counted.journal'
aside=counted.journal.resumed
: > asks
counts 0 none
asked=$(wc -c < asks)
mv counted.journal whole
mv put whole.put
: > asks
counts 137 4
cp counted.journal stopped
# (killed in its first ask; and then as it is where it is killed directly after the head, or before it)
counts 137 5 $resume
cmp $aside stopped
head -c 84 $aside > counted.journal
counts 137 6 $resume
: > counted.journal
head -c 99 $aside > counted.journal.joined
# (a fault of the script, or of the words, loses nothing either)
mv counting elsewhere
counts 11 none $resume
test -e $aside
ends 3 'perses: cannot read input' reduce --mode lines --input missing --output counted --script counting $resume
test ! -e $aside
sed 's/^R /K /' stopped | cmp - counted.journal
mv elsewhere counting
counts 0 none --resume ./counted.journal
test "$(wc -c < asks)" -eq $((asked + 3))
cmp put whole.put
sed 's/^K /R /' counted.journal | cmp - whole
test ! -e $aside
test ! -e counted.journal.joined
# What was set aside is given up where the journal is begun anew; what is no journal stays.
cp stopped $aside
counts 0 none
test ! -e $aside
printf keep > $aside
counts 0 none $resume
counts 0 none
test "$(cat $aside)" = keep

# Each candidate is a program for the shell, which says yes where its last command succeeds.
printf 'true\nfalse\ntrue\n' > yes
reduces 0 "$(report '3 -> 0' '16 -> 0' 2 2 2)" '' yes o /bin/sh
printf 'false\n' > no
reduces 8 'perses: start is not interesting' 6f6c64 no none /bin/sh
test ! -e none

# The normal form of a grammar is put, and the file of the grammar is as it was.
printf "grammar G; a : 'x' ;" > g
cat > statements <<'END'
grammar E; file : stmt* EOF ; stmt : ID '=' expr ';' | '{' stmt* '}' ;
expr : expr '+' expr | '(' expr ')' | ID | INT ;
ID : [a-z]+ ; INT : [0-9]+ ; WS : [ \n]+ -> skip ;
END
cat > form <<'END'
file : file#1 ;
file#1 : stmt* ;
stmt : ID '=' expr ';' | '{' stmt#1 '}' ;
stmt#1 : stmt* ;
expr : expr#1 expr#2 ;
expr#1 : '(' expr ')' | ID | INT ;
expr#2 : expr#3* ;
expr#3 : '+' expr ;
END
cp statements grammar
"$program" normal --grammar grammar > put
cmp put form
cmp grammar statements
ends 3 'perses: cannot read grammar' normal --grammar missing

# A grammar may be in two files, that of its lexer and that of its parser.
printf "lexer grammar L;\nA : 'a' ;\n" > lexer
printf "parser grammar P;\ns : A 'a' ;\n" > parser
ends 0 's : A A ;' normal --grammar parser --lexer lexer
ends 3 'perses: cannot read lexer grammar' normal --grammar parser --lexer missing

# A word that is no text is no command line.
ends 2 'perses: bad command line' normal --grammar "$(printf '\377')"
# The program's own path isn't looked at, and need not be text.
path=./$(printf 'perses\377')
ln -s "$program" "$path"
test "$("$path" normal --grammar g)" = "a : 'x' ;"

# puts_nothing WORD..: where standard output is a full device, the program has status 4.
puts_nothing() {
    status=0
    "$program" "$@" > /dev/full || status=$?
    test "$status" = 4
}
puts_nothing normal --grammar g
# A result is written before its report is put.
puts_nothing reduce --mode lines --input lines --output o --script has-a
test "$(cat o)" = a
journal_is lines o 'R y 4\na\nb\n\nC 1\nR n 0\n\nC 2\nR y 2\na\n\nC 3\nC 2\n'
# A full device as the result, and as the journal.
ln -s /dev/full full
ends 4 'perses: cannot write' reduce --mode lines --input lines --output full --script has-a
ln -s /dev/full unwritable.journal
ends 12 'perses: journal fault' reduce --mode lines --input lines --output unwritable --script has-a
test ! -e unwritable

# A keep text stays in each candidate that is asked, also where the input isn't UTF-8, and eight of
# them are allowed.
printf '\377\nx\n\376' > mixed
kept=$(report '3 -> 1' '5 -> 2' 2 3 3)
ends 0 "$kept" reduce --mode lines --input mixed --output kept --script always --keep x
test "$(od -An -c kept | tr -d ' ')" = 'x\n'
ends 0 "$kept" reduce --mode lines --input mixed --output kept --script always \
    --keep x --keep x --keep x --keep x --keep x --keep x --keep x --keep x
# So does a line that is named, or that holds a text.
ends 0 "$kept" reduce --mode lines --input mixed --output kept --script always --protect 2-2
ends 0 "$kept" reduce --mode lines --input mixed --output kept --script always --protect-text x
test "$(od -An -c kept | tr -d ' ')" = 'x\n'
# A keep text that is no text is no command line, also where its bytes are in the input.
ends 2 'perses: bad command line' reduce --mode lines --input mixed --output kept --script always --keep "$(printf '\377')"
# No file changes where a keep text is missing, or a line.
printf old > kept
rm -r perses-work kept.journal
ends 9 'perses: keep text 2 is missing' reduce --mode lines --input mixed --output kept --script always --keep x --keep y
ends 16 'perses: line 4 is beyond line 3' reduce --mode lines --input mixed --output kept --script always \
    --only 2-4
test "$(cat kept)" = old
test ! -e perses-work
test ! -e kept.journal

# The longest input is read, asked, recorded and written whole; of one byte more, and of a device without
# an end, nothing is asked.
head -c 1048576 /dev/zero | tr '\000' x > long
make_script only-long 'cmp -s "$1" long'
whole=$(report '1 -> 1' '1048576 -> 1048576' 1 2 2)
reduces_long() {
    "$program" reduce --mode lines --script only-long --input "$@" > put
    printf '%s\n' "$whole" | cmp - put
}
reduces_long long --output long.o
cmp long.o long
{
    journal_text long 'R y 1048576\n'
    cat long
    printf '\nC 1\nR n 0\n\nC 2\n'
} > long.journal
cmp long.o.journal long.journal
# Of two lines of more than 64 KiB the first is wanted whole.
{
    head -c 65537 long
    echo
} > half
cat half half > halves
make_script has-half 'head -n 1 "$1" | cmp -s - half'
ends 0 "$(report '2 -> 1' '131076 -> 65538' 2 4 3)" reduce --mode lines --input halves --output o --script has-half
cmp o half
# Pipes as the input, the result and the journal.
cat long | reduces_long /dev/stdin --output long.o --journal log
cmp long.o long
cmp log long.journal
"$program" reduce --mode lines --script only-long --input long --output /dev/stdout --journal log | {
    head -c 1048576 | cmp - long
    cat > put
}
printf '%s\n' "$whole" | cmp - put
mkfifo pipe
cat pipe > log &
reduces_long long --output long.o --journal pipe
wait
cmp log long.journal
rm -r perses-work
printf x >> long
ends 10 'perses: input is too long' reduce --mode lines --input long --output o --script always
ends 10 'perses: input is too long' reduce --mode lines --input /dev/zero --output o --script always
ends 10 'perses: grammar is too long' normal --grammar /dev/zero
ends 10 'perses: lexer grammar is too long' normal --grammar parser --lexer /dev/zero
test ! -e perses-work

# Options in another order and form: the folder of the candidates is made with the one that it is in,
# and the journal has the name that is given.
rm -r perses-work 2> /dev/null || true
ends 0 "$(report '2 -> 1' '4 -> 2' 2 4 3)" reduce --work=deep/down --script=has-a --journal log \
    --output=reordered --input lines --mode=lines --jobs=1
test "$(cat reordered)" = a
test -e deep/down/1/lines
test ! -e perses-work
test ! -e reordered.journal
journal_text lines 'R y 4\na\nb\n\nC 1\nR n 0\n\nC 2\nR y 2\na\n\nC 3\nC 2\n' | cmp - log
# Several scripts at once come to what one after another come to, each in a folder of its worker.
for jobs in 1 2 4 16; do
    "$program" reduce --mode lines --input letters --output several --script has-a --work many --jobs "$jobs" > put
    test "$(cat several)" = a
    test -d "many/$jobs"
    sed 4q put > "four.$jobs"
    cmp "four.$jobs" four.1
    ends 0 'check: yes' check --mode lines --input letters --output several --journal several.journal
done
test ! -e many/17

# A finished run is checked from its files. No script is started, and no file or folder changes.
rm -rf perses-work many
"$program" reduce --mode lines --input lines --output o --script has-a > put
rm -r perses-work
cp o result
cp o.journal run
byrun='check --mode lines --input lines'
ends 0 'check: yes' $byrun --output result --journal run
ends 0 'check: yes' check --mode=lines --journal=run --output=result --input=lines
ends 15 'perses: check: other result' $byrun --output lines --journal run
head -c 97 run > torn
ends 15 'perses: check: torn journal' $byrun --output result --journal torn
printf 'b\n' > other
ends 15 'perses: check: other start' check --mode lines --input other --output result --journal run
{
    echo perses-journal 1
    tail -n +3 run
} > first
ends 0 'check: yes' $byrun --output result --journal first
# Its verdicts may be kept ones.
sed 's/^R /K /' run > recalled
ends 0 'check: yes' $byrun --output result --journal recalled
ends 15 'perses: check: event 2 is not legal' check --mode lines --input other --output result --journal first
ends 14 'perses: bad journal head' $byrun --output result --journal lines
ends 3 'perses: cannot read result' $byrun --output missing --journal run
ends 3 'perses: cannot read journal' $byrun --output result --journal missing
ends 10 'perses: result is too long' $byrun --output /dev/zero --journal run
puts_nothing $byrun --output result --journal run
cmp result o
cmp run o.journal
test ! -e perses-work
# So is one by a grammar, a copy of an example (tools/test compares them), and one of which a verdict was turned.
byscheme='check --grammar ../SExpression.g4 --input ../queue.scm --output ../reduced.scm --journal'
ends 0 'check: yes' $byscheme ../reduced.scm.journal
sed 's/^R n 0$/R y 0/' ../reduced.scm.journal > turned
ends 15 'perses: check: event 23 is not legal' $byscheme turned
# So is one that the program makes by a grammar.
printf 'b=2;a=1;' > two
"$program" reduce --grammar grammar --input two --output o --script has-a > put
test "$(cat o)" = 'a=1;'
ends 0 'check: yes' check --grammar grammar --input two --output o --journal o.journal
# One that respells what is left isn't checked: its last answer is to a text that no tree has.
printf 'abc=1;d=22;' > names
for jobs in 4 1; do
    "$program" reduce --grammar grammar --input names --output o --script has-equals --respell --jobs "$jobs" > put
    test "$(cat o)" = 'd=1;'
done
ends 15 'perses: check: event 9 is not legal' check --grammar grammar --input names --output o --journal o.journal

# Help is no command, and no words are no command line.
for word in --help -h --version -V; do
    ends 2 'perses: bad command line' "$word"
done
ends 2 'perses: bad command line'

# A generated program is reduced in memory, in both modes: no file, folder or journal comes of it.
ls > before
summary() {
    printf 'units: 14788 -> %s\nbytes: 39139 -> %s\nrounds: 2\nused: %s\nint f107( ) {\nQ = %s;\n}' "$@"
}
ends 0 "$(summary 10 26 33 '"Z" ')" selftest --number 0 --size 300
ends 0 "$(summary 19 38 28 'f0(a, (b + "Z"))')" selftest --mode=hdd --size=300 --number=0
puts_nothing selftest --number 0 --size 1
ls | cmp - before

# says TEXT WORD..: run with these words, the program has this line on standard error. PERSES_QUIET silences
# it, and changes nothing else.
says() {
    wanted=$1
    shift
    "$program" "$@" > put 2> said || true
    grep -qxF -e "$wanted" said
    PERSES_QUIET=1 "$program" "$@" > quiet 2>&1 || true
    cmp put quiet
}
says 'perses: normal has no option '\''--gramar'\' normal --gramar g
says 'perses: missing: No such file or directory (os error 2)' normal --grammar missing
says 'perses: missing: No such file or directory (os error 2)' $byrun --output result --journal missing
printf "grammar G;\na : b ;\n" > faulty
says 'perses: faulty:2:5: no rule b' normal --grammar faulty
printf "lexer grammar L;\nA : 'a' {x} ;\n" > lexer
says 'perses: lexer:2:9: in lexer: unsupported action at byte 25' normal --grammar parser --lexer lexer
trees='reduce --grammar grammar --output o --script always --input'
printf 'a=1;\nb = $;\n' > uncut
says 'perses: uncut:2:5: no token at byte 9' $trees uncut
printf 'a=;\n' > unparsed
says "perses: unparsed:1:3: ';' can't be here; what can: '(', ID, INT" $trees unparsed
byline='reduce --mode lines --input lines --script'
# What the script says on standard error is the program's.
make_script complaining 'echo complaint >&2'
"$program" $byline complaining --output o > put 2> said
grep -qxF complaint said
says 'perses: full: No space left on device (os error 28)' $byline has-a --output full
says 'perses: unwritable.journal: No space left on device (os error 28)' $byline has-a --output unwritable
says 'perses: on the whole input the script ended with signal: 9 (SIGKILL)' $byline killed --output o
says 'perses: ./no-run-bit: Permission denied (os error 13)' $byline no-run-bit --output o
says 'perses: warning: the script no-run-bit isn'\''t executable: chmod +x no-run-bit' $byline no-run-bit --output o
says 'perses: warning: counted.journal isn'\''t set aside (a file of its name and .resumed or .joined isn'\''t a journal): where this run is stopped, some of its verdicts may be lost' \
    reduce --mode lines --input letters --output counted --script has-a $resume
# Where standard error is closed, nothing is said in another file.
"$program" $byline has-a --output o > put 2>&-
test "$(cat o)" = a
journal_is lines o 'R y 4\na\nb\n\nC 1\nR n 0\n\nC 2\nR y 2\na\n\nC 3\nC 2\n'
# Where standard output is closed, no other file gets the report: that is a put that fails.
status=0
"$program" $byline has-a --output o >&- 2> said || status=$?
test $status = 4
test "$(cat o)" = a
journal_is lines o 'R y 4\na\nb\n\nC 1\nR n 0\n\nC 2\nR y 2\na\n\nC 3\nC 2\n'
