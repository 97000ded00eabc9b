#!/bin/sh
# An interestingness script that has one of several machines run the test, by GNU parallel over ssh:
#     TEST=/home/me/interesting.sh NODES='red red blue me@green' perses reduce .. --script examples/cluster/parallel.sh
# ssh must not ask for a password. The machines need perl.
test=${TEST:?"the test, which the node calls with the candidate's name"}
nodes=${NODES:?"the machines as ssh knows them, each as often as it may run a test at a time"}
needs=${NEEDS:-} # files and folders that the test needs, with blanks between them; they are beside the test on the node
limit=${LIMIT:-60} # seconds, after which the test is ended on the node; its status is then 124, a no
here=$(CDPATH='' cd -- "$(dirname -- "$0")" && pwd)
. "$here/ask.sh"

# One lock for each place on a machine. All runs of a user have them in common.
locks=${LOCKS:-${TMPDIR:-/tmp}/perses-nodes-$(id -u)}
mkdir -p -- "$locks"

# Whether a machine gave no answer within the last minute.
is_bad() {
    [ -e "$locks/$1.bad" ] && [ -n "$(find "$locks/$1.bad" -mmin -1 2>/dev/null)" ]
}

# Whether each of them did.
all_are_bad() {
    for node in $nodes; do
        is_bad "$node" || return 1
    done
}

# Has the machine of a free place run the words; 75 where none is free. A machine that failed is left out for a minute, as long as
# another didn't. Of standard input parallel makes one block, which is that of the words. They are a session of their own there:
# where the run is stopped, parallel kills what it began, and the node couldn't take out what it was sent.
on_a_place() {
    if all_are_bad; then chosen=all; else chosen=good; fi
    place=0
    for node in $nodes; do
        place=$((place + 1))
        if [ $chosen = good ] && is_bad "$node"; then continue; fi
        (
            flock -n 9 || exit 75
            answer=$(parallel --will-cite --pipe --recend '' --block 1g --sshlogin "1/${SSH:-ssh} $node" --timeout $((limit + 60)) -q setsid --wait "$@")
            case $answer in
            "answer: "*[0-9]) rm -f -- "$locks/$node.bad" ;;
            *) touch -- "$locks/$node.bad" && echo "$0: $node gave no answer" >&2 ;;
            esac
            printf '%s\n' "$answer"
        ) 9>"$locks/$place"
        [ $? = 75 ] || return 0
    done
    return 75
}

on_a_node() {
    until on_a_place "$@"; do sleep 1; done
}

ask "$1"
