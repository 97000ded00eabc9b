# What the scripts of this folder have in common; they read it by `.` and call `ask CANDIDATE`.
# Each of them has a function `on_a_node`, which has a node run its arguments as a command, with its own standard input, and prints
# what that prints.

# The archive for a node: the candidate, the test, and what it needs.
pack() {
    mkdir "$work/candidate" && cp -- "$1" "$work/candidate/$name" || return 1
    set -- -C "$work" candidate
    for file in "$test" $needs; do
        folder=$(CDPATH='' cd -- "$(dirname -- "$file")" && pwd) || return 1
        set -- "$@" -C "$folder" "./$(basename -- "$file")"
    done
    tar -chf "$work/archive" "$@"
}

# Ends with the test's own status. Whatever else happens is no answer, and a node is asked again: perses would keep a no for ever.
ask() {
    name=$(basename -- "$1")
    until work=$(mktemp -d "${TMPDIR:-/tmp}/perses.XXXXXX") && [ -n "$work" ]; do sleep 10; done
    trap 'rm -rf -- "$work"' EXIT
    trap 'exit 1' HUP INT TERM
    until pack "$1"; do
        echo "$0: the candidate can't be packed; trying again" >&2
        rm -rf -- "$work/candidate"
        sleep 10
    done
    sum=$(sha256sum <"$work/archive")
    pause=1
    while :; do
        status=$(on_a_node /bin/sh -c "$(cat -- "$here/node.sh")" node "$name" "$(basename -- "$test")" "$limit" "$sum" <"$work/archive" |
            sed -n 's/^answer: \([0-9]\{1,3\}\)$/\1/p' | tail -n 1)
        case $status in
        [0-9]*) exit "$status" ;;
        esac
        echo "$0: no answer from a node; asking again in $pause s" >&2
        sleep "$pause"
        [ "$pause" -ge 60 ] || pause=$((pause * 2))
    done
}
