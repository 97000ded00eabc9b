#!/bin/sh
# Runs on the node: node.sh CANDIDATE TEST LIMIT SUM. Standard input is an archive with this checksum that has the test, what it
# needs, and candidate/CANDIDATE. Prints `answer: ` and the test's own exit status. Where it doesn't, the node has failed:
# statuses 126 and 127 mean that a command couldn't be started there, and are no answer.
work=$(mktemp -d "${TMPDIR:-/tmp}/perses.XXXXXX" 2>/dev/null || mktemp -d /tmp/perses.XXXXXX) || exit 1
trap 'rm -rf -- "$work"' EXIT
trap 'exit 1' HUP INT TERM
cat >"$work/archive" && [ "$(sha256sum <"$work/archive")" = "$4" ] || exit 1
mkdir "$work/files" && cd "$work/files" && tar -xf ../archive || exit 1
# The shell notes that it was started: where it wasn't, the status is of `timeout` itself, and no answer either.
timeout -k 5 "$3" /bin/sh -c ': >../begun && exec "$0" "$1"' "./$2" "candidate/$1" </dev/null >/dev/null
status=$?
[ -e ../begun ] || exit 1
trap '' PIPE # where nobody waits for the answer any more, what is here is taken out all the same
case $status in
126 | 127) echo "$(uname -n): the test had status $status: is a command missing there?" >&2 ;;
*) echo "answer: $status" ;;
esac
