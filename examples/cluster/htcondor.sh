#!/bin/sh
# An interestingness script that has a machine of an HTCondor pool run the test:
#     TEST=/home/me/interesting.sh perses reduce .. --script examples/cluster/htcondor.sh
test=${TEST:?"the test, which the node calls with the candidate's name"}
needs=${NEEDS:-} # files and folders that the test needs, with blanks between them; they are beside the test on the node
limit=${LIMIT:-60} # seconds, after which the test is ended on the node; its status is then 124, a no
here=$(CDPATH='' cd -- "$(dirname -- "$0")" && pwd)
. "$here/ask.sh"

# The job has the archive as its standard input, and is taken out of the queue where it is held, or runs two minutes longer than the
# test may. HTCondor itself begins a job anew whose machine is gone, when the job's lease ends; by default it lasts 40 minutes.
description() {
    cat <<END
executable = $here/node.sh
arguments = "'$name' '$(basename -- "$test")' '$limit' '$sum'"
input = $work/archive
output = $job/answer
error = $job/messages
log = $job/log
should_transfer_files = YES
when_to_transfer_output = ON_EXIT
job_lease_duration = 60
periodic_remove = (JobStatus == 5) || (JobStatus == 2 && time() - EnteredCurrentStatus > $((limit + 120)))
${CONDOR_OPTIONS:-}
queue
END
}

on_a_node() (
    job=$(mktemp -d "$work/job.XXXXXX") || exit 1
    description >"$job/description"
    id=$(condor_submit -terse "$job/description") || exit 1
    id=${id%% *}
    trap 'condor_rm "$id" >/dev/null 2>&1' EXIT
    trap 'exit 1' HUP INT TERM
    condor_wait "$job/log" >/dev/null || exit 1
    if [ ! -e "$job/answer" ]; then
        grep -A 1 -e '^009 ' -e '^012 ' -- "$job/log" >&2 # why it was held, and taken out
        exit 1
    fi
    cat -- "$job/messages" >&2
    cat -- "$job/answer"
)

ask "$1"
