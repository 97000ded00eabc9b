#!/bin/sh
# An interestingness script that has a node of a Slurm cluster run the test:
#     TEST=/home/me/interesting.sh perses reduce .. --script examples/cluster/slurm.sh
# Within `salloc -n 16 --no-kill` each question is a step of that allocation, else a job of its own, which waits in the queue.
test=${TEST:?"the test, which the node calls with the candidate's name"}
needs=${NEEDS:-} # files and folders that the test needs, with blanks between them; they are beside the test on the node
limit=${LIMIT:-60} # seconds, after which the test is ended on the node; its status is then 124, a no
here=$(CDPATH='' cd -- "$(dirname -- "$0")" && pwd)
. "$here/ask.sh"

# Slurm ends what is still there two minutes later than the test's own limit. In an allocation a step has a processor to itself.
on_a_node() {
    srun --quiet --ntasks=1 --nodes=1 --cpus-per-task=1 ${SLURM_JOB_ID:+--exact} --quit-on-interrupt \
        --chdir=/ --time=$((limit / 60 + 3)) --job-name=perses ${SRUN_OPTIONS:-} "$@"
}

ask "$1"
