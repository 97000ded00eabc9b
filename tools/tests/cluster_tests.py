"""The scripts of examples/cluster, with small programs in the place of Slurm, HTCondor and GNU parallel."""
import fcntl
import hashlib
import shutil
import subprocess
import tempfile
import time
import unittest
from pathlib import Path

from support import TOOL, named_tests

FOLDER = TOOL.parent.parent / "examples" / "cluster"

# Each of them runs the words that come after its options. The first calls fail, each in another way, as many as `failures` says:
# the second one gets an archive that ends after the test, without what it needs.
ENGINE = """
calls=$(($(cat "$NOTES/calls" 2>/dev/null || echo 0) + 1))
echo $calls >"$NOTES/calls"
echo "$0 $*" >>"$NOTES/words"
run() {
    if [ $calls -gt "$(cat "$NOTES/failures")" ]; then "$@"; return; fi
    case $calls in
    1) echo "answer: 0 " ;;
    2) head -c 2560 | "$@"; return 0 ;;
    3) "$@" | sed 's/answer: //'; return 0 ;;
    4) exit 0 ;;
    *) echo "a node failed" >&2; exit 9 ;;
    esac
}
"""

SRUN = "#!/bin/sh" + ENGINE + """
while [ "${1#-}" != "$1" ]; do shift; done
run "$@"
"""

PARALLEL = "#!/bin/sh" + ENGINE + """
while [ "$1" != -q ]; do shift; done
shift
run "$@"
"""

SUBMIT = "#!/bin/sh" + ENGINE + """
value() { sed -n "s/^$1 = //p" "$description"; }
description=$2
eval "set -- $(value arguments | tr -d '"')"
if [ $calls = 1 ] && [ -e "$NOTES/held" ]; then
    printf '%s\\n' '000 (012.000.000) Job submitted' ... '012 (012.000.000) Job was held.' '	no disk' ... >"$(value log)"
else
    run "$(value executable)" "$@" <"$(value input)" >"$(value output)" 2>"$(value error)"
fi
echo "12.0 - 12.0"
"""

PROGRAMS = {"srun": SRUN, "parallel": PARALLEL, "condor_submit": SUBMIT, "condor_wait": "#!/bin/sh\n", "condor_rm": '#!/bin/sh\necho "$@" >>"$NOTES/removed"\n', "sleep": '#!/bin/sh\necho "$1" >>"$NOTES/sleeps"\n'}

# A `timeout` that can't start anything at its first call, as where there are as many processes as there may be.
FIRST_FAILS = """#!/bin/sh
[ -e "$NOTES/timed" ] && exec /usr/bin/timeout "$@"
touch "$NOTES/timed"
exit 125
"""

# Says by its status what the candidate says, and looks whether what it needs is there.
TEST = '#!/bin/sh\necho noise; echo "answer: 0"\n[ -e "$(dirname "$0")/words.txt" ] && [ -d tables ] || exit 99\n. "./$1"\n'


class ClusterTests(unittest.TestCase):
    def setUp(self):
        self.folder = Path(tempfile.mkdtemp())
        self.addCleanup(shutil.rmtree, self.folder)
        for name, text in PROGRAMS.items():
            self.write(f"bin/{name}", text, 0o755)
        self.write("my test", TEST, 0o755)
        self.write("words.txt", "word\n")
        self.write("tables/one", "1\n")
        self.write("failures", "0")
        (self.folder / "tmp").mkdir()

    def write(self, name, text, mode=0o644):
        path = self.folder / name
        path.parent.mkdir(exist_ok=True)
        path.write_text(text)
        path.chmod(mode)

    def ask(self, script, candidate, **more):
        done = self.asking(script, candidate, **more)
        output, errors = done.communicate(timeout=600)
        return subprocess.CompletedProcess(done.args, done.returncode, output, errors)

    def asking(self, script, candidate, **more):
        """Begins to ask about a candidate."""
        self.write("perses-work/a name.c", candidate)
        environment = {
            "PATH": f"{self.folder}/bin:/usr/bin:/bin", "NOTES": str(self.folder), "TMPDIR": str(self.folder / "tmp"), "TEST": "my test",
            "NEEDS": f"words.txt {self.folder}/tables", "NODES": "red blue", **more,
        }
        words = [str(FOLDER / script), "perses-work/a name.c"]
        return subprocess.Popen(words, cwd=self.folder, env=environment, stdin=subprocess.DEVNULL, stdout=subprocess.PIPE, stderr=subprocess.PIPE, text=True)

    def left(self):
        """What is left in the folder for temporary files but locks."""
        return [path.name for path in (self.folder / "tmp").iterdir() if not path.name.startswith("perses-nodes")]

    def own_status(self, script):
        for status in (0, 1, 7, 125):
            with self.subTest(status=status):
                done = self.ask(script, f"exit {status}\n")
                self.assertEqual((done.returncode, done.stdout, self.left()), (status, "", []), done.stderr)
        self.assertFalse((self.folder / "sleeps").exists())

    def failures_are_asked_again(self, script):
        for status in (0, 1):
            for failures in (1, 5):
                with self.subTest(status=status, failures=failures):
                    (self.folder / "calls").unlink(missing_ok=True)
                    self.write("failures", str(failures))
                    done = self.ask(script, f"exit {status}\n")
                    self.assertEqual((done.returncode, (self.folder / "calls").read_text()), (status, f"{failures + 1}\n"), done.stderr)
                    self.assertIn("no answer from a node; asking again in 1 s", done.stderr)
                    self.assertEqual(self.left(), [])

    def missing_command_is_no_answer(self, script):
        for status in (126, 127):
            with self.subTest(status=status):
                flag = self.folder / "was_there"
                flag.unlink(missing_ok=True)
                done = self.ask(script, f'[ -e "{flag}" ] && exit 3\ntouch "{flag}"\nexit {status}\n')
                self.assertEqual(done.returncode, 3, done.stderr)
                self.assertIn(f"the test had status {status}", done.stderr)

    def failed_timeout_is_no_answer(self, script):
        self.write("bin/timeout", FIRST_FAILS, 0o755)
        done = self.ask(script, "exit 3\n")
        self.assertEqual((done.returncode, (self.folder / "calls").read_text(), self.left()), (3, "2\n", []), done.stderr)

    def hanging_test_is_ended(self, script):
        done = self.ask(script, "exec tail -f /dev/null\n", LIMIT="1")
        self.assertEqual((done.returncode, self.left()), (124, []))

    def test_node_takes_all_out_where_nobody_waits_for_the_answer(self):
        self.write("files/test", '#!/bin/sh\ntouch "$NOTES/begun"\nuntil [ -e "$NOTES/closed" ]; do /bin/sleep 0.1; done\n', 0o755)
        self.write("files/candidate", "")
        archive = subprocess.run(["tar", "-c", "-C", str(self.folder / "files"), "."], check=True, capture_output=True).stdout
        words = ["sh", str(FOLDER / "node.sh"), "a", "test", "60", hashlib.sha256(archive).hexdigest() + "  -"]
        environment = {"PATH": "/usr/bin:/bin", "NOTES": str(self.folder), "TMPDIR": str(self.folder / "tmp")}
        node = subprocess.Popen(words, env=environment, stdin=subprocess.PIPE, stdout=subprocess.PIPE, stderr=subprocess.DEVNULL)
        node.stdin.write(archive)
        node.stdin.close()
        self.until(lambda: (self.folder / "begun").exists())
        node.stdout.close()
        (self.folder / "closed").touch()
        node.wait(60)
        self.assertEqual(self.left(), [])

    def until(self, holds):
        most = time.monotonic() + 60
        while not holds():
            self.assertLess(time.monotonic(), most)
            time.sleep(0.01)

    def test_parallel_turns_away_from_a_machine_that_failed(self):
        self.write("failures", "1")
        self.ask("parallel.sh", "exit 1\n")
        self.assertEqual(self.machines(), ["red", "blue"])

    def test_parallel_waits_for_a_machine_that_did_not_fail(self):
        (self.folder / "blue.bad").touch()
        with open(self.folder / "1", "w") as place:
            fcntl.flock(place, fcntl.LOCK_EX)
            asking = self.asking("parallel.sh", "exit 4\n", LOCKS=str(self.folder))
            self.until(lambda: (self.folder / "sleeps").exists())
            self.assertFalse((self.folder / "words").exists())
        errors = asking.communicate(timeout=600)[1]
        self.assertEqual((asking.returncode, self.machines()), (4, ["red"]), errors)

    def test_parallel_asks_machines_again_where_all_failed(self):
        self.write("failures", "3")
        self.assertEqual(self.ask("parallel.sh", "exit 4\n").returncode, 4)
        self.assertEqual(self.machines(), ["red", "blue", "red", "red"])

    def machines(self):
        """The machines that were asked, in their order."""
        return [line.split("--sshlogin ")[1].split()[1] for line in (self.folder / "words").read_text().splitlines() if "--sshlogin" in line]

    def test_condor_takes_its_jobs_out_of_the_queue(self):
        self.ask("htcondor.sh", "exit 1\n")
        self.assertEqual((self.folder / "removed").read_text(), "12.0\n")

    def test_condor_asks_again_and_says_why_a_job_was_held(self):
        self.write("held", "")
        done = self.ask("htcondor.sh", "exit 4\n")
        self.assertEqual((done.returncode, (self.folder / "calls").read_text(), self.left()), (4, "2\n", []), done.stderr)
        self.assertIn("Job was held.\n\tno disk\n", done.stderr)
        self.assertNotIn("submitted", done.stderr)

    def test_slurm_takes_steps_of_an_allocation(self):
        self.ask("slurm.sh", "exit 1\n")
        self.assertNotIn("--exact", (self.folder / "words").read_text())
        self.ask("slurm.sh", "exit 1\n", SLURM_JOB_ID="3", SRUN_OPTIONS="--mem=100 --partition=short")
        self.assertIn(" --exact ", (self.folder / "words").read_text())
        self.assertIn(" --mem=100 --partition=short /bin/sh -c", (self.folder / "words").read_text())


CHECKS = (
    ClusterTests.own_status, ClusterTests.failures_are_asked_again, ClusterTests.missing_command_is_no_answer, ClusterTests.failed_timeout_is_no_answer,
    ClusterTests.hanging_test_is_ended,
)
ROWS = [("slurm", "slurm.sh"), ("parallel", "parallel.sh"), ("htcondor", "htcondor.sh")]
for check in CHECKS:
    named_tests(ClusterTests, check, ROWS)


if __name__ == "__main__":
    unittest.main()
