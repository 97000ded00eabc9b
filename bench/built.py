"""Proves and builds the programs that the benches run, where they aren't built yet or something was
changed. The first time this takes a quarter of an hour or more. `PERSES` is the launcher, `PROGRAM`
what it starts."""
import os
import subprocess
import sys
import tempfile

# What the programs say on standard error is for people at a terminal.
os.environ.setdefault("PERSES_QUIET", "1")

TOP = os.path.dirname(os.path.dirname(os.path.realpath(__file__)))
PERSES = os.path.join(TOP, "perses")
PROGRAM = os.path.join(TOP, "crates", "perses_main", "out", "perses_main")
BENCH_TEXTS = os.path.join(TOP, "crates", "bench_texts", "out", "bench_texts")
BENCH_JOINS = os.path.join(TOP, "crates", "bench_joins", "out", "bench_joins")


def build_perses():
    """Builds `perses`, which says itself how far it is."""
    example = os.path.join(TOP, "examples", "grammars", "JSON.g4")
    done = subprocess.run([PERSES, "normal", "--grammar", example], stdout=subprocess.DEVNULL)
    if done.returncode != 0:
        sys.exit("perses was not built")


def build_bench_texts():
    """Builds `bench_texts`, which reads a text, by running it once on an empty one."""
    build_reader("bench_texts", ["1", "0", "0"])


def build_bench_joins():
    """The same of `bench_joins`."""
    build_reader("bench_joins", ["1"])


def build_reader(name, numbers):
    """Builds the program of this name by running it once on an empty text, with these numbers."""
    print(f"proving and building {name}, where it isn't built yet", file=sys.stderr)
    with tempfile.NamedTemporaryFile() as text:
        words = ["rt", "run", "--", text.name, *numbers]
        folder = os.path.join(TOP, "crates", name)
        done = subprocess.run(words, cwd=folder, stdin=subprocess.DEVNULL, capture_output=True)
    if done.returncode != 0:
        sys.exit(done.stdout.decode() + done.stderr.decode())
