"""What is in an archive: for each file its name there, its bytes, and whether it can be executed."""
import subprocess
from pathlib import Path
from typing import NamedTuple

from .licences import linked

TOP = Path(__file__).resolve().parent.parent.parent
FOLDER = Path(__file__).resolve().parent

# Where a file of the repository is below the folder that it is installed in; else below share/perses, under its own name.
PLACES = {
    "docs/perses.1": "share/man/man1/perses.1",
    "docs/completions/perses.bash": "share/bash-completion/completions/perses",
    "docs/completions/_perses": "share/zsh/site-functions/_perses",
}
# What of the repository is installed: what a user needs, and the guide's examples.
WANTED = ("docs/GUIDE.md", "docs/FORMATS.md", *PLACES, "examples", "tools/journal", "tools/journal_reader", "tools/perses-chain", "tools/reduction_chain", "tools/plain-grammar", "tools/plain_grammar")

# The program under the name that it has in a repository, for the guide's commands and the tools, also in a copy of the folder.
LAUNCHER = b"""#!/bin/sh
program=$(dirname -- "$(readlink -f -- "$0")")/../../bin/perses
[ -x "$program" ] || program=perses
exec "$program" "$@"
"""


class Part(NamedTuple):
    data: bytes
    is_program: bool


def git(*words):
    return subprocess.run(["git", "-C", str(TOP), *words], check=True, stdout=subprocess.PIPE).stdout


def tracked():
    """The files of the repository that are installed, as the commit has them."""
    found = {}
    for line in git("ls-tree", "-r", "-z", "HEAD", "--", *WANTED).decode().split("\0")[:-1]:
        about, name = line.split("\t", 1)
        mode, _, blob = about.split(" ")
        found[PLACES.get(name, f"share/perses/{name}")] = Part(git("cat-file", "blob", blob), mode == "100755")
    return found


def parts(program, kit, line):
    """All files of an archive by their names in it."""
    files = {"bin/perses": Part(program.read_bytes(), True), **tracked()}
    files["share/perses/perses"] = Part(LAUNCHER, True)
    files["share/perses/BUILT"] = Part(line.encode(), False)
    files["share/perses/uninstall.sh"] = Part((FOLDER / "uninstall.sh").read_bytes(), True)
    for name, data in linked(TOP / "crates.txt", kit).items():
        files[f"share/perses/licences/{name}"] = Part(data, False)
    return {
        "BUILT": files["share/perses/BUILT"],
        "install.sh": Part((FOLDER / "install.sh").read_bytes(), True),
        **{f"files/{name}": part for name, part in files.items()},
    }
