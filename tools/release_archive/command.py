"""The command line of the release."""
import argparse
import hashlib
import subprocess
import sys
from pathlib import Path

from .archive import packed, with_sums
from .parts import TOP, git, parts

PROGRAM = TOP / "crates" / "perses_main" / "out" / "perses_main"

# An archive's name, with the first digits of the commit. Earlier archives in the repository's folder are no change of the commit.
NAME = "perses-{}-x86_64-linux"


def words():
    parser = argparse.ArgumentParser(prog="release", description="Makes an archive that installs the program of this commit. It is proved and built first where it isn't yet.")
    parser.add_argument("--folder", default=".", metavar="D", help="the folder that the archive is written to; without it the present one")
    parser.add_argument("--kit", default="/opt/rattle", metavar="D", help="the folder of the kit that the program was proved with; without it /opt/rattle")
    parser.add_argument("--program", metavar="F", help="takes this program, and builds none; the archive then says so")
    return parser


def main():
    arguments = words().parse_args()
    fault = fault_of(arguments)
    if fault:
        return refused(fault)
    if not arguments.program and not build():
        return refused("the program was not built")
    program = Path(arguments.program or PROGRAM)
    if not program.is_file():
        return refused(f"{program} isn't there")
    commit, time = git("log", "-1", "--format=%H %ct").decode().split()
    name = NAME.format(commit[:12])
    kit = Path(arguments.kit)
    line = built_line(commit, (kit / "KIT-ID").read_text().strip(), arguments.program)
    path = Path(arguments.folder) / f"{name}.tar.gz"
    data = packed(name, with_sums(parts(program, kit, line)), int(time))
    path.write_bytes(data)
    print(f"{hashlib.sha256(data).hexdigest()}  {path}")
    return 0


def fault_of(arguments):
    """What can be said before the program is built, which may take hours."""
    changed = git("status", "--porcelain", "--untracked-files=all", "--", ".", f":(exclude,glob)**/{NAME.format('*')}.tar.gz").decode()
    if changed:
        return f"these files aren't as the commit has them:\n{changed}"
    if not (Path(arguments.kit) / "KIT-ID").is_file():
        return f"{arguments.kit} is no kit: name its folder by --kit"
    if not Path(arguments.folder).is_dir():
        return f"{arguments.folder} is no folder"
    return None


def build():
    """The launcher proves and builds the program where it is older than one of its files."""
    grammar = TOP / "examples" / "grammars" / "JSON.g4"
    return subprocess.run([str(TOP / "perses"), "normal", "--grammar", str(grammar)], stdin=subprocess.DEVNULL, stdout=subprocess.DEVNULL).returncode == 0


def built_line(commit, kit, given):
    if given:
        return f"perses of commit {commit}, with {kit}; the program was given to tools/release, which didn't build it\n"
    return f"perses of commit {commit}, proved and built with {kit}\n"


def refused(text):
    print(f"release: {text}", file=sys.stderr)
    return 1
