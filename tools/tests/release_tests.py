"""tools/release over a small repository and a small kit, and what comes of its archive."""
import gzip
import io
import os
import shutil
import subprocess
import sys
import tarfile
import tempfile
import unittest
from pathlib import Path

from support import TOOL

TOOLS = TOOL.parent
PROGRAM = b'#!/bin/sh\necho "perses $*"\n'

FILES = {
    "crates.txt": "# the edge\nfaults: thiserror\nlow: faults memchr\nother: regex_class\nperses_main: low faults\nfast staticlib: perses_main hex\n",
    "perses": "#!/bin/sh\ncd \"$(dirname \"$0\")\" && mkdir -p crates/perses_main/out && cp made crates/perses_main/out/perses_main\n",
    "made": PROGRAM.decode(),
    ".gitignore": "out/\n",
    "docs/GUIDE.md": "# Guide\n", "docs/FORMATS.md": "# Formats\n", "docs/perses.1": ".TH PERSES 1\n", "docs/PROMISES.md": "# Promises\n",
    "docs/completions/perses.bash": "complete\n", "docs/completions/_perses": "#compdef\n",
    "examples/grammars/JSON.g4": "grammar JSON;\n", "examples/a name.sh": "#!/bin/sh\n",
    "tools/journal": "#!/bin/sh\n", "tools/test": "#!/bin/sh\n",
}
KIT = {
    "KIT-ID": "kit-1 logic 12\n",
    "rlibs/std.rlib/format": "crate std\ndep core\n", "rlibs/core.rlib/format": "crate core\n", "rlibs/thiserror.rlib/format": "dep std\n",
    "rlibs/memchr.rlib/format": "dep std\ndep simd\nnotdep hex\n", "rlibs/simd.rlib/format": "dep core\n",
    "rattle/memchr/LICENSE-MIT": "mit of memchr\n", "rattle/memchr/README.md": "no licence\n", "rattle/simd/LICENSE": "of simd\n", "rattle/hex/LICENSE": "of hex\n",
    "rattle/thiserror/LICENSE-APACHE": "apache\n", "rattle/thiserror/LICENSE-MIT": "mit\n", "rattle/std/src/lib.rt": "",
}
BELOW = ["BUILT", "docs/FORMATS.md", "docs/GUIDE.md", "examples/a name.sh", "examples/grammars/JSON.g4", "licences/LINKED", "licences/memchr/LICENSE-MIT",
         "licences/simd/LICENSE", "licences/thiserror/LICENSE-APACHE", "licences/thiserror/LICENSE-MIT", "perses", "tools/journal", "uninstall.sh"]
INSTALLED = sorted(["bin/perses", *(f"share/perses/{name}" for name in BELOW), "share/man/man1/perses.1",
                    "share/bash-completion/completions/perses", "share/zsh/site-functions/_perses"])


def write(folder, files):
    for name, text in files.items():
        path = folder / name
        path.parent.mkdir(parents=True, exist_ok=True)
        path.write_text(text)
        path.chmod(0o755 if text.startswith("#!") else 0o644)


def files_below(folder):
    return sorted(str(path.relative_to(folder)) for path in folder.rglob("*") if path.is_file())


class ReleaseTests(unittest.TestCase):
    @classmethod
    def setUpClass(cls):
        cls.made = Path(tempfile.mkdtemp())
        cls.addClassCleanup(shutil.rmtree, cls.made)
        cls.repository(cls.made / "top")
        done = cls.release(cls.made / "top")
        assert done.returncode == 0, done.stderr
        cls.archive = cls.only(cls.made / "top")

    @classmethod
    def repository(cls, top):
        """A repository of one commit, and beside it a kit and a folder for archives."""
        write(top, FILES)
        write(top.parent / "kit", KIT)
        (top.parent / "archives").mkdir(exist_ok=True)
        shutil.copy(TOOLS / "release", top / "tools")
        shutil.copytree(TOOLS / "release_archive", top / "tools" / "release_archive", ignore=shutil.ignore_patterns("__pycache__"))
        git = ["git", "-C", str(top), "-c", "user.name=me", "-c", "user.email=me@here"]
        date = {**os.environ, "GIT_COMMITTER_DATE": "2024-05-06T07:08:09Z", "GIT_AUTHOR_DATE": "2024-05-06T07:08:09Z"}
        for words in (["init", "-q"], ["add", "-A"], ["commit", "-q", "-m", "one"]):
            subprocess.run(git + words, check=True, env=date)

    @classmethod
    def release(cls, top, *more):
        words = [sys.executable, str(top / "tools" / "release"), "--kit", str(top.parent / "kit"), "--folder", str(top.parent / "archives"), *more]
        return subprocess.run(words, cwd="/", capture_output=True, text=True)

    @classmethod
    def only(cls, top):
        archives = list((top.parent / "archives").glob("*.tar.gz"))
        assert len(archives) == 1, archives
        return archives[0]

    def setUp(self):
        self.folder = Path(tempfile.mkdtemp())
        self.addCleanup(shutil.rmtree, self.folder)

    def unpacked(self):
        with tarfile.open(self.archive) as archive:
            archive.extractall(self.folder)
        return next(path for path in self.folder.iterdir() if path.name.startswith("perses-"))

    def install(self, files, prefix):
        return subprocess.run(["sh", str(files / "install.sh"), str(prefix)], cwd=self.folder, capture_output=True, text=True)

    def uninstall(self, prefix):
        return subprocess.run(["sh", str(prefix / "share/perses/uninstall.sh")], capture_output=True, text=True)

    def test_has_what_is_installed_and_no_more(self):
        files = self.unpacked()
        self.assertEqual(files_below(files), sorted(["BUILT", "SHA256SUMS", "install.sh", *(f"files/{name}" for name in INSTALLED)]))
        self.assertEqual((files / "files/bin/perses").read_bytes(), PROGRAM)
        commit = subprocess.run(["git", "-C", str(self.made / "top"), "rev-parse", "HEAD"], capture_output=True, text=True).stdout.strip()
        self.assertEqual((files / "BUILT").read_text(), f"perses of commit {commit}, proved and built with kit-1 logic 12\n")
        self.assertEqual(files.name, f"perses-{commit[:12]}-x86_64-linux")

    def test_names_all_that_is_linked_in(self):
        lines = (self.unpacked() / "files/share/perses/licences/LINKED").read_text().splitlines()[2:]
        self.assertEqual(lines[:-1], [
            "core: the kit has no licence text of it", "memchr: LICENSE-MIT", "simd: LICENSE", "std: the kit has no licence text of it",
            "thiserror: LICENSE-APACHE, LICENSE-MIT",
        ])

    def test_same_commit_gives_the_same_bytes(self):
        old = os.umask(0o077)
        self.addCleanup(os.umask, old)
        self.repository(self.folder / "elsewhere" / "top")
        self.assertEqual(self.release(self.folder / "elsewhere" / "top").returncode, 0)
        again = self.only(self.folder / "elsewhere" / "top")
        self.assertEqual((again.name, again.read_bytes()), (self.archive.name, self.archive.read_bytes()))

    def test_all_files_have_the_time_of_the_commit_and_one_owner(self):
        with tarfile.open(fileobj=io.BytesIO(gzip.decompress(self.archive.read_bytes()))) as archive:
            about = {(file.mtime, file.uid, file.gid, file.mode) for file in archive.getmembers()}
        self.assertEqual(about, {(1714979289, 0, 0, 0o755), (1714979289, 0, 0, 0o644)})

    def test_takes_out_what_it_installed(self):
        prefix = self.folder / "a prefix"
        write(prefix, {"share/man/man1/other.1": "other\n", "bin/other": "other\n"})
        before = sorted(prefix.rglob("*"))
        done = self.install(self.unpacked(), "a prefix")
        self.assertEqual(done.returncode, 0, done.stderr)
        for program in ("bin/perses", "share/perses/perses"):
            self.assertEqual(subprocess.run([prefix / program, "normal"], capture_output=True).stdout, b"perses normal\n")
        noted = ["share/perses/folders", "share/perses/installed", "share/man/man1/other.1", "bin/other"]
        self.assertEqual(files_below(prefix), sorted(INSTALLED + noted))
        done = self.uninstall(prefix)
        self.assertEqual((done.returncode, done.stdout, done.stderr), (0, "", ""))
        self.assertEqual(sorted(prefix.rglob("*")), before)

    def test_all_users_can_read_what_is_installed(self):
        prefix = self.folder / "prefix"
        old = os.umask(0o077)
        self.addCleanup(os.umask, old)
        self.assertEqual(self.install(self.unpacked(), prefix).returncode, 0)
        modes = {(path.is_dir(), path.stat().st_mode & 0o777) for path in (prefix, *prefix.rglob("*"))}
        self.assertEqual(modes, {(True, 0o755), (False, 0o755), (False, 0o644)})

    def test_keeps_what_is_not_its_own(self):
        prefix, files = self.folder / "prefix", self.unpacked()
        self.install(files, prefix)
        write(prefix, {"share/perses/examples/mine": "mine\n"})
        self.uninstall(prefix)
        self.assertEqual(files_below(prefix), ["share/perses/examples/mine"])

    def test_takes_the_place_of_an_earlier_one(self):
        prefix, files = self.folder / "prefix", self.unpacked()
        self.install(files, prefix)
        (prefix / "bin/perses").write_text("older\n")
        done = self.install(files, prefix)
        self.assertEqual((done.returncode, (prefix / "bin/perses").read_bytes()), (0, PROGRAM))
        self.uninstall(prefix)
        self.assertEqual(list(prefix.rglob("*")), [])

    def test_overwrites_nothing(self):
        prefix = self.folder / "prefix"
        write(prefix, {"bin/perses": "another perses\n"})
        done = self.install(self.unpacked(), prefix)
        self.assertEqual((done.returncode, done.stderr), (1, f"install.sh: {prefix}/bin/perses is there already; nothing was changed\n"))
        self.assertEqual(files_below(prefix), ["bin/perses"])

    def test_damaged_archive_is_refused(self):
        files = self.unpacked()
        with open(files / "files/share/perses/docs/GUIDE.md", "a") as file:
            file.write("x")
        self.assertEqual(self.install(files, self.folder / "prefix").returncode, 1)
        self.assertFalse((self.folder / "prefix").exists())

    def test_refuses_what_is_no_commit(self):
        top = self.folder / "top"
        self.repository(top)
        write(top, {"examples/new": "new\n"})
        done = self.release(top)
        self.assertEqual((done.returncode, done.stderr), (1, "release: these files aren't as the commit has them:\n?? examples/new\n\n"))
        (top / "examples/new").unlink()
        shutil.rmtree(self.folder / "kit")
        self.assertIn("is no kit", self.release(top).stderr)
        self.assertEqual(list((self.folder / "archives").iterdir()), [])

    def test_earlier_archives_are_no_change(self):
        top = self.folder / "top"
        self.repository(top)
        (top / "archives").mkdir()
        for folder in (".", "archives", "archives"):
            self.assertEqual(self.release(top, "--folder", str(top / folder)).returncode, 0)
        self.assertEqual((top / self.archive.name).read_bytes(), (top / "archives" / self.archive.name).read_bytes())

    def test_folder_is_looked_for_before_the_program_is_built(self):
        top = self.folder / "top"
        self.repository(top)
        done = self.release(top, "--folder", "/none")
        self.assertEqual((done.returncode, done.stderr), (1, "release: /none is no folder\n"))
        self.assertFalse((top / "crates").exists())

    def test_given_program_is_said_to_be_so(self):
        top = self.folder / "top"
        self.repository(top)
        done = self.release(top, "--program", str(top / "made"))
        self.assertEqual(done.returncode, 0, done.stderr)
        self.archive = self.only(top)
        self.assertTrue((self.unpacked() / "BUILT").read_text().endswith(", with kit-1 logic 12; the program was given to tools/release, which didn't build it\n"))
        self.assertFalse((top / "crates/perses_main/out").exists())


if __name__ == "__main__":
    unittest.main()
