"""scripts/install puts everything where it says, and takes it away again; the man pages are as mandoc wants them."""

import pathlib
import shutil
import subprocess
import tempfile
import unittest

from . import needs

STAND_IN = '#!/bin/sh\necho "stand-in $*"\n'


class Install(unittest.TestCase):
    def setUp(self):
        folder = tempfile.TemporaryDirectory()
        self.addCleanup(folder.cleanup)
        self.root, self.prefix = pathlib.Path(folder.name, "root"), pathlib.Path(folder.name, "prefix")
        for name in ("scripts", "man", "docs"):
            shutil.copytree(needs.ROOT / name, self.root / name)
        for name in ("ipegate", "CHANGELOG.md", "crates.txt"):
            shutil.copy(needs.ROOT / name, self.root / name)
        # What is installed is tested here, not what is built: programs that only tell their arguments stand in.
        for name in ("ipegate", "hash_device"):
            program = self.root / f"crates/{name}/out/{name}"
            program.parent.mkdir(parents=True)
            program.write_text(STAND_IN)
            program.chmod(0o755)

    def run_it(self, *words):
        return subprocess.run([str(word) for word in words], capture_output=True, text=True)

    def there(self):
        return sorted(str(path.relative_to(self.prefix)) for path in self.prefix.rglob("*") if path.is_symlink() or path.is_file())

    def test_everything_is_put_where_it_is_said_and_taken_away_again(self):
        others = self.prefix / "share/man/man1/other.1"
        others.parent.mkdir(parents=True)
        others.write_text("another program's\n")
        ended = self.run_it(self.root / "scripts/install", self.prefix)
        self.assertEqual(ended.returncode, 0, ended.stderr)
        said = sorted(line.removeprefix(f"put: {self.prefix}/") for line in ended.stdout.splitlines())
        self.assertEqual(said, [name for name in self.there() if name not in ("share/man/man1/other.1", "share/ipegate/installed")])
        version = self.run_it(self.prefix / "bin/ipegate", "--version").stdout
        self.assertEqual(version, self.run_it(needs.ROOT / "ipegate", "--version").stdout)
        self.assertIn(f"{self.prefix}/share/ipegate/docs/FORMATS.md", self.run_it(self.prefix / "bin/ipegate", "--help").stdout)
        for program, words in (("ipegate", ("root", "4096", "-", "image")), ("hash_device", ("4096", "-", "image"))):
            self.assertEqual(self.run_it(self.prefix / "bin" / program, *words).stdout, f"stand-in {' '.join(words)}\n")
        ended = self.run_it(self.root / "scripts/install", "--uninstall", self.prefix)
        self.assertEqual((ended.returncode, self.there()), (0, ["share/man/man1/other.1"]), ended.stderr)

    def test_words_are_completed(self):
        for words, wanted in {"ipegate re": "replay", "ipegate measure 1": "1024", "hash_device 4": "4096"}.items():
            script = (f"source {self.root}/scripts/completion.bash; COMP_WORDS=({words}); COMP_CWORD=$((${{#COMP_WORDS[@]}} - 1)); "
                      'complete -p ipegate hash_device >/dev/null && _ipegate && echo "${COMPREPLY[*]}"')
            self.assertEqual(self.run_it("bash", "-c", script).stdout, f"{wanted}\n")

    @needs.mandoc
    def test_the_man_pages_are_as_mandoc_wants_them(self):
        pages = sorted(needs.ROOT.glob("man/*.1"))
        self.assertEqual(len(pages), 2)
        ended = self.run_it("mandoc", "-T", "lint", "-W", "warning", *pages)
        self.assertEqual((ended.stdout + ended.stderr, ended.returncode), ("", 0))
