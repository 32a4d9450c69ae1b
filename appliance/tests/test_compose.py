"""compose: mistakes are told by their keys, what can't be held is left out by name, and the gate takes the request file."""

import hashlib
import pathlib
import re
import subprocess
import tempfile
import unittest

from ipe_appliance import demonstration, rules, tools

from . import needs

COMPOSE = pathlib.Path(__file__).resolve().parent.parent / "compose"
POLICY = "policy_name=p policy_version=1.0.0\nDEFAULT action=DENY\n"
ROOT = "ab" * 32
DESCRIPTION = f"""workers = 2
[policies]
p = "p.policy"
[volume.app]
data = "app.img"
header = false
block_size = 512
data_blocks = 4
hash_offset = 2048
salt = "-"
root = "{ROOT}"
files = [{{ path = "/tool", at = 512, size = 700, ino = 12 }}]
[initial]
directory = "initial"
[plain.vda]
image = "disk.img"
files = [{{ path = "/srv/agent", at = 0, size = 20000, ino = 7 }}]
[seal."/srv/agent"]
device = "disk.img"
at = 512
[trusted]
policies = ["p"]
roots = ["app"]
files = ["sha256:{ROOT}"]
[[phase]]
do = [{{ load = "p" }}, {{ activate = "p" }}]
[[phase]]
do = [{{ worker = 1, exec = "all" }}, {{ worker = [1, 2], mmap = "/tool", prot = 5, pid = 9, comm = "ld" }}]
"""
REQUESTS = f"""ipe-requests 1
workers 2
text p 2
policy_name=p policy_version=1.0.0
DEFAULT action=DENY
text file-1 1
hello
volume app 1 app.img app.img 512 512 4 4 sha256 {ROOT} -
file /tool volume app 1 700 12
file /init boot rootfs 1 file-1
file /srv/agent plain disk.img 0 20000 vda 7
seal /srv/agent disk.img 512
mark policy trusted text p
mark root trusted hex {ROOT}
mark file trusted hex {ROOT}
phase
admin write new_policy text p
admin write policies/p/active echo 1
phase
w1 exec 101 init /init
w1 exec 101 agent /srv/agent
w1 exec 101 tool /tool
w1 mmap 9 ld 5 /tool
w2 mmap 9 ld 5 /tool
end
"""

# What is written in place of what, and the key that is told.
MISTAKES = {
    "a key that is misspelled": ("workers = 2", "worker = 2", "worker"),
    "too many workers": ("workers = 2", "workers = 31", "workers"),
    "a policy that isn't there": ('p = "p.policy"', 'p = "q.policy"', "policies.p"),
    "a policy that isn't whole lines": ('p = "p.policy"', 'p = "cut.policy"', "policies.p"),
    "a name that isn't one": ('p = "p.policy"', '"P p" = "p.policy"', 'policies."P p"'),
    "an image that isn't there": ('data = "app.img"', 'data = "none.img"', "volume.app.data"),
    "an image that is too large": ('data = "app.img"', 'data = "large.img"', "volume.app.data"),
    "an image that is too small": ("data_blocks = 4", "data_blocks = 4000", "volume.app.data"),
    "a hash tree that ends after its image": ('data = "app.img"', 'data = "app.img"\nhash = "small.img"', "volume.app.hash"),
    "a block size that there isn't": ("block_size = 512", "block_size = 1000", "volume.app.block_size"),
    "too many blocks": ("data_blocks = 4", "data_blocks = 4097", "volume.app.data_blocks"),
    "a place that is no block's": ("hash_offset = 2048", "hash_offset = 100", "volume.app.hash_offset"),
    "a salt with half a byte": ('salt = "-"', 'salt = "abc"', "volume.app.salt"),
    "a root that isn't one": (f'root = "{ROOT}"', 'root = "abcd"', "volume.app.root"),
    "a root that is missing": (f'root = "{ROOT}"', "", "volume.app.root"),
    "a key of a volume that there isn't": ('salt = "-"', 'salt = "-"\nsolt = "-"', "volume.app.solt"),
    "what was printed isn't what veritysetup prints": ("block_size = 512", 'printed = "p.policy"', "volume.app.printed"),
    "a file between two blocks": ("at = 512, size = 700", "at = 500, size = 700", "volume.app.files[1].at"),
    "a file after the last block": ("at = 512, size = 700", "at = 512, size = 7000", "volume.app.files[1].at"),
    "an ino that is a text": ("ino = 12", 'ino = "12"', "volume.app.files[1].ino"),
    "a directory that is none": ('directory = "initial"', 'directory = "p.policy"', "initial.directory"),
    "a file of two sections": ('path = "/srv/agent"', 'path = "/tool"', "plain.vda.files[1]"),
    "a seal of no file": ('[seal."/srv/agent"]', '[seal."/srv/other"]', 'seal."/srv/other"'),
    "a descriptor after its device": ("at = 512\n", "at = 1048577\n", 'seal."/srv/agent".at'),
    "a digest with a letter too many": (f'files = ["sha256:{ROOT}"]', f'files = ["{ROOT}a"]', "trusted.files[1]"),
    "a root of two verdicts": ("[[phase]]\ndo = [{ load", '[revoked]\nroots = ["app"]\n[[phase]]\ndo = [{ load', "revoked.roots[1]"),
    "a command that there isn't": ('{ load = "p" }', '{ lode = "p" }', "phase[1].do[1]"),
    "a policy that is nowhere": ('{ load = "p" }', '{ load = "q" }', "phase[1].do[1].load"),
    "a worker that there isn't": ("worker = 1", "worker = 3", "phase[2].do[1].worker"),
    "a file that is nowhere": ('mmap = "/tool"', 'mmap = "/none"', "phase[2].do[2].mmap"),
    "protection that isn't any": ("prot = 5", 'prot = "5"', "phase[2].do[2].prot"),
    "a comm that is too long": ('comm = "ld"', 'comm = "sixteen_letters_"', "phase[2].do[2].comm"),
}

# What is added to the description, the key that is told, and the limit that is named.
LIMITS = {
    "policies": ("[policies]\n", "[policies]\n" + "".join(f'q{n} = "p.policy"\n' for n in range(256)), "policies.p", "256"),
    "devices": ("[seal.", "".join(f'[plain.d{n}]\nimage = "disk{n}.img"\nfiles = []\n' for n in range(7)) + "[seal.",
                "plain.d6.image", "8"),
    "volumes": ("[initial]", "".join(f'''[volume.v{n}]
data = "app.img"
header = false
block_size = 512
data_blocks = 4
hash_offset = 2048
salt = "-"
root = "{ROOT}"
files = []
''' for n in range(64)) + "[initial]", "volume.v63", "64"),
    "files": ('files = [{ path = "/srv', "files = [" + "".join(f'{{ path = "/f{n}", at = 0, size = 1, ino = 1 }}, '
                                                              for n in range(1022)) + '{ path = "/srv',
              "plain.vda.files[1023]", "1,024"),
    "marks": (f'files = ["sha256:{ROOT}"]', "files = [" + ", ".join(f'"{n:064x}"' for n in range(4095)) + "]",
              "trusted.files[4095]", "4,096"),
    "phases": ("[[phase]]\ndo = [{ load", "[[phase]]\ndo = []\n" * 999 + "[[phase]]\ndo = [{ load", "phase[1001]", "1,000"),
    "commands": ('{ load = "p" }', '{ load = "p", times = 100000 }', "phase[1].do[2].activate", "100,000"),
    "reads": ('{ load = "p" }', '{ read = "policies/p/policy", times = 20000 }', "phase[1].do[1].read", "67,108,864"),
    "hooks": ("pid = 9", "pid = 9, times = 150000", "phase[2].do[2].mmap", "200,000"),
    "bytes": ('exec = "all"', 'exec = "/srv/agent", times = 60000', "phase[2].do[1].exec", "1,073,741,824"),
}


class Compose(unittest.TestCase):
    def setUp(self):
        folder = tempfile.TemporaryDirectory()
        self.addCleanup(folder.cleanup)
        self.folder = pathlib.Path(folder.name)
        for name, content in {"p.policy": POLICY, "cut.policy": POLICY + "#", "initial/init": "hello\n"}.items():
            (self.folder / name).parent.mkdir(exist_ok=True)
            (self.folder / name).write_text(content)
        (self.folder / "initial/init").chmod(0o755)
        for name, size in {"app.img": 2048 + 512, "disk.img": 1048576, "small.img": 2048, "large.img": rules.DEVICE_SIZE + 1}.items():
            with open(self.folder / name, "wb") as image:
                image.truncate(size)

    def compose(self, description):
        (self.folder / "a.toml").write_text(description)
        return subprocess.run([COMPOSE, "a.toml"], cwd=self.folder, capture_output=True, text=True)

    def test_a_description_gives_these_lines(self):
        ended = self.compose(DESCRIPTION)
        self.assertEqual((ended.stdout, ended.stderr, ended.returncode), (REQUESTS, "", 0))

    def test_each_mistake_is_told_by_its_key(self):
        for name, (old, new, key) in MISTAKES.items():
            with self.subTest(name):
                self.assertEqual(DESCRIPTION.count(old), 1, "what is replaced is to stand there once")
                ended = self.compose(DESCRIPTION.replace(old, new))
                told = [line for line in ended.stderr.splitlines() if line.startswith(f"a.toml: {key}: ")]
                self.assertEqual((len(told), ended.stdout, ended.returncode), (1, "", 3), ended.stderr)

    def test_each_limit_is_told_by_its_key_and_number(self):
        for number in range(7):
            (self.folder / f"disk{number}.img").write_bytes(b"device")
        for name, (old, new, key, limit) in LIMITS.items():
            with self.subTest(name):
                self.assertEqual(DESCRIPTION.count(old), 1, "what is replaced is to stand there once")
                ended = self.compose(DESCRIPTION.replace(old, new))
                told = [line for line in ended.stderr.splitlines() if line.startswith(f"a.toml: {key}: ") and limit in line]
                self.assertEqual((len(told), ended.stdout, ended.returncode), (1, "", 3), ended.stderr)

    def test_what_is_no_toml_is_told_by_its_place(self):
        ended = self.compose("workers = \n")
        self.assertIn("line 1", ended.stderr)
        self.assertEqual((ended.stdout, ended.returncode), ("", 3))

    def test_files_that_no_line_can_hold_are_left_out_by_name(self):
        (self.folder / "initial/binary").write_bytes(b"no line feed")
        (self.folder / "initial/a b").write_text("blank\n")
        (self.folder / "initial/link").symlink_to("init")
        ended = self.compose(DESCRIPTION)
        self.assertEqual((ended.stdout, ended.returncode), (REQUESTS.replace("rootfs 1", "rootfs 3"), 0))
        for name, reason in {"/binary": "line feed", "/a b": "its path", "/link": "symbolic link"}.items():
            self.assertRegex(ended.stderr, f"left out: {name} of initial: .*{reason}")

    @needs.tools("mke2fs", "debugfs")
    def test_files_of_an_image_that_are_not_in_one_piece_are_left_out_by_name(self):
        root = self.folder / "root"
        demonstration.write(root / "whole", demonstration.bytes_of("whole", 10_000))
        demonstration.write(root / "empty", b"")
        with open(root / "hole", "wb") as file:
            file.truncate(20_000)
            file.seek(12_000)
            file.write(b"end")
        image = self.folder / "app.img"
        image.unlink()
        demonstration.image(root, image, 256)
        # A part of the file is taken away and written anew, behind what came after it.
        tools.run("debugfs", "-w", "-f", "-", str(image), typed="punch whole 1 1\n")
        description = DESCRIPTION.replace("block_size = 512", "block_size = 4096").replace("data_blocks = 4", "data_blocks = 200")
        description = description.replace("hash_offset = 2048", "hash_offset = 819200")
        description = description.replace("files = [{ path = \"/tool\", at = 512, size = 700, ino = 12 }]", "")
        description = description.replace('mmap = "/tool"', 'mmap = "/empty"')
        ended = self.compose(description)
        self.assertEqual(ended.returncode, 0, ended.stderr)
        self.assertRegex(ended.stdout, r"(?m)^file /empty volume app 0 0 \d+$")
        self.assertRegex(ended.stderr, "left out: /whole of app: it has a hole at its block 1")
        self.assertRegex(ended.stderr, "left out: /hole of app: it has a hole at its block 0")

    @needs.tools("mke2fs", "debugfs", "veritysetup")
    @needs.gate
    def test_the_gate_reads_the_bytes_of_files_of_images(self):
        root, size = self.folder / "root", 256 * demonstration.BLOCK
        files = {"/one": demonstration.bytes_of("one", 9_000), "/two": demonstration.bytes_of("two", 40_000), "/none": b""}
        for path, content in files.items():
            demonstration.write(root / path[1:], content)
        wanted = {f"/app{path}": hashlib.sha256(content).hexdigest() for path, content in files.items()}
        # How the tree is made, and how the description tells where it is.
        trees = {
            "a header": ([], "app.hash", 'hash = "app.hash"\nroot = "@printed"'),
            "no header": (["--no-superblock"], "app.hash", 'hash = "app.hash"\nheader = false\nprinted = "printed"'),
            "the data image": ([f"--hash-offset={size}"], "app.img", f'hash_offset = {size}\nprinted = "printed"'),
        }
        for block in (512, 4096):
            for name, (options, hashes, keys) in trees.items():
                with self.subTest(block=block, tree=name):
                    for image in ("app.img", "app.hash"):
                        (self.folder / image).unlink(missing_ok=True)
                    (self.folder / "app.hash").touch()
                    demonstration.image(root, self.folder / "app.img", 256)
                    printed = demonstration.verity(self.folder / "app.img", self.folder / hashes, *options,
                                                   f"--data-block-size={block}", f"--hash-block-size={block}",
                                                   f"--data-blocks={size // block}")
                    (self.folder / "printed").write_text(printed)
                    self.assertEqual(self.digests(f'''[volume.app]
data = "app.img"
mount = "/app"
{keys}
[[phase]]
do = [{{ worker = 1, read = "all", kind = "firmware" }}]
'''), wanted)

    def digests(self, description):
        """The digest that the gate tells of each file that is read."""
        composed = self.compose(description)
        self.assertEqual((composed.stderr, composed.returncode), ("", 0))
        lines = composed.stdout.splitlines()
        replayed = subprocess.run([needs.GATE, "replay"], cwd=self.folder, input=composed.stdout, stdout=subprocess.PIPE, text=True)
        told = re.findall(r"^line=(\d+) w1 .*\ncontent sha256:(\w+)$", replayed.stdout, re.M)
        return {lines[int(line) - 1].split()[-1]: digest for line, digest in told}

    @needs.tools(*demonstration.TOOLS)
    @needs.gate
    def test_the_gate_takes_the_appliance_of_the_demo(self):
        demonstration.make(self.folder)
        ended = subprocess.run([COMPOSE, "appliance.toml"], cwd=self.folder, stdout=subprocess.PIPE)
        self.assertEqual(ended.returncode, 0)
        replayed = subprocess.run([needs.GATE, "replay"], cwd=self.folder, input=ended.stdout, stdout=subprocess.PIPE)
        self.assertEqual((replayed.stdout.partition(b"\n")[0], replayed.returncode), (b"ipe-transcript 1", 0))
        hooks = [line for line in ended.stdout.splitlines() if line.startswith((b"w1 ", b"w2 ", b"w3 "))]
        self.assertEqual(sum(b" code=" in line and b" w" in line for line in replayed.stdout.splitlines()), len(hooks))
        # The first release is denied after the update, by the first rule of the second policy; the bit that was turned is found.
        self.assertRegex(replayed.stdout.decode(), r"w3 code=-13 epoch=2 count=\d+ policy=2 by=rule:2")
        self.assertIn(b"content corrupt volume level=0 block=", replayed.stdout)
