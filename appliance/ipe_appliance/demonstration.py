"""A small appliance, made of the programs of this machine: images, hash trees, digests, policies, and the TOML file of them."""

import glob
import hashlib
import os
import pathlib
import shutil

from . import ext4, images, tools

SOURCES = pathlib.Path(__file__).resolve().parent.parent / "demonstration"
TOOLS = ("mke2fs", "debugfs", "veritysetup", "fsverity")
PROGRAMS = ("cat", "chmod", "cp", "date", "df", "echo", "head", "id", "ln", "ls", "mkdir", "mv", "pwd", "rm", "sleep", "sync",
            "tail", "touch", "true", "uname", "wc", "whoami")
DOZEN = 12
LIBRARIES = 3
# Sizes in bytes.
LEAST, MOST = 10_000, 160_000
BLOCK = 4_096
IMAGE_BLOCKS = 1_536
DESCRIPTOR = 256
SEAL = 65_536


def bytes_of(seed, size):
    """Bytes that are always the same for a seed, none of whose blocks is empty."""
    found = b""
    while len(found) < size:
        found += hashlib.sha256(f"{seed} {len(found)}".encode()).digest()
    return found[:size]


def write(path, content, mode=0o644):
    path.parent.mkdir(parents=True, exist_ok=True)
    path.write_bytes(content)
    path.chmod(mode)


def fitting(paths, number):
    """The first files of these that have a size that suits a small image, by the names that they are found by."""
    found = [path for path in paths if path and os.path.isfile(path) and LEAST <= os.path.getsize(path) <= MOST]
    return found[:number]


def release(root, version):
    """The folder of a release: programs, libraries, a module, and a program of its own. The module only stands in for one."""
    for path in fitting(map(shutil.which, PROGRAMS), DOZEN):
        write(root / "usr/bin" / os.path.basename(path), pathlib.Path(path).read_bytes(), 0o755)
    for path in fitting(sorted(glob.glob("/usr/lib/*/lib*.so.[0-9]")), LIBRARIES):
        write(root / "usr/lib" / os.path.basename(path), pathlib.Path(path).read_bytes())
    write(root / "usr/bin/sensord", b"\x7fELF" + bytes_of(f"sensord {version}", 5 * BLOCK + 700), 0o755)
    write(root / "usr/lib/modules/sensor.ko", b"\x7fELF" + bytes_of(f"sensor.ko {version}", 2 * BLOCK + 90))


def image(root, path, blocks=IMAGE_BLOCKS):
    """Makes an ext4 image of a folder. What the file system keeps for itself comes first, so that files stay in one piece."""
    tools.run("mke2fs", "-q", "-t", "ext4", "-b", str(BLOCK), "-O", "^has_journal,^resize_inode", "-E", "packed_meta_blocks=1",
              "-d", str(root), str(path), str(blocks))


def verity(data, hashes, *options):
    """Makes the hash tree of an image, and returns what `veritysetup format` prints."""
    printed, _ = tools.run("veritysetup", "format", *options, str(data), str(hashes))
    return printed


def seals(folder, files):
    """Writes the descriptor and the tree of each file to one device, at the places that the TOML file names, and returns what
    fsverity prints of each."""
    told, device = [], b""
    for number, file in enumerate(files):
        descriptor, tree = folder / "descriptor", folder / "tree"
        printed, _ = tools.run("fsverity", "digest", f"--out-descriptor={descriptor}", f"--out-merkle-tree={tree}", str(file))
        told.append(printed)
        device = device.ljust(number * SEAL, b"\0") + descriptor.read_bytes()[:DESCRIPTOR] + tree.read_bytes()
        descriptor.unlink()
        tree.unlink()
    write(folder / "seals.img", device)
    return told


def spoil(data, path):
    """Turns a bit of the third block of a file of an image."""
    at = next(file.at for file in ext4.files(data) if file.path == path) + 2 * BLOCK + 77
    with open(data, "r+b") as device:
        device.seek(at)
        byte = device.read(1)[0]
        device.seek(at)
        device.write(bytes([byte ^ 1]))


def make(folder):
    """Makes the appliance in a folder, and returns the path of its TOML file."""
    folder = pathlib.Path(folder)
    for version in (1, 2):
        release(folder / f"release-{version}", version)
        image(folder / f"release-{version}", folder / f"release-{version}.img")
    first = verity(folder / "release-1.img", folder / "release-1.hash")
    write(folder / "release-1.verity", first.encode())
    second = verity(folder / "release-2.img", folder / "release-2.img", f"--data-blocks={IMAGE_BLOCKS}",
                    f"--hash-offset={IMAGE_BLOCKS * BLOCK}")
    write(folder / "release-2.verity", second.encode())
    spoil(folder / "release-2.img", "/usr/bin/sensord")

    write(folder / "initial/init", b"#!/bin/sh\nexec /release-2/usr/bin/sensord\n", 0o755)
    for name, size in (("agent", 3 * BLOCK + 12), ("plugin", 70_000), ("downloaded", 9_000)):
        write(folder / "data" / name, b"\x7fELF" + bytes_of(name, size), 0o755)
    image(folder / "data", folder / "data.img", 512)
    agent, plugin = seals(folder, [folder / "data/agent", folder / "data/plugin"])
    write(folder / "agent.digest", agent.encode())

    words = {
        "@ROOT_1@": images.printed_values(first).root,
        "@PLUGIN_DIGEST@": plugin.split()[0].removeprefix("sha256:"),
    }
    for name in ("appliance.toml", "first.policy", "second.policy"):
        text = (SOURCES / name).read_text()
        for word, value in words.items():
            text = text.replace(word, value)
        write(folder / name, text.encode())
    return folder / "appliance.toml"
