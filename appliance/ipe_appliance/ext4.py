"""The files of an ext4 image and where their bytes stand in it, as debugfs tells them."""

import re
from dataclasses import dataclass

from . import tools

ENTRY = re.compile(r"/(\d+)/(\d+)/\d+/\d+/(.*)/\d*/")
PIECE = re.compile(r"\((\d+)(\[u\])?(?:-(\d+)(?:\[u\])?)?\):(\d+)")
DIRECTORY = 0o040000
REGULAR = 0o100000
OTHERS = {0o120000: "a symbolic link", 0o020000: "a character device", 0o060000: "a block device", 0o010000: "a pipe",
          0o140000: "a socket"}
ENCRYPTED = 0x800
INLINE = 0x10000000
SHOWN_PIECES = 3


@dataclass(frozen=True)
class Found:
    """A file of an image: `at` and `size` are in bytes, and `reason` says why its bytes can't be named, if they can't."""

    path: str
    inode: int
    executable: bool
    size: int = 0
    at: int = 0
    reason: str = ""


def ask(image, commands):
    """Runs commands of debugfs on an image, and returns for each the lines that it prints."""
    printed, told = tools.run("debugfs", "-f", "-", str(image), typed="".join(f"{command}\n" for command in commands))
    answers = []
    for line in printed.splitlines():
        if line.startswith("debugfs: "):
            answers.append([])
        elif answers:
            answers[-1].append(line)
    # The first line is the name and the version.
    faults = [line for line in told.splitlines() if line and not re.match(r"debugfs \d", line)]
    if faults or len(answers) != len(commands):
        raise tools.ToolError(f"debugfs can't read it: {'; '.join(faults) or 'an answer is missing'}")
    return answers


def block_size(image):
    """The size of the file system's blocks, in bytes."""
    for line in ask(image, ["stats -h"])[0]:
        if line.startswith("Block size:"):
            return int(line.split()[-1])
    raise tools.ToolError("debugfs tells no block size")


def listing(image):
    """Each entry of the image that is no directory, by its path: its inode and its mode. It goes a level of folders at a time."""
    found = {}
    level = [("", 2)]
    while level:
        answers = ask(image, [f"ls -p <{inode}>" for _, inode in level])
        below = []
        for (folder, _), lines in zip(level, answers):
            for line in filter(None, lines):
                entry = ENTRY.fullmatch(line)
                if not entry:
                    raise tools.ToolError(f"debugfs lists a name in {folder or '/'} that can't be read: {line!r}")
                inode, mode, name = int(entry[1]), int(entry[2], 8), entry[3]
                path = f"{folder}/{name}"
                if name in (".", "..") or not inode:
                    continue
                if mode & 0o170000 == DIRECTORY:
                    below.append((path, inode))
                else:
                    found[path] = (inode, mode)
        level = below
    return found


def placed(lines, size, block):
    """Where the bytes of a file begin in the image, in blocks, and why they can't be named, from the lines of `stat`."""
    text = "\n".join(lines)
    flags = int(re.search(r"Flags: (0x[0-9a-f]+)", text)[1], 16)
    if flags & ENCRYPTED:
        return 0, "it is encrypted"
    if size == 0:
        return 0, ""
    if flags & INLINE:
        return 0, "its bytes stand in its inode, not in blocks"
    count = -(-size // block)
    pieces = PIECE.findall(re.split(r"^(?:EXTENTS|BLOCKS):$", text, flags=re.M)[-1])
    expected, first = 0, None
    for start, unwritten, last, physical in pieces:
        logical, end, stored = int(start), int(last or start), int(physical)
        if logical >= count:
            break
        if unwritten:
            return 0, f"its block {logical} isn't written yet"
        if logical != expected:
            return 0, f"it has a hole at its block {expected}"
        if first is None:
            first = stored
        if stored - logical != first:
            parts = [f"{begin}-{to or begin} at {place}" for begin, _, to, place in pieces]
            more = f" and {len(parts) - SHOWN_PIECES} more" if len(parts) > SHOWN_PIECES else ""
            return 0, f"its blocks aren't in one piece: {', '.join(parts[:SHOWN_PIECES])}{more}"
        expected = end + 1
    if expected < count:
        return 0, f"it has a hole at its block {expected}"
    return first, ""


def files(image):
    """Each entry of an image that is no directory, in the order of paths."""
    block = block_size(image)
    entries = sorted(listing(image).items())
    regular = [inode for _, (inode, mode) in entries if mode & 0o170000 == REGULAR]
    inodes = list(dict.fromkeys(regular))
    told = dict(zip(inodes, ask(image, [f"stat <{inode}>" for inode in inodes]))) if inodes else {}
    for path, (inode, mode) in entries:
        if inode not in told:
            yield Found(path, inode, False, reason=f"it is {OTHERS.get(mode & 0o170000, 'no regular file')}")
            continue
        size = int(re.search(r"\bSize: (\d+)$", "\n".join(told[inode]), re.M)[1])
        first, reason = placed(told[inode], size, block)
        yield Found(path, inode, bool(mode & 0o111), size, first * block, reason)
