"""Volumes under dm-verity: what `veritysetup` printed or wrote of them, and the table that the request file names them by."""

import os
import re
import stat
from dataclasses import dataclass

from . import rules, tools

LABELS = {
    "type": "Hash type",
    "data_blocks": "Data blocks",
    "block_size": "Data block size",
    "hash_block_size": "Hash block size",
    "algorithm": "Hash algorithm",
    "salt": "Salt",
    "root": "Root hash",
}
DIGEST_SIZE = 32
SUPERBLOCK_SIZE = 512
SIGNATURE = b"verity\0\0"


@dataclass(frozen=True)
class Verity:
    """The values of a volume: `block_size` is in bytes, `salt` is hexadecimal digits or a dash; `root` may be unknown."""

    block_size: int
    data_blocks: int
    salt: str
    root: str | None = None

    def hash_blocks(self):
        """The number of blocks of the hash tree."""
        total, level = 0, self.data_blocks
        while level > 1:
            level = -(-level * DIGEST_SIZE // self.block_size)
            total += level
        return total

    def hash_start(self, offset, header):
        """The block that the tree begins at, for a hash area that begins at a byte, with a header or without."""
        return -(-(offset + (SUPERBLOCK_SIZE if header else 0)) // self.block_size)


def device_size(path):
    """The size of a file or a block device, in bytes."""
    mode = os.stat(path).st_mode
    if not (stat.S_ISREG(mode) or stat.S_ISBLK(mode)):
        raise OSError(0, "neither a file nor a block device", str(path))
    with open(path, "rb") as device:
        return device.seek(0, os.SEEK_END)


def printed_values(text):
    """The values of what `veritysetup format` or `veritysetup dump` printed; a ValueError says what is missing or isn't taken."""
    values = {}
    for key, label in LABELS.items():
        found = re.search(rf"^{label}:[ \t]*(\S*)[ \t]*$", text, re.M)
        values[key] = found[1] if found else None
    for key in ("type", "data_blocks", "block_size", "hash_block_size", "algorithm", "salt"):
        if not values[key]:
            raise ValueError(f"there is no line '{LABELS[key]}:' in it")
    if values["type"] != "1" or values["algorithm"] != "sha256":
        raise ValueError(f"hash type {values['type']} with {values['algorithm']} isn't taken: type 1 with sha256 is")
    if values["block_size"] != values["hash_block_size"]:
        raise ValueError("blocks of data and of hashes are to have one size")
    if not values["data_blocks"].isdigit() or not values["block_size"].isdigit():
        raise ValueError("a number of it can't be read")
    size, blocks = int(values["block_size"]), int(values["data_blocks"])
    if size not in rules.BLOCK_SIZES:
        raise ValueError(f"blocks of {size:,} bytes aren't taken: 512, 1024, 2048 and 4096 are")
    if not 1 <= blocks <= rules.DATA_BLOCKS:
        raise ValueError(f"{blocks:,} data blocks: a volume has 1 to {rules.DATA_BLOCKS:,}")
    if not rules.SALT.fullmatch(values["salt"]):
        raise ValueError("its salt isn't " + rules.RULES[rules.SALT])
    if values["root"] is not None and not rules.DIGEST.fullmatch(values["root"].lower()):
        raise ValueError("its root hash isn't 64 hexadecimal digits")
    return Verity(size, blocks, values["salt"], values["root"])


def has_header(path, offset):
    """Whether a header of `veritysetup` begins at a byte of a hash image."""
    with open(path, "rb") as image:
        image.seek(offset)
        return image.read(len(SIGNATURE)) == SIGNATURE


def header_values(path, offset):
    """The values of the header that `veritysetup` wrote at a byte of a hash image."""
    printed, _ = tools.run("veritysetup", "dump", f"--hash-offset={offset}", str(path))
    return printed_values(printed)
