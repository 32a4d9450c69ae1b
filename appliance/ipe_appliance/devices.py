"""The volumes under dm-verity and the plain devices of a description, with the files of their images."""

from . import images, rules, tools
from .reader import INITIAL
from .settings import Mistake


def verity(reader, table, hash_path, offset, header):
    """The values of a volume, from the first of: what veritysetup printed, its header, the keys."""
    printed = table.text("printed")
    if printed is not None:
        key = f"{table.key}.printed"
        try:
            values = images.printed_values(reader.file_bytes(key, printed).decode("utf-8", "replace"))
        except ValueError as error:
            raise Mistake(key, f"{printed} isn't what veritysetup prints: {error}") from None
        if header and not images.has_header(hash_path, offset):
            raise table.mistake("header", f"there is none at byte {offset:,} of the hash image: say header = false")
    elif header:
        try:
            values = images.header_values(hash_path, offset)
        except (tools.ToolError, ValueError) as error:
            raise table.mistake("header", f"there is no header of veritysetup: {error}") from None
    else:
        size = table.number("block_size", 512, 4096, needed=True)
        if size not in rules.BLOCK_SIZES:
            raise table.mistake("block_size", f"{size:,} is to be 512, 1024, 2048 or 4096")
        blocks = table.number("data_blocks", 1, rules.DATA_BLOCKS, needed=True)
        return images.Verity(size, blocks, table.text("salt", needed=True, rule=rules.SALT))
    for name in ("block_size", "data_blocks", "salt"):
        if table.take(name) is not None:
            raise table.mistake(name, "is told by the header already, or by what was printed: leave it out")
    return values


def root_hash(reader, table, values):
    """The root hash of a volume: of its key, else of what veritysetup printed."""
    if values.root and "root" in table:
        raise table.mistake("root", "is told by what was printed already: leave it out")
    root = values.root or table.text("root")
    if root is None:
        raise table.mistake("root", "is missing: a header doesn't hold it, what veritysetup prints does")
    if root.startswith("@"):
        digests = reader.digests(f"{table.key}.root", root[1:])
        if len(digests) > 1:
            raise table.mistake("root", f"{root[1:]} has {len(digests)} digests")
        root = digests[0]
    if not rules.DIGEST.fullmatch(root.lower()):
        raise table.mistake("root", f"{root!r} is to be 64 hexadecimal digits")
    return root


def volumes(reader):
    """Reads the tables of volumes."""
    tables = reader.document.tables("volume")
    for number, (name, table) in enumerate(tables, 1):
        with reader.collecting():
            if number > rules.VOLUMES:
                raise Mistake(table.key, f"is volume {number}; a request file has at most {rules.VOLUMES}")
            volume(reader, name, table)


def volume(reader, name, table):
    """Reads a volume, and the files of its data image."""
    if not rules.ID.fullmatch(name) or name == INITIAL:
        raise Mistake(table.key, f"the name of a volume is to be {rules.RULES[rules.ID]}, and not 'initial'")
    data, data_size = reader.device(table, "data")
    hashes, hash_size = reader.device(table, "hash", needed=False)
    if hashes is None:
        hashes, hash_size = data, data_size
    offset = table.number("hash_offset", 0, rules.DEVICE_SIZE, default=0)
    header = table.flag("header", default=True)
    values = verity(reader, table, reader.devices[hashes], offset, header)
    root = root_hash(reader, table, values)
    start = values.hash_start(offset, header)
    if offset % 512 or (not header and offset % values.block_size):
        raise table.mistake("hash_offset", f"{offset:,} is no whole number of blocks")
    needed = values.data_blocks * values.block_size
    if needed > data_size:
        raise table.mistake("data", f"has {data_size:,} bytes; its {values.data_blocks:,} blocks need {needed:,}")
    needed = (start + values.hash_blocks()) * values.block_size
    if needed > hash_size:
        raise table.mistake("data" if hashes == data else "hash",
                            f"{hashes} has {hash_size:,} bytes; with the hash tree it needs {needed:,}")
    signature = table.text("signature", rule=rules.DEVICE)
    size, blocks = values.block_size, values.data_blocks
    words = f"1 {data} {hashes} {size} {size} {blocks} {start} sha256 {root} {values.salt}"
    if signature is not None:
        words += f" 2 root_hash_sig_key_desc {signature}"
    reader.appliance.volumes[name] = words

    def line(path, found):
        if found.size and found.at % size:
            return None, f"it begins inside of a data block of {size:,} bytes"
        if found.at // size > rules.DATA_BLOCKS - 1 or found.at + found.size > blocks * size:
            return None, "it ends after the last data block"
        return f"volume {name} {found.at // size} {found.size} {found.inode}", None

    reader.image_files(name, table, reader.devices[data], line)
    table.end()


def plain(reader):
    """Reads the tables of plain devices."""
    for name, table in reader.document.tables("plain"):
        with reader.collecting():
            plain_device(reader, name, table)


def plain_device(reader, name, table):
    """Reads a plain device, and the files of its image."""
    if not rules.ID.fullmatch(name) or name == INITIAL or name in reader.appliance.volumes:
        raise Mistake(table.key, f"the name of a plain device is to be {rules.RULES[rules.ID]}, not 'initial', and no volume's")
    device, device_size = reader.device(table, "image")

    def line(path, found):
        if found.at + found.size > device_size:
            return None, "it ends after the device"
        return f"plain {device} {found.at} {found.size} {name} {found.inode}", None

    reader.image_files(name, table, reader.devices[device], line)
    table.end()
