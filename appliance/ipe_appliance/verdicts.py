"""The seals of a description, and what the signer answers for which digest."""

import hashlib

from . import rules
from .settings import Mistake

VERDICTS = ("trusted", "unknown", "revoked")
PURPOSES = {"policies": "policy", "roots": "root", "files": "file"}


def seals(reader):
    """Reads where the descriptors of sealed files stand."""
    for path, table in reader.document.tables("seal"):
        with reader.collecting():
            reader.known_file(table.key, path)
            device, size = reader.device(table, "device")
            at = table.number("at", 0, rules.DEVICE_SIZE, default=0)
            if at + 256 > size:
                raise table.mistake("at", f"a descriptor of 256 bytes at {at:,} ends after the device, which has {size:,}")
            table.end()
            reader.appliance.seals[path] = f"{device} {at}"


def marks(reader):
    """Reads the digests of each verdict. One that two verdicts name is a mistake, since only the last would count."""
    seen = {}
    for verdict in VERDICTS:
        table = reader.document.table(verdict)
        for plural, purpose in PURPOSES.items():
            for number, item in enumerate(table.items(plural, []), 1):
                key = f"{verdict}.{plural}[{number}]"
                with reader.collecting():
                    for digest, words in marked(reader, key, purpose, item):
                        before = seen.setdefault((purpose, digest), (verdict, key))
                        if before[0] != verdict:
                            raise Mistake(key, f"{item} is named by {before[1]} too")
                        if before[1] == key:
                            add_mark(reader, key, f"mark {purpose} {verdict} {words}")
        with reader.collecting():
            table.end()


def add_mark(reader, key, line):
    if len(reader.appliance.marks) == rules.MARKS:
        raise Mistake(key, f"is mark {rules.MARKS + 1:,}; a request file has at most {rules.MARKS:,}")
    reader.appliance.marks.append(line)


def marked(reader, key, purpose, item):
    """The digests that an item names, each with the words of its mark."""
    if not isinstance(item, str):
        raise Mistake(key, "is to be a text in quotes")
    if item.startswith("@"):
        return [(digest, f"hex {digest}") for digest in reader.digests(key, item[1:])]
    if purpose == "policy" and item in reader.appliance.texts:
        return [(hashlib.sha256(reader.appliance.texts[item]).hexdigest(), f"text {item}")]
    if purpose == "root" and item in reader.appliance.volumes:
        digest = reader.appliance.volumes[item].split()[8].lower()
        return [(digest, f"hex {digest}")]
    digest = item.removeprefix("sha256:").lower()
    if not rules.DIGEST.fullmatch(digest):
        names = {"policy": "the name of a policy, ", "root": "the name of a volume, ", "file": ""}[purpose]
        raise Mistake(key, f"{item!r} is to be {names}64 hexadecimal digits, or @ and a file with digests")
    return [(digest, f"hex {digest}")]
