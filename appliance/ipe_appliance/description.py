"""The sections of an appliance's TOML file before the phases."""

from . import rules
from .devices import plain, volumes
from .initial import initial
from .reader import INITIAL
from .settings import Mistake, joined
from .verdicts import VERDICTS, marks, seals

SECTIONS = ("workers", "policies", "volume", INITIAL, "plain", "seal", *VERDICTS, "phase")


def policy_name(text):
    """The name that the first line with words of a policy's text gives, or None."""
    for line in text.split(b"\n"):
        words = line.partition(b"#")[0].split()
        if words:
            name = words[0].removeprefix(b"policy_name=")
            return name.decode("ascii", "replace") if name != words[0] and name else None
    return None


def policies(reader):
    """Reads the texts of policies."""
    table = reader.document.table("policies")
    for name in list(table.values):
        with reader.collecting():
            path = table.text(name)
            key = joined("policies", name)
            if not rules.ID.fullmatch(name):
                raise Mistake(key, f"the name of a policy's text is to be {rules.RULES[rules.ID]}")
            text = reader.file_bytes(key, path)
            reader.add_text(key, name, text)
            reader.appliance.names[name] = policy_name(text)


def read(reader):
    """Reads all of them; where `mistakes` isn't empty then, the appliance isn't whole."""
    for name in reader.document.values:
        if name not in SECTIONS:
            reader.mistakes.append(Mistake(name, f"is no key of this place, which may have: {', '.join(SECTIONS)}"))
    with reader.collecting():
        reader.appliance.workers = reader.document.number("workers", 1, rules.WORKERS, default=1)
    for part in (policies, volumes, initial, plain):
        with reader.collecting():
            part(reader)
    # Seals and verdicts speak of files and volumes, which aren't known where there is a mistake.
    if not reader.mistakes:
        for part in (seals, marks):
            with reader.collecting():
                part(reader)
