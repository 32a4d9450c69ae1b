"""A transcript, entry by entry, as the gate printed it."""

import re
from dataclasses import dataclass, field

from .listing import Unreadable, shown

ENTRY = re.compile(r"line=(\d+) (admin|guest|w\d+) code=(0|-\d+) epoch=(-|\d+)"
                   r"(?: count=(?:-|\d+) policy=(-|\d+) by=(\S+)| bytes=(\S+))?")
REFUSED = re.compile(r"refused line (\d+): (\w+)|refused: .*")


@dataclass
class Entry:
    """A line of the transcript with what belongs to it. `epoch` and `serial` are None where the line has a dash."""

    phase: int
    line: int
    who: str
    code: int
    epoch: int | None
    serial: int | None
    by: str
    records: list = field(default_factory=list)
    content: str = ""


@dataclass(frozen=True)
class Refusal:
    """The line by which a whole request file is refused, and the number of its line that it names, if it names one."""

    text: str
    line: int | None


def number(word):
    return None if word in (None, "-") else int(word)


def read(data):
    """The entries of a transcript, in their order, or the Refusal."""
    lines = [shown(line) for line in data.decode("utf-8", "backslashreplace").split("\n")]
    refused = REFUSED.fullmatch(lines[0])
    if refused:
        return Refusal(lines[0], number(refused[1]))
    if lines[0] != "ipe-transcript 1":
        raise Unreadable("the first line of the transcript isn't 'ipe-transcript 1'")
    if lines[-2:] != ["end", ""]:
        raise Unreadable("the transcript has no line 'end' at its end: it isn't whole")
    entries, phase = [], 0
    for place, line in enumerate(lines[1:-2], 2):
        entry = ENTRY.fullmatch(line)
        if entry:
            entries.append(Entry(phase, int(entry[1]), entry[2], int(entry[3]), number(entry[4]), number(entry[5]),
                                 entry[6] or ""))
        elif line.startswith("phase "):
            phase += 1
        elif line.startswith("type=") and entries:
            entries[-1].records.append(line)
        elif line.startswith("content ") and entries:
            entries[-1].content = line.removeprefix("content ")
        else:
            raise Unreadable(f"line {place} of the transcript can't be read: {line}")
    return entries
