"""A request file as the report needs it: its declarations and actions, each with the number of its line."""

from dataclasses import dataclass, field

OPERATIONS = {
    "firmware": "FIRMWARE",
    "module": "KMODULE",
    "kexec-image": "KEXEC_IMAGE",
    "kexec-initramfs": "KEXEC_INITRAMFS",
    "policy": "POLICY",
    "x509": "X509_CERT",
}
COMMANDS = {"new_policy": "load", "enforce": "enforce", "success_audit": "success_audit"}
FOLDER_COMMANDS = {"active": "activate", "update": "update", "delete": "delete"}


class Unreadable(Exception):
    """Why a file is no request file, or no transcript of this one."""


def shown(text):
    """A text without anything that a terminal or a browser would act on: what isn't printable is escaped."""
    if text.isprintable():
        return text
    return "".join(letter if letter.isprintable() or letter == "\t" else letter.encode("unicode_escape").decode()
                   for letter in text)


@dataclass(frozen=True)
class Text:
    """A text: the number of its line, and its own lines, the first of which has the next number."""

    line: int
    lines: list


@dataclass(frozen=True)
class FileLine:
    """A file that is declared: `place` says of which kind it is, and of which volume or device."""

    line: int
    path: str
    place: str


@dataclass(frozen=True)
class Action:
    """A line of a phase. Of a command: node and content; of a hook: its worker, kind and path, each empty where it has none."""

    line: int
    who: str
    verb: str
    node: str = ""
    content: tuple = ()
    pid: str = ""
    comm: str = ""
    kind: str = ""
    path: str = ""

    @property
    def hook(self):
        return self.who not in ("admin", "guest")

    @property
    def operation(self):
        """The operation that a policy decides of a hook."""
        return OPERATIONS.get(self.kind, "EXECUTE")

    @property
    def label(self):
        """What is done, in a word or two."""
        return f"{self.verb} {self.kind}".rstrip()


@dataclass
class Requests:
    lines: list
    workers: int = 1
    texts: dict = field(default_factory=dict)
    files: dict = field(default_factory=dict)
    volumes: dict = field(default_factory=dict)
    seals: dict = field(default_factory=dict)
    phases: list = field(default_factory=list)
    actions: dict = field(default_factory=dict)


def command(number, words):
    who, verb, node = words[:3]
    if verb == "write":
        folder, _, last = node.rpartition("/")
        verb = COMMANDS.get(node) or (FOLDER_COMMANDS.get(last) if folder.startswith("policies/") else None) or "write"
    return Action(number, who, verb, node=node, content=tuple(words[3:]))


def hook(number, words):
    who, verb, pid, comm, *rest = words
    path = "" if verb == "load" or rest[-1] == "-" else rest[-1]
    kind = rest[0] if verb in ("load", "read") else ""
    return Action(number, who, verb, pid=pid, comm=comm, kind=kind, path=path)


def place_of(words):
    kind = words[2]
    if kind == "boot":
        return f"initial file system ({words[3]})"
    return f"volume {words[3]}" if kind == "volume" else f"device {words[6]}, without dm-verity"


def read(data):
    """The request file of these bytes. It is read as one that the gate takes; another one is Unreadable, or read in part."""
    lines = [shown(line.decode("utf-8", "backslashreplace")) for line in data.split(b"\n")]
    if lines and lines[-1] == "":
        lines.pop()
    if not lines or lines[0] != "ipe-requests 1":
        raise Unreadable("the first line isn't 'ipe-requests 1'")
    found = Requests(lines)
    number = 1
    while number < len(lines):
        number += 1
        line = lines[number - 1]
        words = line.split(" ")
        try:
            if words[0] == "workers":
                found.workers = int(words[1])
            elif words[0] == "text":
                count = int(words[2])
                found.texts[words[1]] = Text(number, lines[number:number + count])
                number += count
            elif words[0] == "volume":
                found.volumes[words[1]] = number
            elif words[0] == "file":
                found.files[words[1]] = FileLine(number, words[1], place_of(words))
            elif words[0] == "seal":
                found.seals[words[1]] = number
            elif words[0] == "phase":
                found.phases.append(number)
            elif words[0] in ("admin", "guest"):
                found.actions[number] = command(number, words)
            elif words[0].startswith("w"):
                found.actions[number] = hook(number, words)
            elif words[0] not in ("mark", "end"):
                raise ValueError
        except (ValueError, IndexError):
            raise Unreadable(f"line {number} has none of the forms of a request file: {line}") from None
    return found
