"""What an appliance is made of, and what the readers of its sections share: mistakes, texts, devices and files, within the limits."""

import contextlib
import os
import pathlib
import re
from dataclasses import dataclass, field

from . import ext4, images, rules, tools
from .settings import Mistake, Table

INITIAL = "initial"


@dataclass(frozen=True)
class File:
    """A file that can be named: its section, the words of its line after the path, its size in bytes."""

    section: str
    words: str
    size: int
    executable: bool


@dataclass(frozen=True)
class LeftOut:
    """A file that the request file can't hold, and why."""

    section: str
    path: str
    reason: str


@dataclass
class Appliance:
    """Everything that stands before the phases, in the order of the TOML file."""

    workers: int = 1
    texts: dict = field(default_factory=dict)
    names: dict = field(default_factory=dict)
    volumes: dict = field(default_factory=dict)
    sections: list = field(default_factory=list)
    files: dict = field(default_factory=dict)
    seals: dict = field(default_factory=dict)
    marks: list = field(default_factory=list)
    left_out: list = field(default_factory=list)


class Reader:
    """What is read of a description so far. `mistakes` collects what is wrong, each with its key."""

    def __init__(self, document, folder):
        self.document = document
        self.folder = pathlib.Path(folder)
        self.appliance = Appliance()
        self.mistakes = []
        self.devices = {}

    @contextlib.contextmanager
    def collecting(self):
        try:
            yield
        except Mistake as mistake:
            self.mistakes.append(mistake)

    def file_bytes(self, key, path):
        try:
            return (self.folder / path).read_bytes()
        except OSError as error:
            raise Mistake(key, f"{path} can't be read: {error.strerror}") from None

    def add_text(self, key, name, text):
        """Takes a text, which is to be whole lines."""
        if text and not text.endswith(b"\n"):
            raise Mistake(key, "its last line doesn't end with a line feed, and a text of a request file is whole lines")
        if text.count(b"\n") > rules.TEXT_LINES:
            raise Mistake(key, f"has {text.count(bytes([10])):,} lines; a text has at most {rules.TEXT_LINES:,}")
        if len(self.appliance.texts) == rules.TEXTS:
            raise Mistake(key, f"is text {rules.TEXTS + 1:,}; a request file has at most {rules.TEXTS:,}")
        self.appliance.texts[name] = text

    def digests(self, key, path):
        """The digests of a file with what veritysetup or fsverity printed."""
        printed = self.file_bytes(key, path).decode("utf-8", "replace")
        digests = re.findall(r"^(?:sha256:|Root hash:[ \t]*)?([0-9a-f]{64})\b", printed, re.M)
        if not digests:
            raise Mistake(key, f"{path} has no line with a digest, as veritysetup and fsverity print them")
        return digests

    def device(self, table, name, needed=True):
        """The name by which a device is opened from the present folder, and its size in bytes."""
        given = table.text(name, needed=needed)
        if given is None:
            return None, 0
        path = self.folder / given
        try:
            size = images.device_size(path)
        except OSError as error:
            raise table.mistake(name, f"{given} can't be read: {error.strerror}") from None
        word = os.path.relpath(path)
        if not rules.DEVICE.fullmatch(word):
            raise table.mistake(name, f"the path {word!r} is to be {rules.RULES[rules.DEVICE]}")
        if size > rules.DEVICE_SIZE:
            raise table.mistake(name, f"{given} has {size:,} bytes; a device has at most {rules.DEVICE_SIZE:,}")
        self.devices[word] = path
        if len(self.devices) > rules.DEVICES:
            raise table.mistake(name, f"{given} is device {len(self.devices)}; a request file names at most {rules.DEVICES}")
        return word, size

    def add_file(self, key, section, path, words, size, executable):
        if path in self.appliance.files:
            raise Mistake(key, f"{path} is a file of {self.appliance.files[path].section} already")
        if len(self.appliance.files) == rules.FILES:
            raise Mistake(key, f"{path} is file {rules.FILES + 1:,}; a request file has at most {rules.FILES:,}")
        self.appliance.files[path] = File(section, words, size, executable)

    def leave_out(self, section, path, reason):
        self.appliance.left_out.append(LeftOut(section, path, reason))

    def mount(self, table):
        """The folder that the paths of a section stand in, without a slash at its end."""
        mount = table.text("mount", default="/", rule=rules.PATH)
        return mount.rstrip("/")

    def wanted(self, table, found):
        """The chosen ones of the files that were found: all, or those of the paths that `files` lists; then its own tables."""
        chosen = table.take("files", "all")
        if chosen == "all":
            return list(found.values()), []
        if not isinstance(chosen, list):
            raise table.mistake("files", 'is to be "all" or a list')
        paths, pieces = [], []
        for number, item in enumerate(chosen, 1):
            key = f"{table.key}.files[{number}]"
            if isinstance(item, dict):
                pieces.append(Table(key, item))
            elif not isinstance(item, str):
                raise Mistake(key, "is to be a path, or a table with path, at, size and ino")
            elif item not in found:
                raise Mistake(key, f"there is no {item} in it")
            else:
                paths.append(found[item])
        return paths, pieces

    def image_files(self, section, table, image, line):
        """The files of an image. `line` gives the words of a file, or why there are none."""
        self.appliance.sections.append(section)
        mount, key = self.mount(table), f"{table.key}.files"
        listed = table.values.get("files", "all")
        found = {}
        # An image of which the pieces are told needs no file system.
        if listed == "all" or (isinstance(listed, list) and any(isinstance(item, str) for item in listed)):
            try:
                found = {entry.path: entry for entry in ext4.files(image)}
            except tools.ToolError as error:
                raise Mistake(key, f"the files of the image can't be listed: {error}") from None
        entries, pieces = self.wanted(table, found)
        for piece in pieces:
            path = piece.text("path", needed=True, rule=rules.PATH)
            at = piece.number("at", 0, rules.DEVICE_SIZE, needed=True)
            size = piece.number("size", 0, rules.DEVICE_SIZE, needed=True)
            inode = piece.number("ino", 0, rules.INODE, needed=True)
            executable = piece.flag("executable", default=True)
            piece.end()
            if not rules.PATH.fullmatch(mount + path):
                raise piece.mistake("path", f"{mount + path!r} is to be {rules.RULES[rules.PATH]}")
            words, reason = line(path, ext4.Found(path, inode, executable, size, at))
            if reason:
                raise piece.mistake("at", f"{path} can't be named: {reason}")
            self.add_file(piece.key, section, mount + path, words, size, executable)
        for entry in entries:
            path = mount + entry.path
            words, reason = None, entry.reason
            if not reason and not rules.PATH.fullmatch(path):
                reason = f"its path isn't {rules.RULES[rules.PATH]}"
            if not reason:
                words, reason = line(path, entry)
            if reason:
                self.leave_out(section, path, reason)
            else:
                self.add_file(key, section, path, words, entry.size, entry.executable)

    def known_file(self, key, path):
        """A file of the appliance; a mistake tells why it is left out, where it is."""
        if path in self.appliance.files:
            return self.appliance.files[path]
        for entry in self.appliance.left_out:
            if entry.path == path:
                raise Mistake(key, f"{path} is left out: {entry.reason}")
        raise Mistake(key, f"there is no file {path}")
