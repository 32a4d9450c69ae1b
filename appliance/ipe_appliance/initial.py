"""The files of the initial root file system, which are texts of the request file."""

import os

from . import ext4, rules
from .reader import INITIAL
from .settings import Mistake


def initial(reader):
    """Reads the directory of the initial root file system."""
    if "initial" not in reader.document:
        return
    table = reader.document.table("initial")
    given = table.text("directory", needed=True)
    folder = reader.folder / given
    if not folder.is_dir():
        raise table.mistake("directory", f"{given} is no directory")
    device = table.text("dev", default="rootfs", rule=rules.ID)
    completes = table.flag("add_line_feed", default=False)
    reader.appliance.sections.append(INITIAL)
    mount = reader.mount(table)
    found = {}
    for number, path in enumerate(sorted(below(folder)), 1):
        entry = folder / path.lstrip("/")
        reason = ""
        if entry.is_symlink() or not entry.is_file():
            reason = "it is a symbolic link" if entry.is_symlink() else "it is no regular file"
        executable = not reason and bool(entry.stat().st_mode & 0o111)
        found[path] = ext4.Found(path, number, executable, reason=reason)
    entries, pieces = reader.wanted(table, found)
    if pieces:
        raise Mistake(pieces[0].key, "is to be a path: a directory has no places")
    for entry in entries:
        initial_file(reader, table, folder, mount, device, completes, entry)
    table.end()


def below(folder):
    """Each path of a folder that is no directory, from the folder on."""
    for place, folders, names in os.walk(folder, onerror=unreadable):
        links = [name for name in folders if os.path.islink(os.path.join(place, name))]
        for name in names + links:
            yield "/" + os.path.relpath(os.path.join(place, name), folder)


def unreadable(error):
    raise Mistake("initial.directory", f"{error.filename} can't be read: {error.strerror}")


def initial_file(reader, table, folder, mount, device, completes, entry):
    path, reason, key = mount + entry.path, entry.reason, f"{table.key}.files"
    if not reason and not rules.PATH.fullmatch(path):
        reason = f"its path isn't {rules.RULES[rules.PATH]}"
    if reason:
        reader.leave_out(INITIAL, path, reason)
        return
    text = reader.file_bytes(key, (folder / entry.path.lstrip("/")).resolve())
    if text and not text.endswith(b"\n"):
        if not completes:
            reader.leave_out(INITIAL, path, "its last byte is no line feed, and a text of a request file is whole lines; "
                           "with initial.add_line_feed = true one is added, and its content is told with it")
            return
        text += b"\n"
    name = next((name for name, known in reader.appliance.texts.items() if known == text), None)
    if name is None:
        number = 1
        while f"file-{number}" in reader.appliance.texts:
            number += 1
        name = f"file-{number}"
        reader.add_text(key, name, text)
    reader.add_file(key, INITIAL, path, f"boot {device} {entry.inode} {name}", len(text), entry.executable)
