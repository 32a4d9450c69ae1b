"""A request file from the description of an appliance."""

import pathlib
import tomllib

from . import description, rules
from .phases import Phases
from .reader import Reader
from .settings import Mistake, Table


class Refused(Exception):
    """The mistakes of a description, each with its key."""

    def __init__(self, mistakes):
        super().__init__("; ".join(map(str, mistakes)))
        self.mistakes = mistakes


def lines_of(appliance, phases):
    """The lines of the request file, as bytes without their line feeds; a text is one item with its own."""
    yield b"ipe-requests 1"
    yield f"workers {appliance.workers}".encode()
    for name, text in appliance.texts.items():
        yield f"text {name} {text.count(bytes([10]))}".encode()
        if text:
            yield text[:-1]
    for name, words in appliance.volumes.items():
        yield f"volume {name} {words}".encode()
    for path, file in appliance.files.items():
        yield f"file {path} {file.words}".encode()
    for path, words in appliance.seals.items():
        yield f"seal {path} {words}".encode()
    yield from (line.encode() for line in (*appliance.marks, *phases))
    yield b"end"


def largest(appliance, phases):
    """The key of the section that has the most bytes."""
    sizes = {"policies": sum(len(appliance.texts[name]) for name in appliance.names),
             "initial.files": sum(len(text) for name, text in appliance.texts.items() if name not in appliance.names),
             "phase": sum(len(line) + 1 for line in phases)}
    return max(sizes, key=sizes.get)


def composed(path):
    """The request file that a TOML file describes, and the files that it leaves out; Refused where there are mistakes."""
    try:
        document = Table("", tomllib.loads(pathlib.Path(path).read_bytes().decode("utf-8")))
    except OSError as error:
        raise Refused([Mistake("", f"can't be read: {error.strerror}")]) from None
    except (tomllib.TOMLDecodeError, UnicodeDecodeError) as error:
        raise Refused([Mistake("", f"is no TOML: {error}")]) from None
    reader = Reader(document, pathlib.Path(path).parent)
    appliance = reader.appliance
    description.read(reader)
    # The files of sections with mistakes aren't known, so that phases would only repeat what is told already.
    lines = [] if reader.mistakes else Phases(reader).read()
    if reader.mistakes:
        raise Refused(reader.mistakes)
    text = b"".join(line + b"\n" for line in lines_of(appliance, lines))
    if len(text) > rules.REQUESTS_SIZE:
        raise Refused([Mistake(largest(appliance, lines), f"has the most of the request file's {len(text):,} bytes, which may be at "
                               f"most {rules.REQUESTS_SIZE:,}")])
    return text, appliance.left_out
