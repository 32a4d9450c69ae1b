"""The report as one page that needs no other file and no script."""

import pathlib
from dataclasses import dataclass

import jinja2

from . import overview, picture
from .run import STATES

TEMPLATES = pathlib.Path(__file__).resolve().parent.parent / "templates"
# Up to this many lines of the request file, each has a place of its own to link to; above it, each block has.
OWN_PLACES = 4_000
BLOCK = 50
AROUND = 4


@dataclass(frozen=True)
class Block:
    """Lines of the request file that are shown together. A hidden one says only that it is there; a whole one is one place."""

    first: int
    last: int
    lines: list
    hidden: bool
    whole: bool


def hidden_texts(requests):
    """The stretches of lines of texts that no command writes: the bytes of files."""
    written = {action.content[1] for action in requests.actions.values() if action.content and action.content[0] == "text"}
    for name, text in requests.texts.items():
        if name not in written and text.lines:
            yield text.line + 1, text.line + len(text.lines)


def blocks(requests):
    """The lines of the request file in blocks."""
    hidden = dict(hidden_texts(requests))
    shown = len(requests.lines) - sum(last - first + 1 for first, last in hidden.items())
    whole = shown > OWN_PLACES
    found, first = [], 1
    while first <= len(requests.lines):
        if first in hidden:
            last = hidden[first]
            found.append(Block(first, last, [], True, True))
        else:
            last = min([len(requests.lines), first + BLOCK - 1, *(start - 1 for start in hidden if start > first)])
            numbered = [(number, requests.lines[number - 1]) for number in range(first, last + 1)]
            found.append(Block(first, last, numbered, False, whole))
        first = last + 1
    return found


def links(found):
    """The function from a line to the place of the page that shows it."""
    places = {}
    for block in found:
        for number in range(block.first, block.last + 1):
            places[number] = block.first if block.whole else number
    return lambda line: f"#L{places[line]}"


def letters(run):
    """The letters of the commands that the picture has."""
    verbs = {step.action.verb for step in run.steps if not step.action.hook}
    return [(verb.replace("_", " "), letter) for verb, letter in picture.LETTERS.items() if verb in verbs]


def environment():
    return jinja2.Environment(loader=jinja2.FileSystemLoader(TEMPLATES), autoescape=True, undefined=jinja2.StrictUndefined,
                              trim_blocks=True)


def count(number):
    return f"{number:,}"


def page(run, title):
    """The page of a run."""
    found = blocks(run.requests)
    policies, more_policies = overview.policies(run)
    return environment().get_template("report.html").render(
        run=run, title=title, refusal=None, summary=overview.summary(run), states=STATES, count=count, href=links(found),
        blocks=found, picture=picture.picture(run), head=picture.HEAD, foot=picture.FOOT, bin=picture.BIN, bins=picture.BINS,
        letters=letters(run), files=list(run.files.values()), audits=list(overview.audits(run)),
        record_count=sum(map(len, run.records.values())), epochs=run.epochs[:overview.EPOCHS],
        more_epochs=max(0, len(run.epochs) - overview.EPOCHS), policies=policies, more_policies=more_policies)


def refused_page(lines, refusal, title):
    """The page of a request file that is refused, with the lines around the one that is named."""
    named = refusal.line or 0
    around = [(number, line) for number, line in enumerate(lines, 1) if refusal.line and abs(number - named) <= AROUND]
    return environment().get_template("report.html").render(
        title=title, refusal=refusal, around=around, states=STATES, count=count, href=lambda line: f"#L{line}")
