"""The picture of a run: where each mark, band and bar stands. All lengths are in pixels of the picture at its full size."""

import dataclasses
import itertools
from collections import Counter
from dataclasses import dataclass, field

from .run import STATES

# A column is as wide as is needed to fill FULL, within these bounds.
COLUMN = 20
WIDEST = 40
FULL = 1_000
CHARACTER = 6.8
PADDING = 14
# No column is widened for more than this many characters of a text, and no fewer than these are shown of one.
LONGEST = 32
SHORTEST = 5
HEAD = {"phase": 0, "policy": 22, "epoch": 46}
ROWS_TOP = 74
ROW = 34
FOOT = 8
# From this many entries on, hooks are drawn as densities.
DENSE = 500
BIN = 6
BINS = 180
LANE = 18
LETTERS = {"load": "L", "activate": "A", "update": "U", "delete": "D", "enforce": "E", "success_audit": "S", "read": "R",
           "write": "W"}


@dataclass(frozen=True)
class Span:
    """A stretch of the picture with a text, and a short one where that finds no room: a phase, an active policy's time, an epoch."""

    x: int
    width: int
    text: str
    short: str
    title: str
    line: int | None
    even: bool

    @property
    def label(self):
        """As much as finds room."""
        room = int((self.width - 4) / CHARACTER)
        for text in (self.text, self.short):
            if len(text) <= room:
                return text
        return self.text[:room - 1] + "…" if room >= SHORTEST else ""


@dataclass(frozen=True)
class Mark:
    x: int
    y: float
    state: str
    letter: str
    title: str
    line: int


@dataclass
class Lane:
    """The bars of one actor and one state: `bars` are x, y, width and height."""

    state: str
    y: float
    bars: list


@dataclass
class Cell:
    """A part of a row of densities that links to its first line."""

    x: int
    title: str
    line: int


@dataclass
class Row:
    actor: str
    label: str
    y: float
    height: float
    lanes: list = field(default_factory=list)
    cells: list = field(default_factory=list)


@dataclass
class Picture:
    width: int
    height: float
    dense: bool
    phases: list
    policies: list
    epochs: list
    rows: list
    marks: list


def name_of(actor):
    return {"admin": "administrator", "guest": "guest"}.get(actor, "worker " + actor[1:])


def actors(steps):
    """Those that do something, administrators first and workers by number."""
    def order(actor):
        return (0, actor) if actor in ("admin", "guest") else (1, int(actor[1:]))
    return sorted({step.action.who for step in steps}, key=lambda actor: (order(actor)[0], str(order(actor)[1]).zfill(9)))


def switches(epoch):
    words = [] if epoch.enforce else ["enforce off"]
    return words + (["success_audit on"] if epoch.success_audit else [])


def groups(steps, key):
    """The runs of steps with one key: the first step of each and how far it goes, as indices."""
    first = 0
    for at in range(1, len(steps) + 1):
        if at == len(steps) or key(steps[at]) != key(steps[first]):
            yield steps[first], first, at
            first = at


def headings(run):
    """For each kind of band: the key by which steps belong to one, and its text, short text, title and line."""
    def phase(step):
        number = step.entry.phase
        return f"phase {number}", str(number), f"phase {number}", run.requests.phases[number - 1]

    def policy(step):
        known = step.epoch.policy
        if known:
            return known.title, known.version, f"active: {known.title}, policy {known.serial}", known.line
        return "no active policy", "none", "no active policy: everything is allowed", None

    def epoch(step):
        words = ", ".join([f"epoch {step.epoch.number}", *switches(step.epoch)])
        return words, str(step.epoch.number), words, step.epoch.line

    return {
        "phase": (lambda step: step.entry.phase, phase),
        "policy": (lambda step: step.epoch.policy.serial if step.epoch.policy else 0, policy),
        "epoch": (lambda step: step.epoch.number, epoch),
    }


def widths(run):
    """The width of the column of each step, so that the text of each band finds room."""
    found = [max(COLUMN, min(WIDEST, FULL / len(run.steps)))] * len(run.steps)
    for key, words in headings(run).values():
        for step, first, last in groups(run.steps, key):
            needed = min(len(words(step)[0]), LONGEST) * CHARACTER + PADDING
            have = sum(found[first:last])
            if have < needed:
                for at in range(first, last):
                    found[at] *= needed / have
    return found


def bands(run, edges):
    """The bands of each kind, from the edges of the columns."""
    for key, words in headings(run).values():
        spans = []
        for number, (step, first, last) in enumerate(groups(run.steps, key)):
            spans.append(Span(edges[first], edges[last] - edges[first], *words(step), number % 2 == 0))
        yield spans


def together(held, even):
    """Neighbouring bands as one, which counts them."""
    one, last = held[0], held[-1]
    if one is last:
        return dataclasses.replace(one, even=even)
    title = f"{len(held):,} from {one.title} to {last.title}"
    return Span(one.x, last.x + last.width - one.x, f"{len(held):,}: {one.text} …", "…", title, one.line, even)


def merged(spans, least):
    """The bands with those together that are too narrow to be seen alone."""
    found, held = [], []
    for span in spans:
        if span.width >= least and held:
            found.append(together(held, len(found) % 2 == 0))
            held = []
        held.append(span)
        if span.x + span.width - held[0].x >= least:
            found.append(together(held, len(found) % 2 == 0))
            held = []
    if held:
        found.append(together(held, len(found) % 2 == 0))
    return found


def outcome(step):
    if step.action.hook:
        return STATES[step.state]
    return "done" if step.entry.code == 0 else f"refused, {step.entry.code}"


def mark_title(step):
    """What a mark says of itself."""
    action = step.action
    what = f"{action.label} {action.path or action.node or ''}".rstrip()
    by = f", by {step.entry.by} of policy {step.entry.serial}" if step.entry.serial is not None else ""
    content = f", {step.entry.content}" if step.state == "corrupt" else ""
    return f"line {action.line}, {name_of(action.who)}: {what}: {outcome(step)}{by}{content}"


def drawn(run):
    """The picture in which each entry has a mark of its own."""
    edges = [round(edge) for edge in itertools.accumulate(widths(run), initial=0)]
    rows = [Row(actor, name_of(actor), ROWS_TOP + ROW * at, ROW) for at, actor in enumerate(actors(run.steps))]
    places = {row.actor: row.y + ROW / 2 for row in rows}
    marks = [Mark(round((edges[at] + edges[at + 1]) / 2), places[step.action.who], step.state,
                  "" if step.action.hook else LETTERS[step.action.verb], mark_title(step), step.action.line)
             for at, step in enumerate(run.steps)]
    phases, policies, epochs = bands(run, edges)
    return Picture(edges[-1], ROWS_TOP + ROW * len(rows) + FOOT, False, phases, policies, epochs, rows, marks)


def density_row(actor, steps, bin_of, top):
    """The row of an actor: a lane for each state that it has, and in each a bar for each bin, as high as the number there."""
    counts, firsts, lasts = {}, {}, {}
    for at, step in steps:
        column = bin_of(at)
        counts.setdefault(step.state, Counter())[column] += 1
        firsts.setdefault(column, step.action.line)
        lasts[column] = step.action.line
    names = [state for state in (*STATES, "done", "refused") if state in counts]
    row = Row(actor, name_of(actor), top, LANE * len(names) + 8)
    for number, state in enumerate(names):
        base = top + 4 + LANE * (number + 1)
        most = max(counts[state].values())
        bars = []
        for column, count in sorted(counts[state].items()):
            height = max(1.5, (LANE - 3) * count / most)
            bars.append((column * BIN + 0.5, round(base - height, 1), BIN - 1, round(height, 1)))
        row.lanes.append(Lane(state, base, bars))
    for column, line in sorted(firsts.items()):
        words = ", ".join(f"{counts[state][column]:,} {STATES.get(state, state)}" for state in names if counts[state][column])
        ends = sorted((line, lasts[column]))
        row.cells.append(Cell(column * BIN, f"{row.label}, lines {ends[0]} to {ends[1]}: {words}", line))
    return row


def densities(run):
    """The picture in which a bar stands for the entries of a bin."""
    total = len(run.steps)
    edges = [round(BIN * BINS * at / total) for at in range(total + 1)]
    rows, top = [], ROWS_TOP
    of_actor = {}
    for at, step in enumerate(run.steps):
        of_actor.setdefault(step.action.who, []).append((at, step))
    for actor in actors(run.steps):
        rows.append(density_row(actor, of_actor[actor], lambda at: BINS * at // total, top))
        top += rows[-1].height
    phases, policies, epochs = (merged(spans, 2 * BIN) for spans in bands(run, edges))
    return Picture(BIN * BINS, top + FOOT, True, phases, policies, epochs, rows, [])


def picture(run):
    """The picture of a run, or None where nothing happens in it."""
    if not run.steps:
        return None
    return densities(run) if len(run.steps) > DENSE else drawn(run)
