"""A run: the request file and its transcript together. Every answer here is one that the transcript has."""

import functools
import re
from collections import Counter
from dataclasses import dataclass, field

from .listing import Action, Requests, Unreadable
from .transcript import Entry

ALLOWED, DENIED, PERMISSIVE, UNEVALUATED, CORRUPT = "allowed", "denied", "permissive", "unevaluated", "corrupt"
STATES = {
    ALLOWED: "allowed",
    DENIED: "denied",
    PERMISSIVE: "allowed though denied",
    UNEVALUATED: "not evaluated",
    CORRUPT: "allowed, but corrupt",
}
LOADED = re.compile(r'type=1422 policy_name="([^"]*)" policy_version=(\S+) ')
ACTIVATED = re.compile(r'type=1421 .* new_active_pol_name="([^"]*)" new_active_pol_version=(\S+) ')
ENFORCED = re.compile(r"type=1404 enforcing=([01]) ")
DENYING = re.compile(r'type=1420 .*action=DENY"')
NO_FILE = "(no file)"
# How many different answers of a file are told.
ANSWERS = 60


@dataclass
class Statement:
    """A statement of a policy: its line of the request file, and the answers that it gave by the state of the hook."""

    label: str
    text: str
    line: int
    answers: Counter = field(default_factory=Counter)


@dataclass
class Policy:
    """An accepted policy: its serial, the line of the command that brought it, and its text, as `statements_of` takes it."""

    serial: int
    name: str
    version: str
    line: int
    text: tuple

    @functools.cached_property
    def statements(self):
        return statements_of(*self.text)

    @property
    def title(self):
        return f"{self.name} {self.version}"


@dataclass
class Epoch:
    """A stretch in which neither the active policy nor a switch changes; `line` is that of the command that began it."""

    number: int
    line: int | None
    policy: Policy | None
    enforce: bool
    success_audit: bool
    answers: Counter = field(default_factory=Counter)


@dataclass(frozen=True)
class Step:
    """One entry of the printed order with the line that it answers."""

    entry: Entry
    action: Action
    epoch: Epoch
    state: str


@dataclass
class Answer:
    """Equal answers of hooks to one file: how many, and their lines."""

    label: str
    state: str
    by: str
    by_line: int | None
    lines: list = field(default_factory=list)


@dataclass
class FileAnswers:
    """A file with what each kind of hook answered, and what its content came to."""

    path: str
    line: int | None
    place: str
    seal: int | None
    answers: dict = field(default_factory=dict)
    contents: dict = field(default_factory=dict)

    @property
    def shown(self):
        """The answers that are told."""
        return list(self.answers.values())[:ANSWERS]

    @property
    def more(self):
        """How many more there are."""
        return max(0, len(self.answers) - ANSWERS)


@dataclass
class Run:
    """All of a run. `counts` and `firsts` have for each state of a hook how many there are, and the line of the first, 0 without
    one. `records` has the line and the text of each record by the serial of the policy that it is about."""

    requests: Requests
    steps: list = field(default_factory=list)
    policies: dict = field(default_factory=dict)
    epochs: list = field(default_factory=list)
    files: dict = field(default_factory=dict)
    records: dict = field(default_factory=dict)
    counts: Counter = field(default_factory=Counter)
    firsts: Counter = field(default_factory=Counter)
    refused: int = 0

    @property
    def hooks(self):
        return sum(self.counts.values())

    @property
    def commands(self):
        return len(self.steps) - self.hooks

    @property
    def corrupt(self):
        """Each file with what is corrupt of it, and the lines of the hooks that met it."""
        return [(file, content, lines) for file in self.files.values() for content, lines in file.contents.items()
                if not content.startswith("sha256:")]


def statements_of(lines, first):
    """The statements of a policy that was accepted, by the name that a transcript has for each. `first` is the number of its
    first line; a policy that has no lines of its own in the request file stands on one line alone, which is `-first`."""
    found, rules, header = {}, 0, True
    for offset, line in enumerate(lines):
        words = re.split(r"[ \t\r]+", line.partition("#")[0].strip(" \t\r"))
        if words == [""]:
            continue
        if header:
            header = False
            continue
        if words[0] != "DEFAULT":
            rules += 1
            key, label = f"rule:{rules}", f"rule {rules}"
        elif len(words) == 3:
            key = f"op:{words[1].removeprefix('op=')}"
            label = f"default of {words[1].removeprefix('op=')}"
        else:
            key, label = "global", "global default"
        found[key] = Statement(label, " ".join(words), first + offset if first > 0 else -first)
    return found


def written_lines(requests, action):
    """The lines of what a command writes, and the number of the first, as `statements_of` takes them."""
    kind, word = action.content
    if kind == "text":
        text = requests.texts[word]
        return text.lines, text.line + 1
    written = bytes.fromhex(word).decode("latin-1") if kind == "hex" and word != "-" else word
    return written.split("\n"), -action.line


class Joiner:
    """Goes along the entries once, and keeps what holds at each."""

    def __init__(self, requests):
        self.run = Run(requests)
        self.serials = {}
        self.epoch = Epoch(0, None, None, True, False)
        self.run.epochs.append(self.epoch)
        for path, file in requests.files.items():
            self.run.files[path] = FileAnswers(path, file.line, file.place, requests.seals.get(path))

    def join(self, entries):
        for entry in entries:
            action = self.run.requests.actions.get(entry.line)
            if not action or action.who != entry.who:
                raise Unreadable(f"the transcript is of another request file: line {entry.line} has no answer of {entry.who}")
            if action.hook:
                self.hook(entry, action)
            else:
                self.command(entry, action)
        return self.run

    def command(self, entry, action):
        for record in entry.records:
            loaded = LOADED.match(record)
            if loaded:
                serial = len(self.run.policies) + 1
                text = written_lines(self.run.requests, action)
                self.run.policies[serial] = Policy(serial, loaded[1], loaded[2], action.line, text)
                self.serials[loaded[1]] = serial
        if entry.epoch != self.epoch.number:
            self.begin(entry, action)
        for record in entry.records:
            loaded = LOADED.match(record)
            self.record(self.run.policies[self.serials[loaded[1]]] if loaded else self.epoch.policy, record, entry)
        self.run.refused += entry.code != 0
        self.run.steps.append(Step(entry, action, self.epoch, "done" if entry.code == 0 else "refused"))

    def begin(self, entry, action):
        """A command that began an epoch changed one thing: what its record says, or the switch that has no record."""
        old = self.epoch
        policy, enforce, audit = old.policy, old.enforce, old.success_audit
        for record in entry.records:
            activated, enforced = ACTIVATED.match(record), ENFORCED.match(record)
            if activated:
                policy = self.run.policies[self.serials[activated[1]]]
            elif enforced:
                enforce = enforced[1] == "1"
        if action.verb == "success_audit":
            audit = not audit
        self.epoch = Epoch(entry.epoch, action.line, policy, enforce, audit)
        self.run.epochs.append(self.epoch)

    def record(self, policy, text, entry):
        self.run.records.setdefault(policy.serial if policy else None, []).append((entry.line, text))

    def state(self, entry):
        if entry.content and not entry.content.startswith("sha256:"):
            return CORRUPT
        if entry.epoch is None:
            return UNEVALUATED
        if entry.code:
            return DENIED
        return PERMISSIVE if any(map(DENYING.match, entry.records)) else ALLOWED

    def hook(self, entry, action):
        run, state, policy, statement = self.run, self.state(entry), None, None
        if entry.serial is not None:
            policy = run.policies[entry.serial]
            key = f"op:{action.operation}" if entry.by == "op" else entry.by
            statement = policy.statements[key]
            statement.answers[state] += 1
            by = f"{statement.label} of {policy.title}"
        else:
            by = "no active policy" if entry.epoch is not None else "not evaluated"
        for record in entry.records:
            self.record(policy, record, entry)
        run.counts[state] += 1
        run.firsts.setdefault(state, action.line)
        self.epoch.answers[state] += 1
        run.steps.append(Step(entry, action, self.epoch, state))
        file = run.files.setdefault(action.path or NO_FILE, FileAnswers(NO_FILE, None, "", None))
        equal = (action.label, state, entry.serial, entry.by)
        if equal not in file.answers:
            file.answers[equal] = Answer(action.label, state, by, statement.line if statement else None)
        file.answers[equal].lines.append(action.line)
        if entry.content:
            file.contents.setdefault(entry.content, []).append(action.line)


def join(requests, entries):
    """The run of a request file and the entries of its transcript."""
    try:
        return Joiner(requests).join(entries)
    except (KeyError, ValueError) as error:
        raise Unreadable(f"the transcript is of another request file: {error} isn't in it") from None
