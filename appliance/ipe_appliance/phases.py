"""The phases of an appliance's TOML file: what the administrator and the workers do, as lines of the request file."""

import fnmatch
from dataclasses import dataclass, field

from . import rules
from .reader import INITIAL, Reader
from .settings import Mistake

COMMANDS = ("load", "activate", "update", "delete", "enforce", "success_audit", "read", "write")
HOOKS = ("exec", "mmap", "mprotect", "read", "load")
NO_FILE = "-"


@dataclass
class Counts:
    """How much of each limit is used: numbers of lines, and bytes."""

    commands: int = 0
    hooks: int = 0
    fetched: int = 0
    read_back: int = 0


@dataclass
class Phases:
    """The lines of each phase, in order. `reader` has what stands before them, and collects the mistakes."""

    reader: Reader
    lines: list = field(default_factory=list)
    counts: Counts = field(default_factory=Counts)

    def read(self):
        for number, table in enumerate(self.reader.document.listed("phase"), 1):
            with self.reader.collecting():
                if number > rules.PHASES:
                    raise Mistake(table.key, f"a request file has at most {rules.PHASES:,} phases")
                self.lines.append("phase")
                for action in table.listed("do", needed=True):
                    with self.reader.collecting():
                        self.action(action)
                table.end()
        return self.lines

    def action(self, table):
        hook = "worker" in table
        verbs = [verb for verb in (HOOKS if hook else COMMANDS) if verb in table]
        if len(verbs) != 1:
            words = "a worker does one of " if hook else "without a worker it is to have one of "
            raise Mistake(table.key, f"{words}{', '.join(HOOKS if hook else COMMANDS)}; it has {', '.join(verbs) or 'none'}")
        times = table.number("times", 1, rules.HOOKS, default=1)
        lines, size = self.hook(table, verbs[0]) if hook else self.command(table, verbs[0], times)
        table.end()
        key = f"{table.key}.{verbs[0]}"
        if hook:
            self.limit(key, "hooks", len(lines) * times, rules.HOOKS, "hook lines")
        else:
            self.limit(key, "commands", len(lines) * times, rules.COMMANDS, "command lines")
        self.limit(key, "fetched", size * times, rules.FETCHED, "bytes of texts that are written and files that are read")
        self.lines.extend(lines * times)

    def limit(self, key, name, more, most, words):
        total = getattr(self.counts, name) + more
        if total > most:
            raise Mistake(key, f"with this there are {total:,} {words}; a request file has at most {most:,}")
        setattr(self.counts, name, total)

    # Commands.

    def policy(self, table, verb):
        """The name of the policy's text that a command is about."""
        name = table.text(verb, needed=True)
        if name not in self.reader.appliance.names:
            raise table.mistake(verb, f"there is no policy {name!r} in policies")
        return name

    def folder(self, table, verb, name):
        """The folder of nodes of the policy whose text has a name."""
        if not self.reader.appliance.names[name]:
            raise table.mistake(verb, f"the first line of policies.{name} has no policy_name=; write the node itself by `write`")
        return f"policies/{self.reader.appliance.names[name]}"

    def command(self, table, verb, times):
        """The line of a command, and how many bytes of a text it writes."""
        who = table.text("by", default="admin")
        if who not in ("admin", "guest"):
            raise table.mistake("by", f"{who!r} is to be admin or guest")
        if verb == "read":
            if who == "guest":
                raise table.mistake("by", "a read needs no right: leave it out")
            return [self.read_back(table, times)], 0
        if verb in ("enforce", "success_audit"):
            return [f"{who} write {verb} echo {int(table.flag(verb, needed=True))}"], 0
        if verb == "write":
            node, content, name = table.text("write", needed=True, rule=rules.NODE), *self.content(table)
        else:
            name = self.policy(table, verb)
            content = f"text {name}" if verb in ("load", "update") else "echo 1"
            last = "active" if verb == "activate" else verb
            node = "new_policy" if verb == "load" else f"{self.folder(table, verb, name)}/{last}"
        if not rules.NODE.fullmatch(node):
            raise table.mistake(verb, f"the node {node!r} is to be {rules.RULES[rules.NODE]}")
        size = len(self.reader.appliance.texts[name]) if content.startswith("text ") else 0
        return [f"{who} write {node} {content}"], size

    def content(self, table):
        """What `write` writes, and the name of the text where it is one."""
        given = [name for name in ("text", "echo", "hex") if name in table]
        if len(given) != 1:
            raise table.mistake("write", "needs one of text, echo and hex beside it")
        if given == ["text"]:
            name = self.policy(table, "text")
            return f"text {name}", name
        return f"{given[0]} {table.text(given[0], rule=rules.WORD if given == ['echo'] else rules.HEX)}", None

    def read_back(self, table, times):
        node = table.text("read", needed=True, rule=rules.NODE)
        if node.endswith(("/pkcs7", "/policy")):
            longest = max([rules.READ_LEAST, *map(len, self.reader.appliance.texts.values())])
            self.limit(f"{table.key}.read", "read_back", longest * times, rules.READ_BACK, "bytes that are read back")
        return f"admin read {node}"

    # Hooks.

    def workers(self, table):
        last = self.reader.appliance.workers
        given = table.take("worker")
        if given == "all":
            return range(1, last + 1)
        numbers = given if isinstance(given, list) else [given]
        for number in numbers:
            if not isinstance(number, int) or isinstance(number, bool) or not 1 <= number <= last:
                raise table.mistake("worker", f'{number!r} is to be a number from 1 to {last}, a list of them or "all"')
        return numbers

    def protection(self, table):
        """The bits of `prot`: a number, or letters of r, w and x."""
        value = table.take("prot", "rx")
        if isinstance(value, str) and value and set(value) <= set("rwx"):
            return sum(bit for letter, bit in (("r", 1), ("w", 2), ("x", 4)) if letter in value)
        if isinstance(value, int) and not isinstance(value, bool) and 0 <= value <= rules.NUMBER:
            return value
        raise table.mistake("prot", f'{value!r} is to be letters of r, w and x, or a number from 0 to {rules.NUMBER:,}')

    def kind(self, table, name):
        kind = table.text(name, needed=True)
        if kind not in rules.KINDS:
            raise table.mistake(name, f"{kind!r} is to be one of {', '.join(rules.KINDS)}")
        return kind

    def chosen(self, table, verb):
        """The paths of the files that a hook is about: one, a list, or all that `of` and `match` leave."""
        given = table.take(verb)
        key = f"{table.key}.{verb}"
        if given != "all":
            paths = given if isinstance(given, list) else [given]
            for path in paths:
                if not isinstance(path, str):
                    raise Mistake(key, 'is to be a path, a list of paths, or "all"')
                if not (verb == "mprotect" and path == NO_FILE):
                    self.reader.known_file(key, path)
            return paths
        sections = self.reader.appliance.sections
        section = table.text("of")
        if section is not None and section not in sections:
            names = ", ".join(sections) or "none"
            raise table.mistake("of", f"{section!r} is to be one of the volumes, plain devices and {INITIAL!r}: {names}")
        pattern = table.text("match", default="*")
        paths = [path for path, file in sorted(self.reader.appliance.files.items())
                 if section in (None, file.section) and fnmatch.fnmatchcase(path, pattern)
                 and (verb != "exec" or file.executable)]
        if not paths:
            raise Mistake(key, "there is no such file: `of` and `match` leave none")
        return paths

    def hook(self, table, verb):
        """The lines of an action of workers, and how many bytes its files have that are read."""
        workers = self.workers(table)
        pid = table.number("pid", 0, rules.NUMBER)
        comm = table.text("comm", rule=rules.COMM)
        before, after, paths = "", "", [None]
        if verb == "load":
            after = self.kind(table, "load")
        else:
            if verb == "read":
                before = self.kind(table, "kind")
            elif verb == "mmap":
                before = str(self.protection(table))
            elif verb == "mprotect":
                before = f"{int(table.flag('was', default=False))} {self.protection(table)}"
            paths = self.chosen(table, verb)
        lines, size = [], 0
        for worker in workers:
            for path in paths:
                name = (path or after).rpartition("/")[2][:15]
                named = comm or (name if rules.COMM.fullmatch(name) and name != NO_FILE else f"worker{worker}")
                who = f"w{worker} {verb} {100 + worker if pid is None else pid} {named}"
                lines.append(" ".join(filter(None, [who, before, after if path is None else path])))
                if verb in ("exec", "read"):
                    size += self.reader.appliance.files[path].size
        return lines, size
