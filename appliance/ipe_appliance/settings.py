"""Tables of a TOML file, each of whose values is taken by its key, so that each mistake can name the key that it is in."""

from . import rules


class Mistake(Exception):
    """What is wrong with the description of an appliance, and the key that it is in."""

    def __init__(self, key, words):
        super().__init__(f"{key}: {words}" if key else words)
        self.key = key


def joined(key, name):
    """The key of a value in the table of a key; a name that isn't a bare one is quoted."""
    bare = rules.ID.fullmatch(name.lower())
    return ".".join(filter(None, [key, name if bare else f'"{name}"']))


class Table:
    """A table of the file with its key. Taking a value removes it, so that what is left are keys that nobody knows."""

    def __init__(self, key, values):
        if not isinstance(values, dict):
            raise Mistake(key, "is to be a table")
        self.key = key
        self.values = dict(values)
        self.known = []

    def __contains__(self, name):
        return name in self.values

    def mistake(self, name, words):
        return Mistake(joined(self.key, name), words)

    def take(self, name, default=None, needed=False):
        """The value of a key; without one the default, or a mistake where it is needed."""
        self.known.append(name)
        if name not in self.values:
            if needed:
                raise self.mistake(name, "is missing")
            return default
        return self.values.pop(name)

    def typed(self, name, kind, words, default, needed):
        value = self.take(name, default, needed)
        # A truth value is a number for Python, but not for TOML.
        if value is not default and (not isinstance(value, kind) or (kind is int and isinstance(value, bool))):
            raise self.mistake(name, f"is to be {words}")
        return value

    def text(self, name, default=None, needed=False, rule=None):
        """A text; where a rule is given, one that keeps it."""
        value = self.typed(name, str, "a text in quotes", default, needed)
        if value is not default and rule and not rule.fullmatch(value):
            raise self.mistake(name, f"{value!r} is to be {rules.RULES[rule]}")
        return value

    def number(self, name, least, most, default=None, needed=False):
        value = self.typed(name, int, "a number", default, needed)
        if value is not default and not least <= value <= most:
            raise self.mistake(name, f"{value:,} is to be from {least:,} to {most:,}")
        return value

    def flag(self, name, default=None, needed=False):
        return self.typed(name, bool, "true or false", default, needed)

    def items(self, name, default=None, needed=False):
        return self.typed(name, list, "a list in brackets", default, needed)

    def table(self, name, needed=False):
        """The table of a key, an empty one where it is missing."""
        value = self.take(name, {}, needed)
        return Table(joined(self.key, name), value)

    def tables(self, name):
        """The tables of a table of tables, by their names."""
        table = self.table(name)
        return [(inner, Table(joined(table.key, inner), value)) for inner, value in table.values.items()]

    def listed(self, name, needed=False):
        """The tables of a list of tables, counted from 1."""
        items = self.items(name, [], needed)
        return [Table(f"{joined(self.key, name)}[{number}]", value) for number, value in enumerate(items, 1)]

    def end(self):
        """Refuses keys that are left."""
        for name in self.values:
            raise self.mistake(name, "is no key of this place, which may have: " + ", ".join(sorted(set(self.known))))
