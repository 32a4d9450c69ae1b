"""The programs of others that are run, and the Debian packages that they are in."""

import os
import shutil
import subprocess

PACKAGES = {
    "debugfs": "e2fsprogs",
    "fsverity": "fsverity",
    "mke2fs": "e2fsprogs",
    "veritysetup": "cryptsetup-bin",
}

# The system's tools stand in sbin, which isn't on everyone's path.
PATH = os.environ.get("PATH", os.defpath) + ":/usr/sbin:/sbin"


class ToolError(Exception):
    """A tool that is missing or that failed; the text says which and why."""


def find(name):
    """The path of a tool, or None where it is missing."""
    return shutil.which(name, path=PATH)


def missing(names):
    """Each missing tool of these, as a line that names its package."""
    return [f"{name} is missing: it is in the package {PACKAGES[name]}" for name in names if not find(name)]


def run(name, *arguments, cwd=None, typed=""):
    """Runs a tool with a text as its input, and returns what it prints on the standard output and on the standard error."""
    program = find(name)
    if not program:
        raise ToolError(missing([name])[0])
    # The tools' own words are read, so they are to be the English ones.
    environment = {**os.environ, "LC_ALL": "C"}
    ended = subprocess.run([program, *arguments], cwd=cwd, env=environment, input=typed.encode(), capture_output=True)
    printed, told = (part.decode("utf-8", "surrogateescape") for part in (ended.stdout, ended.stderr))
    if ended.returncode:
        raise ToolError(f"{name} ended with status {ended.returncode}: {told.strip() or printed.strip()}")
    return printed, told
