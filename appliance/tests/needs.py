"""What a test needs of the machine; where it is missing, the test is skipped, and says so."""

import importlib.util
import os
import pathlib
import shutil
import subprocess
import tempfile
import unittest

from ipe_appliance import tools as found

ROOT = pathlib.Path(__file__).resolve().parent.parent.parent
GATE = os.environ.get("IPEGATE", ROOT / "ipegate")
BROWSER = next(filter(None, map(shutil.which, ("chromium", "chromium-browser", "google-chrome"))), None)

gate = unittest.skipUnless("IPEGATE" in os.environ or shutil.which("rt"), "rt, which builds the gate, is missing")
jinja = unittest.skipUnless(importlib.util.find_spec("jinja2"), "Jinja2 is missing: it is in the package python3-jinja2")
browser = unittest.skipUnless(BROWSER, "Chromium is missing: it is in the package chromium")
mandoc = unittest.skipUnless(shutil.which("mandoc"), "mandoc is missing: it is in the package mandoc")


def tools(*names):
    missing = found.missing(names)
    return unittest.skipIf(missing, "; ".join(missing))


def run_browser(folder, *options):
    """Runs the browser without a window, its profile in a folder, and returns what it prints."""
    root = ["--no-sandbox"] if os.geteuid() == 0 else []
    fixed = ["--headless=new", "--disable-gpu", "--hide-scrollbars", "--no-first-run", f"--user-data-dir={folder}/profile"]
    return subprocess.run([BROWSER, *fixed, *root, *options], stdout=subprocess.PIPE, stderr=subprocess.DEVNULL, text=True,
                          timeout=300).stdout


def browser_runs():
    """Whether the browser shows a page on this machine at all."""
    with tempfile.TemporaryDirectory(ignore_cleanup_errors=True) as folder:
        try:
            return "<i>seen</i>" in run_browser(folder, "--dump-dom", "data:text/html,<i>seen</i>")
        except subprocess.TimeoutExpired:
            return False
