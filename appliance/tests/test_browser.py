"""The page in a browser: at the widths of a phone and of a desk, in both colour schemes, nothing is cut off, and nothing runs.

With the environment variable SCREENSHOTS set to a folder, pictures of the page are kept there, for people to look at.
"""

import html
import json
import os
import pathlib
import re
import subprocess
import tempfile
import unittest

from . import made, needs

REPORT = pathlib.Path(__file__).resolve().parent.parent / "report"
EXAMPLES = needs.ROOT / "examples"
WIDTHS = (360, 1400)
HEIGHT = 1800
# By Blink's numbers of the schemes; the second is the colour of the paper there.
SCHEMES = {"light": (1, "rgb(255, 255, 255)"), "dark": (0, "rgb(18, 22, 27)")}
# A browser's window may be wider than what is asked for, a frame isn't. The script tells what each frame shows.
FRAMES = """<!doctype html><meta charset="utf-8"><meta name="color-scheme" content="light dark"><body style="margin:0">{frames}
<script>
onload = () => document.body.dataset.seen = JSON.stringify([...document.querySelectorAll("iframe")].map(frame => {{
  const page = frame.contentDocument;
  return {{
    width: page.documentElement.scrollWidth,
    paper: getComputedStyle(page.body).backgroundColor,
    title: page.title,
    tabs: page.querySelectorAll("a[href]:not([tabindex]), [tabindex='0'], summary").length,
  }};
}}));
</script>"""
FRAME = '<iframe src="{page}" style="border:0;width:{width}px;height:{height}px"></iframe>'


@needs.jinja
@needs.browser
class Browser(unittest.TestCase):
    @classmethod
    def setUpClass(cls):
        if not needs.browser_runs():
            raise unittest.SkipTest("Chromium is there, but it shows no page on this machine")

    def setUp(self):
        folder = tempfile.TemporaryDirectory(ignore_cleanup_errors=True)
        self.addCleanup(folder.cleanup)
        self.folder = pathlib.Path(folder.name)

    def page(self, name, requests, transcript, page="page.html"):
        (self.folder / name).write_bytes(requests)
        (self.folder / "transcript").write_bytes(transcript)
        ended = subprocess.run([REPORT, name, "transcript"], cwd=self.folder, stdout=subprocess.PIPE)
        (self.folder / page).write_bytes(ended.stdout)

    def browser(self, shown, scheme, *options):
        """Runs the browser on frames that show pages at widths."""
        frames = self.folder / "frames.html"
        frames.write_text(FRAMES.format(frames="".join(FRAME.format(page=page, width=width, height=HEIGHT)
                                                       for page, width in shown)))
        return needs.run_browser(self.folder, "--allow-file-access-from-files", "--virtual-time-budget=20000",
                                 f"--blink-settings=preferredColorScheme={SCHEMES[scheme][0]}",
                                 f"--window-size={max(width for _, width in shown)},{HEIGHT}", *options, frames.as_uri())

    def seen(self, shown, scheme):
        """What the frames say of their pages."""
        found = re.search(r'data-seen="([^"]*)"', self.browser(shown, scheme, "--dump-dom"))
        self.assertTrue(found, "the browser didn't come to the end of the page")
        return json.loads(html.unescape(found[1]))

    def keep(self, shown, scheme):
        if "SCREENSHOTS" in os.environ:
            for page, width in shown:
                name = f"{pathlib.Path(page).stem}-{width}-{scheme}.png"
                self.browser([(page, width)], scheme, f"--screenshot={pathlib.Path(os.environ['SCREENSHOTS']).resolve() / name}")

    def test_each_width_and_colour_scheme(self):
        example = [(EXAMPLES / f"replaced_policy.{kind}").read_bytes() for kind in ("requests", "transcript")]
        runs = {"example.html": example, "marks.html": made.run(400), "densities.html": made.run(5_000)}
        for page, run in runs.items():
            self.page("run.requests", *run, page=page)
        shown = [(page, width) for page in runs for width in WIDTHS]
        for scheme, (_, paper) in SCHEMES.items():
            for (page, width), seen in zip(shown, self.seen(shown, scheme), strict=True):
                with self.subTest(page=page, width=width, scheme=scheme):
                    self.assertEqual((seen["width"], seen["paper"]), (width, paper))
                    self.assertGreater(seen["tabs"], 20)
            self.keep(shown, scheme)

    def test_nothing_of_a_name_runs(self):
        name = "<img src=x onerror=\"document.title='ran'\">.requests"
        self.page(name, *made.run(400, comm="<script>alert()"))
        self.assertEqual(self.seen([("page.html", 1400)], "light")[0]["title"], f"{name}: what the gate says")
