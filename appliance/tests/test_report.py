"""report: its counts are those of the transcript, words come out as text, each link has a place, and many hooks stay usable."""

import html.parser
import pathlib
import re
import resource
import subprocess
import tempfile
import unittest

from . import made, needs

REPORT = pathlib.Path(__file__).resolve().parent.parent / "report"
EXAMPLES = needs.ROOT / "examples"
# The patterns of grep that count the hooks of a transcript by their answer.
GREP = {
    "denied": r"^line=[0-9]* w[0-9]* code=-13 ",
    "unevaluated": r"^line=[0-9]* w[0-9]* code=0 epoch=- ",
    "permissive": r"^type=1420 .* enforcing=0 .*action=DENY\"$",
    "corrupt": r"^content \(corrupt\|bad-descriptor\) ",
}
ALL = r"^line=[0-9]* w[0-9]* "


class Page(html.parser.HTMLParser):
    """The names of the elements, the places, the links and the text of a page."""

    def __init__(self, text):
        super().__init__()
        self.names, self.places, self.links, self.words, self.attributes = [], set(), [], [], set()
        self.feed(text)

    def handle_starttag(self, name, attributes):
        self.names.append(name)
        for key, value in attributes:
            self.attributes.add(key)
            if key == "id":
                self.places.add(value)
            if key in ("href", "src"):
                self.links.append(value)

    handle_startendtag = handle_starttag

    def handle_data(self, data):
        self.words.append(data)


class Report(unittest.TestCase):
    def setUp(self):
        folder = tempfile.TemporaryDirectory()
        self.addCleanup(folder.cleanup)
        self.folder = pathlib.Path(folder.name)

    def report(self, requests, transcript, *options):
        (self.folder / "run.requests").write_bytes(requests)
        (self.folder / "transcript").write_bytes(transcript)
        return subprocess.run([REPORT, *options, "run.requests", "transcript"], cwd=self.folder, capture_output=True, text=True)

    def counted(self, pattern):
        found = subprocess.run(["grep", "-c", pattern, "transcript"], cwd=self.folder, stdout=subprocess.PIPE, text=True)
        return int(found.stdout)

    def examples(self):
        for requests in sorted(EXAMPLES.glob("**/*.requests")):
            yield requests.stem, requests.read_bytes(), requests.with_suffix(".transcript").read_bytes()
        yield "made", *made.run(400)

    def compare(self, text):
        """Compares the counts of a page with those that grep finds in the transcript."""
        told = {state: int(number) for state, number in re.findall(r'id="count-(\w+)" data-count="(\d+)"', text)}
        wanted = {state: self.counted(pattern) for state, pattern in GREP.items()}
        wanted["allowed"] = self.counted(ALL) - sum(wanted.values())
        self.assertEqual(told, wanted)

    @needs.jinja
    def test_counts_are_those_that_grep_finds(self):
        for name, requests, transcript in self.examples():
            with self.subTest(name):
                ended = self.report(requests, transcript)
                self.assertEqual((ended.stderr, ended.returncode), ("", 0))
                self.compare(ended.stdout)

    @needs.jinja
    def test_each_link_has_its_place_and_nothing_comes_from_elsewhere(self):
        for name, requests, transcript in self.examples():
            with self.subTest(name):
                page = Page(self.report(requests, transcript).stdout)
                self.assertLessEqual({link for link in page.links if not link.startswith("#")}, set())
                self.assertLessEqual({link[1:] for link in page.links}, page.places)
                self.assertFalse({"script", "link", "img", "iframe"} & set(page.names))

    @needs.jinja
    def test_words_with_marks_of_html_are_text(self):
        plain = Page(self.report(*made.run(400, comm="sim")).stdout)
        for comm in ("<script>alert()", "'><b>&amp;</b>", "&#60;i&#62;"):
            with self.subTest(comm):
                page = Page(self.report(*made.run(400, comm=comm)).stdout)
                self.assertEqual((page.names, page.attributes), (plain.names, plain.attributes))
                self.assertIn(f'comm="{comm}"', "".join(page.words))

    def test_the_summary_counts_the_same(self):
        requests, transcript = made.run(400)
        text = self.report(requests, transcript, "--text").stdout
        for state, name in {"denied": "denied", "unevaluated": "not evaluated", "corrupt": "allowed, but corrupt"}.items():
            self.assertRegex(text, rf"(?m)^ +{self.counted(GREP[state])}  {name}$")
        self.assertIn("content corrupt volume level=0 block=3", text)
        self.assertIn("p 1.1.0, policy 2, brought by line", text)

    def test_a_rule_that_never_decided_is_told(self):
        requests, transcript = ((EXAMPLES / f"replaced_policy.{kind}").read_bytes() for kind in ("requests", "transcript"))
        text = self.report(requests, transcript, "--text").stdout
        self.assertIn("rule 1, line 11: op=KMODULE boot_verified=TRUE action=ALLOW: never decided", text)

    @needs.jinja
    def test_a_refused_request_file_is_shown_by_its_line(self):
        ended = self.report(b"ipe-requests 1\nworkers <2>\nend\n", b"refused line 2: Number\n")
        self.assertEqual(ended.returncode, 0)
        self.assertIn("refused line 2: Number", ended.stdout)
        self.assertIn("workers &lt;2&gt;", ended.stdout)

    def test_a_transcript_of_another_file_is_told(self):
        requests, transcript = ((EXAMPLES / f"{name}").read_bytes() for name in ("hooks.requests", "replaced_policy.transcript"))
        for answers in (transcript, b"ipe-transcript 1\nphase 1\n", b""):
            ended = self.report(requests, answers, "--text")
            self.assertEqual((ended.stdout, ended.returncode), ("", 3))
            self.assertIn("report: ", ended.stderr)

    @needs.jinja
    def test_many_hooks_are_drawn_as_densities(self):
        run = made.run(200_000)
        before = resource.getrusage(resource.RUSAGE_CHILDREN).ru_utime
        ended = self.report(*run)
        self.assertLess(resource.getrusage(resource.RUSAGE_CHILDREN).ru_utime - before, 60)
        self.assertEqual((ended.stderr, ended.returncode), ("", 0))
        self.compare(ended.stdout)
        page = Page(ended.stdout)
        self.assertLess(len(ended.stdout), 24_000_000)
        self.assertLess(len(page.names) - page.names.count("span"), 30_000)
        self.assertLessEqual({link[1:] for link in page.links}, page.places)
