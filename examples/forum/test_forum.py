"""Tries the forum with all its parts, as a browser would: PEQUOD=/path/of/pequod python3 -m unittest test_forum, in this folder. It
is skipped where there is no PostgreSQL or no psycopg2."""

import pathlib
import re
import subprocess
import sys
import time
import unittest
import urllib.error
import urllib.parse
import urllib.request

FOLDER = pathlib.Path(__file__).resolve().parent
sys.path[:0] = [str(FOLDER), str(FOLDER.parent.parent / "clients" / "python")]
import bridging  # noqa: E402
from serving import PROGRAM, want_program  # noqa: E402

NASTY = "<script>alert('x')</script> | {brace} \u65e5\u672c"
SECONDS = 30


def setUpModule():
    want_program()
    if bridging.why_not():
        raise unittest.SkipTest(bridging.why_not())
    from start import Parts

    Forum.parts = Parts(PROGRAM, 0, subprocess.DEVNULL)
    unittest.addModuleCleanup(Forum.parts.stop)


class Forum(unittest.TestCase):
    parts = None

    def ask(self, place, **fields):
        """The status and the text of a page, after it was sent the fields if there are any. Where it leads on, it is followed."""
        body = urllib.parse.urlencode(fields).encode() if fields else None
        try:
            with urllib.request.urlopen(self.parts.address + place, body, timeout=SECONDS) as answer:
                return answer.status, answer.read().decode()
        except urllib.error.HTTPError as error:
            with error:
                return error.code, error.read().decode()

    def see(self, place, **fields):
        """The text of a page that there is, in one line without its tags. Each change has to show at once."""
        status, text = self.ask(place, **fields)
        self.assertEqual(status, 200, text)
        self.assertNotIn("class=late", text)
        return " ".join(re.sub("<[^>]*>", " ", text.partition("<main>")[2]).split())

    def badge(self, me):
        return re.search("<b id=badge>(-?[0-9]+)</b>", self.ask(me)[1])[1]

    def wait_for_page(self, place):
        """A page, as soon as there is one again."""
        end = time.monotonic() + SECONDS
        while self.ask(place)[0] != 200 and time.monotonic() < end:
            time.sleep(0.05)
        return self.see(place)

    def test_all_of_it(self):
        self.wait_for_page("")
        self.assertIn("None yet.", self.see(""))
        self.assertIn("Your threads Whales by ann 0 unread", self.see("ann/start", title="Whales", text="Where are they?"))
        self.assertIn("Latest Whales by ann 1 messages", self.see(""))
        self.assertIn("Whales ann karma 0 Where are they? 0", self.see("bob/1"))
        self.assertEqual(self.see("bob/7"), "There is no such thread")
        self.assertIn("bob karma 0 Off Nantucket.", self.see("bob/1/reply", text="Off Nantucket."))
        self.assertEqual((self.badge("ann"), self.badge("bob"), self.badge("cat")), ("1", "0", "0"))
        self.assertIn("bob karma 1 Off Nantucket. 1", self.see("ann/1/vote", number="2", amount="1"))
        self.assertIn("bob karma 2 Off Nantucket. 2", self.see("cat/1/vote", number="2", amount="1"))
        self.assertIn("bob karma 0 Off Nantucket. 0", self.see("cat/1/vote", number="2", amount="-1"))
        self.assertIn("bob karma 0 Off Nantucket. 0", self.see("bob/1/vote", number="2", amount="1"))
        self.see("ann/1/see", number="2")
        self.assertEqual(self.badge("ann"), "0")
        self.assertIn("Begun by friends None yet.", self.see("cat"))
        self.assertIn("Begun by friends Whales by ann", self.see("cat/befriend", other="ann"))
        self.see("ann/start", title="Ropes", text=NASTY)
        self.assertIn("Begun by friends Ropes by ann Whales by ann", self.see("cat"))
        self.assertNotIn("<script>", self.ask("cat/2")[1])
        self.assertIn("2 messages", self.see(""))
        before = [self.see(place) for place in ("", "ann", "bob/1", "cat", "cat/2")]
        self.parts.restart_pequod()
        self.assertEqual([self.wait_for_page(place) for place in ("", "ann", "bob/1", "cat", "cat/2")], before)

    def test_what_is_wrong(self):
        for place, fields in (("ANN", {}), ("ann/1/2", {}), ("no/page/there/is", {})):
            self.assertEqual(self.ask(place, **fields)[0], 404)
        for place, fields in (
            ("ann/start", {"title": " ", "text": "x"}), ("AN/start", {"title": "x", "text": "y"}),
            ("ann/befriend", {"other": "ann"}), ("ann/befriend", {"other": "A|B"}),
            ("ann/1/vote", {"number": "1", "amount": "5"}), ("ann/vote", {"number": "1", "amount": "1"}),
        ):
            self.assertEqual(self.ask(place, **fields)[0], 400)
        self.assertEqual(self.ask("ann/77/reply", text="to nothing")[0], 503)


if __name__ == "__main__":
    unittest.main()
