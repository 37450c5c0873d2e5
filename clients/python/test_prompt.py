"""Tests of `python3 -m pequod HOST:PORT`: PEQUOD=path/of/the/built/program python3 -m unittest test_prompt"""

import contextlib
import io
import os
import select
import signal
import subprocess
import sys
import tempfile
import time
import unittest

try:
    import pty
except ImportError:
    pty = None

from pequod.prompt import Prompt, completions
from serving import FOLDER, HOST, Case, free_port, want_program

LINES = """\
join b|<x> = copy a|<x>

put a|1 some "plain" text
put "a|2 3" "two\\nlines"
put a|4 ""
get b|1
get "b|2 3"
get b|9
scan b|
scan b|1 b|2
remove a|1
scan b|1 b|2
"""
ANSWERS = """\
ok, at position 1
ok, at position 2
ok, at position 3
ok, at position 4
some "plain" text
(at position 4)
"two\\nlines"
(at position 4)
none (at position 4)
b|1    some "plain" text
b|2 3  "two\\nlines"
b|4    ""
(3 pairs, at position 4)
b|1  some "plain" text
(1 pair, at position 4)
ok, at position 5
(0 pairs, at position 5)
"""
WRONG_LINES = """\
fetch k|a
get
get k|a k|b
put k|a
scan k|a
put k|a "x
get ka
scan k|b k|a
join t|<u> = copy
join t|<u> = copy p|<w>
join b|<x> = copy a|<x>
join b|<y> = copy c|<y>
join a|<x> = copy b|<x>
put b|1 x
put k|a x
join d|<x> = copy c|<x>
drop 3
drop 3
drop three
drop ٣
"""
WRONG_ANSWERS = """\
'fetch' is no command; `help` says what there is
get takes a key; `help` says what there is
get takes a key; `help` says what there is
put takes a key and a text; `help` says what there is
scan takes a prefix that ends with |, or two bounds; `help` says what there is
this is no JSON text: Unterminated string starting at: line 1 column 1 (char 0); `help` says what there is
refused, key: this is no key: it is TABLE| and more, with a table's name of 1 to 64 bytes, and has at most 512 bytes
refused, range: these are no bounds: both lie in one table, the last may be TABLE}, and the first is not above the last
t|<u> = copy
            ^
refused, syntax: it ends too early: a pattern behind copy is wanted
refused, slots: the slots of the join do not go together (at position 0)
ok, at position 1
refused, clash: its output overlaps that of another join, the one at position 1 (at position 1)
refused, cycle: the joins would read one another in a circle: positions 2, 1 (at position 1)
refused, computed: a join makes the values of this key, the one at position 1 (at position 1)
ok, at position 2
ok, at position 3
ok, at position 4
refused, nojoin: no join stands that was declared there (at position 4)
drop takes the position of a join's declaration; `help` says what there is
drop takes the position of a join's declaration; `help` says what there is
"""


def setUpModule():
    want_program()


class Prompts(Case):
    def run_with(self, lines, port=None):
        """The status, what is printed, and what stands on standard error."""
        words = [sys.executable, "-m", "pequod", f"{HOST}:{port or self.server.port}"]
        ended = subprocess.run(words, input=lines, capture_output=True, cwd=FOLDER, text=True, timeout=60, check=False)
        return ended.returncode, ended.stdout, ended.stderr

    def test_each_command(self):
        self.assertEqual(self.run_with(LINES), (0, ANSWERS, ""))

    def test_what_is_wrong_or_refused(self):
        self.assertEqual(self.run_with(WRONG_LINES), (1, WRONG_ANSWERS, ""))

    def test_help_and_quit(self):
        status, printed, _ = self.run_with("help\nquit\nput k|a x\n")
        self.assertEqual(status, 0)
        self.assertIn("scan FIRST LAST", printed)
        self.assertEqual(self.client.get("k|a").position, 0)

    def test_nobody_there(self):
        status, printed, told = self.run_with("get k|a\n", free_port())
        self.assertEqual((status, printed), (1, ""))
        self.assertIn("no connection to", told)

    def test_a_restart(self):
        prompt = Prompt(self.client)
        with contextlib.redirect_stdout(io.StringIO()) as printed:
            self.assertTrue(prompt.do("put k|a x"))
            self.server.restart()
            self.assertFalse(prompt.do("get k|a"))
            self.assertTrue(prompt.do("get k|a"))
            self.assertIsNone(prompt.do("quit"))
        _, lost, note, answer = printed.getvalue().splitlines()
        self.assertTrue(lost.startswith("error: the link was lost"))
        self.assertEqual(note, "note: the server was started anew: it is at position 0, and was at 1 before")
        self.assertEqual(answer, "none (at position 0)")

    @unittest.skipIf(pty is None, "there are no pseudo terminals")
    def test_a_terminal(self):
        with tempfile.TemporaryDirectory() as folder:
            history = os.path.join(folder, "history")
            for lines in (
                (("put k|ann|1 x", "at position 1"),),
                (("\x1b[A\x1b[A", "at position 2"),),
                (("scan k|", "(1 pair, at position 2)"), ("ge\tk|a\t1", "(at position 2)")),
            ):
                with Terminal(f"{HOST}:{self.server.port}", history) as terminal:
                    for line, answer in lines:
                        terminal.wait_for("> ")
                        terminal.write(line + "\n")
                        terminal.wait_for(answer)
                    terminal.wait_for("> ")
                    terminal.write("quit\n")
            with open(history, encoding="utf-8") as file:
                lines = file.read().splitlines()
        self.assertEqual(lines, ["put k|ann|1 x", "quit", "put k|ann|1 x", "quit", "scan k|", "get k|ann|1", "quit"])


class Terminal:
    """A prompt in a pseudo terminal, with what it printed and was not waited for yet."""

    def __init__(self, address, history):
        self.left = b""
        self.process, self.file = pty.fork()
        if self.process == 0:
            os.chdir(FOLDER)
            os.environ.update(PEQUOD_HISTORY=history, TERM="dumb")
            os.execv(sys.executable, [sys.executable, "-m", "pequod", address])

    def write(self, text):
        os.write(self.file, text.encode())

    def wait_for(self, text):
        """Waits until this is printed, and forgets it and all before it."""
        end = time.monotonic() + 20
        while text.encode() not in self.left:
            if not select.select([self.file], [], [], max(0.0, end - time.monotonic()))[0]:
                raise AssertionError(f"{text!r} does not come in {self.left!r}")
            self.left += os.read(self.file, 4_096)
        self.left = self.left.partition(text.encode())[2]

    def __enter__(self):
        return self

    def __exit__(self, kind, *_):
        if kind is not None:
            os.kill(self.process, signal.SIGKILL)
        os.waitpid(self.process, 0)
        os.close(self.file)


class Completions(unittest.TestCase):
    def test_commands_and_keys(self):
        keys = {"p|ann|1", "p|ann|2", "p|bob|1", "karma|ann"}
        self.assertEqual(completions("re", keys, True), ["remove "])
        self.assertEqual(completions("", keys, False), ["karma|", "p|"])
        self.assertEqual(completions("p|", keys, False), ["p|ann|", "p|bob|"])
        self.assertEqual(completions("p|ann|", keys, False), ["p|ann|1", "p|ann|2"])
        self.assertEqual(completions("x", keys, False), [])


if __name__ == "__main__":
    unittest.main()
