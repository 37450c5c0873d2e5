"""Tests of Prometheus' text format and of its listener, without a server: python3 -m unittest test_exposition"""

import http.client
import threading
import unittest

from pequod.exposition import CONTENT_TYPE, Counter, Gauge, Histogram, Listener, page


def counter(*added, labels=()):
    """A counter to which each amount was added."""
    made = Counter("a_total", "What came.", labels)
    for each in added:
        made.add(*each)
    return made


def gauge(*given, labels=()):
    made = Gauge("a", "How it is.", labels)
    for each in given:
        made.set(*each)
    return made


def histogram(*seen, labels=()):
    made = Histogram("a_seconds", "How long.", (0.125, 0.5, 2), labels)
    for each in seen:
        made.observe(*each)
    return made


COUNTER = "# HELP a_total What came.\n# TYPE a_total counter\n"
GAUGE = "# HELP a How it is.\n# TYPE a gauge\n"
HISTOGRAM = "# HELP a_seconds How long.\n# TYPE a_seconds histogram\n"
# What was counted, and its text by the rules of the format: https://prometheus.io/docs/instrumenting/exposition_formats
TEXTS = (
    ("a counter without labels stands at 0 first", counter(), COUNTER + "a_total 0\n"),
    ("a counter grows", counter((2,), (3,)), COUNTER + "a_total 5\n"),
    ("a counter of parts", counter((0.5,)), COUNTER + "a_total 0.5\n"),
    ("a counter with labels has no sample first", counter(labels=("kind",)), COUNTER),
    (
        "one sample for each combination", counter((1, "put", "x"), (0, "get", "x"), (2, "put", "x"), labels=("kind", "of")),
        COUNTER + 'a_total{kind="put",of="x"} 3\na_total{kind="get",of="x"} 0\n',
    ),
    (
        "a label's value is escaped", counter((1, 'a"b\\c\nd}'), labels=("kind",)),
        COUNTER + 'a_total{kind="a\\"b\\\\c\\nd}"} 1\n',
    ),
    ("a help text is escaped", Counter("b_total", 'a"b\\c\nd'), '# HELP b_total a"b\\\\c\\nd\n# TYPE b_total counter\nb_total 0\n'),
    ("a gauge that was not set", gauge(), GAUGE),
    ("a gauge rises and falls", gauge((3,), (-1.5,)), GAUGE + "a -1.5\n"),
    (
        "no number and no end", gauge((float("nan"), "x"), (float("inf"), "y"), (float("-inf"), "z"), labels=("of",)),
        GAUGE + 'a{of="x"} NaN\na{of="y"} +Inf\na{of="z"} -Inf\n',
    ),
    ("a great number", gauge((2 ** 48 - 1,)), GAUGE + "a 281474976710655\n"),
    (
        "a histogram that saw nothing", histogram(),
        HISTOGRAM + 'a_seconds_bucket{le="0.125"} 0\na_seconds_bucket{le="0.5"} 0\na_seconds_bucket{le="2.0"} 0\n'
        'a_seconds_bucket{le="+Inf"} 0\na_seconds_sum 0.0\na_seconds_count 0\n',
    ),
    (
        "a value at a bound lies below it", histogram((0.5,), (0.25, 2), (0.125,), (4.0,)),
        HISTOGRAM + 'a_seconds_bucket{le="0.125"} 1\na_seconds_bucket{le="0.5"} 4\na_seconds_bucket{le="2.0"} 4\n'
        'a_seconds_bucket{le="+Inf"} 5\na_seconds_sum 5.125\na_seconds_count 5\n',
    ),
    (
        "a histogram with a label", histogram((1.0, 1, "put"), labels=("kind",)),
        HISTOGRAM + 'a_seconds_bucket{kind="put",le="0.125"} 0\na_seconds_bucket{kind="put",le="0.5"} 0\n'
        'a_seconds_bucket{kind="put",le="2.0"} 1\na_seconds_bucket{kind="put",le="+Inf"} 1\n'
        'a_seconds_sum{kind="put"} 1.0\na_seconds_count{kind="put"} 1\n',
    ),
)
WRONG = (
    ("a counter without _total", lambda: Counter("a", "")),
    ("a name with a hyphen", lambda: Gauge("a-b", "")),
    ("no name", lambda: Gauge("", "")),
    ("a label with a colon", lambda: Gauge("a", "", ("b:c",))),
    ("a label of the format's own", lambda: Histogram("a", "", (1,), ("le",))),
    ("a label that is kept for the collector", lambda: Gauge("a", "", ("__b",))),
    ("bounds that fall", lambda: Histogram("a", "", (2, 1))),
    ("no bounds", lambda: Histogram("a", "", ())),
    ("a value too few", lambda: counter(labels=("kind",)).add(1)),
    ("a value too many", lambda: gauge((1, "x"))),
    ("a histogram's value too many", lambda: histogram((1.0, 1, "x"))),
    ("a counter that falls", lambda: counter((-1,))),
)


class Texts(unittest.TestCase):
    def test_texts(self):
        for what, metric, wanted in TEXTS:
            with self.subTest(what):
                self.assertEqual(page([metric]), wanted)

    def test_several(self):
        self.assertEqual(page([counter(), gauge((1,))]), f"{COUNTER}a_total 0\n{GAUGE}a 1\n")

    def test_what_is_refused(self):
        for what, make in WRONG:
            with self.subTest(what), self.assertRaises(ValueError):
                make()

    def test_a_gauge_that_is_not_known_any_more(self):
        known = gauge((1, "x"), (2, "y"), labels=("of",))
        known.clear("x")
        known.clear("z")
        self.assertEqual(page([known]), GAUGE + 'a{of="y"} 2\n')

    def test_what_a_counter_has(self):
        made = counter((2, "x"), labels=("of",))
        self.assertEqual((made.value("x"), made.value("y")), (2, 0))


class Listeners(unittest.TestCase):
    def listen(self, text, host="127.0.0.1"):
        listener = Listener(host, 0, text)
        self.addCleanup(listener.close)
        return listener

    def ask(self, listener, path="/metrics", method="GET", host="127.0.0.1"):
        """The status, the type and the body."""
        link = http.client.HTTPConnection(host, listener.port, timeout=20)
        try:
            link.request(method, path)
            answer = link.getresponse()
            return answer.status, answer.getheader("Content-Type"), answer.read().decode()
        finally:
            link.close()

    def test_the_text_is_asked_anew(self):
        seen = counter()

        def text():
            seen.add()
            return page([seen])

        listener = self.listen(text)
        for count in 1, 2:
            self.assertEqual(self.ask(listener), (200, CONTENT_TYPE, f"{COUNTER}a_total {count}\n"))
        self.assertEqual(self.ask(listener, "/metrics?x=1")[0], 200)

    def test_other_paths_and_methods(self):
        listener = self.listen(lambda: "")
        for path, method, status in ("/", "GET", 404), ("/metrics/x", "GET", 404), ("/metrics", "POST", 501):
            with self.subTest(path, method=method):
                self.assertEqual(self.ask(listener, path, method)[0], status)

    def test_a_text_that_cannot_be_made(self):
        answers = iter([OSError("no answer"), "x 1\n"])

        def text():
            answer = next(answers)
            if isinstance(answer, OSError):
                raise answer
            return answer

        listener = self.listen(text)
        self.assertEqual(self.ask(listener), (503, "text/plain; charset=utf-8", "OSError: no answer\n"))
        self.assertEqual(self.ask(listener), (200, CONTENT_TYPE, "x 1\n"))

    def test_a_slow_one_holds_up_nobody(self):
        go_on, begun = threading.Event(), threading.Event()

        def text():
            if not begun.is_set():
                begun.set()
                go_on.wait(20)
            return "x 1\n"

        listener = self.listen(text)
        first = threading.Thread(target=self.ask, args=(listener,))
        first.start()
        begun.wait(20)
        self.assertEqual(self.ask(listener)[0], 200)
        go_on.set()
        first.join()

    def test_an_address_that_is_taken(self):
        listener = self.listen(lambda: "")
        with self.assertRaises(OSError):
            Listener("127.0.0.1", listener.port, lambda: "")

    def test_it_ends(self):
        listener = Listener("127.0.0.1", 0, lambda: "")
        listener.close()
        with self.assertRaises(OSError):
            self.ask(listener)


if __name__ == "__main__":
    unittest.main()
