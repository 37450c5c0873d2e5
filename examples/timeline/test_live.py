"""Tries live.js in Chromium. It wants chromium, chromium-driver and python3-selenium, as Debian has them, and is skipped where they
are not: PEQUOD=/path/of/pequod /usr/bin/python3 -m unittest test_live, in this folder."""

import shutil
import time
import unittest

from test_app import FOLDER, Cache, Pages, Truth  # noqa: F401
from serving import HOST, want_program as setUpModule  # noqa: F401

try:
    from selenium import webdriver
    from selenium.webdriver.chrome.service import Service
    from selenium.webdriver.common.by import By
except ImportError:
    webdriver = None
CHROMIUM, DRIVER = shutil.which("chromium"), shutil.which("chromedriver")
WORDS = ("--headless=new", "--no-sandbox", "--disable-gpu")
LAST_TOP = "return [...document.querySelectorAll('article')].pop().getBoundingClientRect().top"


@unittest.skipUnless(webdriver and CHROMIUM and DRIVER, "chromium, its driver and selenium are not all here")
class Live(Pages):
    def setUp(self):
        super().setUp()
        self.cache = Cache(Truth(self.data), HOST, self.server.port)
        self.addCleanup(self.cache.close)
        self.post("bob", "Hello there")
        self.cache.write(Truth(self.data).follow, "ann", "bob")
        options = webdriver.ChromeOptions()
        options.binary_location = CHROMIUM
        for word in WORDS:
            options.add_argument(word)
        self.browser = webdriver.Chrome(service=Service(DRIVER), options=options)
        self.addCleanup(self.browser.quit)

    def post(self, user, text):
        self.cache.write(Truth(self.data).post, user, time.time_ns() // 1_000, text)

    def open(self, place="ann"):
        self.browser.get(self.page + place)

    def news(self):
        return self.browser.find_element(By.ID, "news").text.split("\n")

    def texts(self, which="article"):
        return [each.text for each in self.browser.find_elements(By.CSS_SELECTOR, f"{which} .text")]

    def wait_for(self, wanted, look):
        end = time.monotonic() + 30
        while look() != wanted and time.monotonic() < end:
            time.sleep(0.1)
        self.assertEqual(look(), wanted)

    def press(self):
        self.browser.find_element(By.CSS_SELECTOR, "#news button").click()

    def test_a_new_post_waits_and_moves_nothing(self):
        self.open()
        top = self.browser.execute_script(LAST_TOP)
        self.post("bob", "First")
        self.wait_for(["1 new post", "Show"], self.news)
        self.post("bob", "Second")
        self.wait_for(["2 new posts", "Show"], self.news)
        self.assertEqual(self.texts(), ["Hello there"])
        self.assertEqual(self.browser.execute_script(LAST_TOP), top)
        self.press()
        self.assertEqual(self.texts("article.new"), ["Second", "First"])
        self.assertEqual(self.texts(), ["Second", "First", "Hello there"])
        self.assertEqual(self.browser.switch_to.active_element.tag_name, "article")
        self.post("bob", "Third")
        self.wait_for(["1 new post", "Show"], self.news)
        self.press()
        self.assertEqual(self.texts("article.new"), ["Third"])

    def test_a_post_that_goes_is_taken_out(self):
        self.open()
        self.post("bob", "First")
        self.wait_for(["1 new post", "Show"], self.news)
        self.cache.write(Truth(self.data).unfollow, "ann", "bob")
        self.wait_for([], self.texts)
        self.assertEqual(self.news(), [""])
        self.assertTrue(self.browser.find_element(By.ID, "nothing").is_displayed())

    def test_what_came_while_it_was_out_of_sight_comes_in_at_once(self):
        self.open()
        first = self.browser.current_window_handle
        self.browser.switch_to.new_window("tab")
        self.post("bob", "First")
        time.sleep(1)
        self.browser.switch_to.window(first)
        self.wait_for(["First"], lambda: self.texts("article.new"))

    def test_without_the_cache_it_says_so_and_keeps_what_is_typed(self):
        self.open()
        self.browser.find_element(By.ID, "text").send_keys("half a sentence")
        self.server.end()
        self.wait_for(["The cache does not answer now."], self.news)
        self.server.start()
        self.wait_for(["This page is no longer up to date.", "Load the page again"], self.news)
        self.press()
        self.wait_for([""], self.news)
        self.assertEqual(self.browser.find_element(By.ID, "text").get_attribute("value"), "half a sentence")
        self.post("bob", "Again")
        self.wait_for(["1 new post", "Show"], self.news)

    def test_a_page_that_was_opened_meanwhile_loads_itself_again(self):
        self.server.end()
        self.open()
        self.assertEqual(self.browser.title, "No cache")
        self.server.start()
        self.wait_for("ann - Pequod timeline", lambda: self.browser.title)

    def test_nothing_is_wider_than_a_narrow_screen(self):
        self.post("abcdefghijklmnopqrst", "x" * 100)
        self.cache.write(Truth(self.data).follow, "ann", "abcdefghijklmnopqrst")
        sizes = {"width": 320, "height": 700, "deviceScaleFactor": 1, "mobile": True}
        self.browser.execute_cdp_cmd("Emulation.setDeviceMetricsOverride", sizes)
        for place in "", "ann", "abcdefghijklmnopqrst":
            self.open(place)
            with self.subTest(place):
                self.assertEqual(self.browser.execute_script("return document.documentElement.scrollWidth"), 320)


if __name__ == "__main__":
    unittest.main()
