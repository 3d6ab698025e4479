"""The site: each page is there, each link leads to a file and a heading, nothing is loaded from elsewhere, search."""
import html.parser
import json
import os
import subprocess
import tempfile
import unittest
import urllib.parse

from support import TOOLS, python_with

from qss_dev.site import pages


class Links(html.parser.HTMLParser):
    """The links of a page, what it loads, and its anchors."""

    def __init__(self, text):
        super().__init__()
        self.links, self.loaded, self.anchors = [], [], set()
        self.feed(text)

    def handle_starttag(self, tag, attributes):
        named = dict(attributes)
        self.anchors.update(named[key] for key in ("id", "name") if named.get(key))
        if tag == "a" and named.get("href"):
            self.links.append(named["href"])
        source = named.get("src") or (named.get("href") if tag == "link" else None)
        if source:
            self.loaded.append(source)


@unittest.skipUnless(python_with("mkdocs"), "mkdocs is not here")
class Site(unittest.TestCase):
    @classmethod
    def setUpClass(cls):
        holder = tempfile.TemporaryDirectory()
        cls.addClassCleanup(holder.cleanup)
        cls.folder = os.path.join(holder.name, "site")
        words = [python_with("mkdocs"), os.path.join(TOOLS, "make-site"), "--into", cls.folder]
        done = subprocess.run(words, stdout=subprocess.PIPE, stderr=subprocess.STDOUT)
        if done.returncode:
            raise AssertionError(done.stdout.decode())
        cls.pages = {}
        for path, _, names in os.walk(cls.folder):
            for name in (os.path.join(path, one) for one in names if one.endswith(".html")):
                with open(name, encoding="utf-8") as file:
                    cls.pages[os.path.relpath(name, cls.folder)] = Links(file.read())

    def test_each_page_is_there(self):
        for name in pages():
            path = "index.html" if name == "README.md" else name.replace("README.md", "index.md")[:-3] + ".html"
            self.assertIn(path, self.pages)

    def fault(self, page, link):
        """What is wrong with a link of a page, or None."""
        target = urllib.parse.urlparse(link)
        if target.scheme or page == "404.html" or link == "#":
            return None
        path = os.path.join(os.path.dirname(page), urllib.parse.unquote(target.path)) if target.path else page
        path = os.path.join(path, "index.html") if os.path.isdir(os.path.join(self.folder, path)) else path
        path = os.path.normpath(path)
        if not os.path.exists(os.path.join(self.folder, path)):
            return page, link
        is_heading = not target.fragment or path not in self.pages
        is_heading = is_heading or urllib.parse.unquote(target.fragment) in self.pages[path].anchors
        return None if is_heading else (page, link, "no such heading")

    def test_each_link_leads_somewhere(self):
        faults = [self.fault(page, link) for page, one in self.pages.items() for link in one.links + one.loaded]
        self.assertEqual([fault for fault in faults if fault], [])

    def test_nothing_is_loaded_from_elsewhere(self):
        for page, found in self.pages.items():
            self.assertFalse([link for link in found.loaded if urllib.parse.urlparse(link).netloc], page)

    def test_search_finds_a_word(self):
        with open(os.path.join(self.folder, "search", "search_index.json"), encoding="utf-8") as file:
            index = json.load(file)["docs"]
        found = {one["location"] for one in index if "certificate" in one["text"]}
        self.assertTrue(any(one.startswith("docs/CERTIFICATES.html") for one in found), sorted(found))


if __name__ == "__main__":
    unittest.main()
