"""The version: it has one form, what repeats it has the same number, and tools/make/make-version makes the next one."""
import base64
import gzip
import hashlib
import os
import re
import shutil
import tempfile
import unittest
from datetime import date
from importlib.machinery import SourceFileLoader
from importlib.util import module_from_spec, spec_from_loader
from typing import Any

import coop
from coop.program import TOP
from coop.version import VERSION

MAKER = os.path.join(TOP, "tools", "make", "make-version")
MADE = {
    "CHANGELOG.md": r"^## (\d+\.\d+\.\d+),",
    "page/coop.html": r"The program inside: coop (\S+), of the sources",
}
"""Where the number is repeated beside the files that the tool writes, after which words."""
DAY = date(2027, 1, 9)


def maker() -> Any:
    """The tool as a module."""
    spec = spec_from_loader("make_version", SourceFileLoader("make_version", MAKER))
    assert spec is not None and spec.loader is not None
    module = module_from_spec(spec)
    spec.loader.exec_module(module)
    return module


def numbers_in(top: str, places: dict[str, str]) -> dict[str, list[str]]:
    """The first number of each file."""
    found = {}
    for name, pattern in places.items():
        with open(os.path.join(top, name), encoding="utf-8") as file:
            found[name] = re.findall(pattern, file.read(), re.MULTILINE)[:1]
    return found


class Version(unittest.TestCase):
    def test_the_form(self) -> None:
        self.assertRegex(VERSION, r"^\d+\.\d+\.\d+$")
        self.assertEqual(coop.__version__, VERSION)

    def test_where_it_is_repeated(self) -> None:
        places = {**maker().REPEATED, **MADE}
        self.assertEqual(numbers_in(TOP, places), {name: [VERSION] for name in places})

    def test_the_sums(self) -> None:
        """If the newest section of the changelog has sums, they are those of what the repository has."""
        with open(os.path.join(TOP, "CHANGELOG.md"), encoding="utf-8") as file:
            newest = file.read().split("\n## ")[1]
        written = dict(re.findall(r"^\| (.*) \| `(\w+)` \|$", newest, re.MULTILINE))
        if "### Checksums" in newest:
            self.assertIn("the program", written)
            found = maker().data_inside(TOP, VERSION).items()
            sums = {name: hashlib.sha256(data).hexdigest() for name, data in found}
            self.assertEqual({**written, **sums}, written, "tools/make/make-version --sums writes them")


class Making(unittest.TestCase):
    def setUp(self) -> None:
        holder = tempfile.TemporaryDirectory()
        self.addCleanup(holder.cleanup)
        self.top, self.maker = holder.name, maker()
        for name in self.maker.REPEATED:
            os.makedirs(os.path.join(self.top, os.path.dirname(name)), exist_ok=True)
            shutil.copy(os.path.join(TOP, name), os.path.join(self.top, name))
        self.write("CHANGELOG.md", "# Changelog\n\n## Unreleased\n\n- new\n\n## 1.0.0, 1 May 2026\n\n- old\n")

    def write(self, name: str, text: str) -> None:
        """Writes a file."""
        path = os.path.join(self.top, name)
        os.makedirs(os.path.dirname(path), exist_ok=True)
        with open(path, "w", encoding="utf-8") as file:
            file.write(text)

    def changes(self) -> str:
        """The changelog."""
        with open(os.path.join(self.top, "CHANGELOG.md"), encoding="utf-8") as file:
            return file.read()

    def test_a_number(self) -> None:
        self.maker.change_number(self.top, "9.10.0", DAY)
        places = self.maker.REPEATED
        self.assertEqual(numbers_in(self.top, places), {name: ["9.10.0"] for name in places})
        self.assertIn("\n## 9.10.0, 9 January 2027\n\n- new\n", self.changes())

    def test_wrong_numbers(self) -> None:
        before = self.changes()
        for number in (VERSION, "0.9.9", "9.1", "v9.1.0", "9.1.0-rc1", "09.1.0", ""):
            with self.assertRaises(self.maker.NotMade):
                self.maker.change_number(self.top, number, DAY)
        self.assertEqual(self.changes(), before)
        self.write("CHANGELOG.md", before.replace("Unreleased", "Soon"))
        with self.assertRaisesRegex(self.maker.NotMade, '0 sections "## Unreleased"'):
            self.maker.change_number(self.top, "9.1.0", DAY)
        self.assertEqual(numbers_in(self.top, {"c/coop.h": self.maker.REPEATED["c/coop.h"]}), {"c/coop.h": [VERSION]})

    def test_sums(self) -> None:
        """They go to the newest section, once, of what was built from its sources alone."""
        self.maker.change_number(self.top, "9.1.0", DAY)
        module = base64.b64encode(gzip.compress(b"module")).decode()
        page = f'The program inside: coop {{}}, of the sources at commit 0123456789. "{module}"'
        self.write(self.maker.PROGRAM, "program")
        self.write("scripts/check-anew", "checker")
        for wrong in (page.format(VERSION), page.format("9.1.0") + module):
            self.write("page/coop.html", wrong)
            with self.assertRaisesRegex(self.maker.NotMade, "isn't made from the sources of 9.1.0"):
                self.maker.write_sums(self.top, "kit 1")
        self.write("page/coop.html", page.format("9.1.0"))
        self.assertEqual(self.maker.write_sums(self.top, "kit 1"), "v9.1.0")
        once = self.changes()
        self.maker.write_sums(self.top, "kit 1")
        self.assertEqual(self.changes(), once)
        newest, older = once.split("## 1.0.0")
        self.assertIn("- new\n\n### Checksums\n\nWith `kit 1`.\n\n| File | SHA-256 |\n|---|---|\n", newest)
        for data in ("program", page.format("9.1.0"), "module", "checker"):
            self.assertIn(f"| `{hashlib.sha256(data.encode()).hexdigest()}` |\n", newest)
        self.assertEqual(older, ", 1 May 2026\n\n- old\n")
        os.remove(os.path.join(self.top, self.maker.PROGRAM))
        with self.assertRaisesRegex(self.maker.NotMade, "build it first"):
            self.maker.write_sums(self.top, "kit 1")


if __name__ == "__main__":
    unittest.main()
