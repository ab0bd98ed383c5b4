"""The version is the header's, in the repository, and that of its own file where the tool is installed."""

import re
import shutil
import subprocess
import sys
import tempfile
import unittest
from pathlib import Path

import support
from maizetext.version import version
from support import maize

HEADER = (support.ROOT / "include" / "maizespell.h").read_text()


def defined(name: str) -> str:
    """What the header defines a name as."""
    (value,) = re.findall(rf"^#define {name} (\S+)$", HEADER, re.MULTILINE)
    return value


class Version(unittest.TestCase):
    def test_the_header_agrees_with_itself(self):
        numbers = [defined(f"MAIZESPELL_VERSION_{part}") for part in ("MAJOR", "MINOR", "PATCH")]
        self.assertEqual(defined("MAIZESPELL_VERSION"), f'"{".".join(numbers)}"')

    def test_the_tool_says_that_of_the_header(self):
        self.assertEqual(f'"{version()}"', defined("MAIZESPELL_VERSION"))
        done = maize("--version")
        self.assertEqual((done.returncode, done.stdout.decode(), done.stderr), (0, f"maize {version()}\n", b""))

    def test_the_number_stands_in_the_header_alone(self):
        files = [support.ROOT / "CMakeLists.txt", *(support.ROOT / "cmake").rglob("*"), *support.TOOLS.rglob("*.py")]
        for file in files:
            if file.is_file():
                self.assertNotIn(version(), file.read_text(), file)

    def test_the_readme_asks_for_the_package_of_this_version(self):
        asked = re.findall(r"find_package\(maizespell (\S+) REQUIRED\)", (support.ROOT / "README.md").read_text())
        self.assertEqual(asked, [version().rsplit(".", 1)[0]])

    def test_an_installed_tool_has_it_in_a_file(self):
        with tempfile.TemporaryDirectory() as name:
            folder = Path(name) / "a" / "b"
            shutil.copytree(support.TOOLS / "maizetext", folder / "maizetext")
            shutil.copy(support.TOOLS / "maize", folder)
            for content, said in ((None, b"maize of unknown version\n"), ("9.8.7\n", b"maize 9.8.7\n")):
                if content is not None:
                    (folder / "maizetext" / "VERSION").write_text(content)
                done = subprocess.run([sys.executable, "-B", folder / "maize", "--version"], capture_output=True, check=True)
                self.assertEqual(done.stdout, said)
