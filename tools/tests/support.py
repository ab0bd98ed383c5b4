"""What the tests share: the tool's modules, its files, the tool run as a command, and a folder for files."""

import subprocess
import sys
import tempfile
import unittest
from pathlib import Path

TOOLS = Path(__file__).resolve().parents[1]
ROOT = TOOLS.parent
EXAMPLES = ROOT / "examples"
sys.path.insert(0, str(TOOLS))


def maize(*arguments, given: bytes = b"", **environment: str) -> subprocess.CompletedProcess:
    """The tool with these arguments and this standard input."""
    command = [sys.executable, str(TOOLS / "maize"), *map(str, arguments)]
    return subprocess.run(command, input=given, capture_output=True, check=False, env=environment or None, timeout=100)


class Folder(unittest.TestCase):
    """Tests with a folder for their files."""

    def setUp(self):
        folder = tempfile.TemporaryDirectory()
        self.addCleanup(folder.cleanup)
        self.folder = Path(folder.name)

    def file(self, name: str, data: bytes) -> Path:
        path = self.folder / name
        path.write_bytes(data)
        return path

    def fails(self, done, status: int, part: str) -> None:
        """One line on standard error, nothing on standard output."""
        said = done.stderr.decode()
        self.assertEqual((done.returncode, done.stdout), (status, b""), said)
        self.assertEqual(said.count("\n"), 1, said)
        self.assertIn(part, said)
