"""The version, which include/maizespell.h says and an installed tool has in a file of its own."""

import re
from pathlib import Path

INSTALLED = Path(__file__).resolve().with_name("VERSION")
"""Written from the header where the tool is installed."""

HEADER = Path(__file__).resolve().parents[2] / "include" / "maizespell.h"
"""The repository's header."""

SAID = {
    INSTALLED: re.compile(r"^([0-9.]+)$", re.MULTILINE),
    HEADER: re.compile(r'^#define MAIZESPELL_VERSION "([0-9.]+)"$', re.MULTILINE),
}


def version() -> str:
    """The version of the tool, and of the library that it came with."""
    for file, pattern in SAID.items():
        said = pattern.search(file.read_text(encoding="utf-8")) if file.is_file() else None
        if said:
            return said[1]
    return "of unknown version"
