"""The tool's files: jobs in either form, plans in either form."""

import re
import sys
from contextlib import contextmanager
from io import BytesIO
from typing import BinaryIO, Iterator, Optional

from maizetext.errors import InputError
from maizetext.job import Job
from maizetext.job_packing import pack_job
from maizetext.job_reading import read_job
from maizetext.refusals import Refused, rule_in_words
from maizetext.text_reading import read_lines

CONTROL = re.compile(rb"[\x00-\x08\x0b\x0c\x0e-\x1f\x7f]")
PLAN_LINE = re.compile(rb"([0-9A-F]{2}( [0-9A-F]{2})*)?\r?\n?")
HEXADECIMAL = re.compile(rb"[0-9A-Fa-f\s]*")
REFUSED_LINE = re.compile(rb"refused ([0-9]{1,9}) at ([0-9]{1,9})\r?\n?")
TOO_LARGE_LINE = re.compile(rb"too large\r?\n?")
LIMITS = "at most 256 vertices, M 7 and 65,536 bytes"
LARGER = "'maize route --host HOST' routes it, with the host that examples/host/build builds"

BYTE_ORDER_MARK = b"\xef\xbb\xbf"
LONGEST_LINE = 65_536


@contextmanager
def opened(path: str) -> Iterator[BinaryIO]:
    """A file to read; `-` is standard input."""
    try:
        if path == "-":
            yield sys.stdin.buffer
        else:
            with open(path, "rb") as file:
                yield file
    except OSError as error:
        raise InputError(f"{path}: {error.strerror}") from None


def read_file(path: str) -> bytes:
    """A file's bytes."""
    with opened(path) as file:
        return file.read()


def is_text(data: bytes) -> bool:
    """Whether a job is in its text form. A good job's first byte is a control character, 10 to 1F."""
    return not CONTROL.search(data)


def text_lines(path: str, file: BinaryIO) -> Iterator[str]:
    """The lines of a text one by one, so that of a large file that is no job's text little is read."""
    lines = iter(lambda: file.readline(LONGEST_LINE + 1), b"")
    for number, line in enumerate(lines, start=1):
        yield text_of_line(f"{path}:{number}", line.removeprefix(BYTE_ORDER_MARK) if number == 1 else line)


def text_of_line(place: str, line: bytes) -> str:
    """A line's text. What is none is not repeated in the error."""
    control = CONTROL.search(line)
    if control:
        raise InputError(f"{place}: expected a job's text form, found the control byte {control[0].hex().upper()}")
    if len(line) > LONGEST_LINE:
        raise InputError(f"{place}: expected a line of at most {LONGEST_LINE} bytes, found a longer one")
    try:
        return line.decode("utf-8")
    except UnicodeDecodeError as error:
        raise InputError(f"{place}: expected text in UTF-8, found byte {line[error.start]:02X}") from None


def job_from_text(path: str, file: BinaryIO) -> Job:
    """A good job from its text form."""
    return read_lines(text_lines(path, file), path)


def job_from_bytes(path: str, data: bytes) -> Job:
    """A good job from its bytes."""
    try:
        return read_job(data)
    except Refused as refused:
        raise InputError(f"{path}: {refused}") from None


def job_from_either(path: str, data: bytes) -> Job:
    """A good job from whichever form it has."""
    return job_from_text(path, BytesIO(data)) if is_text(data) else job_from_bytes(path, data)


def bytes_from_either(path: str, data: bytes) -> bytes:
    """The bytes of a job from its text form, or those that are given, good or not."""
    return pack_job(job_from_text(path, BytesIO(data))) if is_text(data) else data


def plan_of_line(path: str, data: bytes) -> Optional[bytes]:
    """The plan that the program's line writes, or none if these bytes are no such line."""
    refused = REFUSED_LINE.fullmatch(data)
    if refused:
        number, place = int(refused[1]), int(refused[2])
        raise InputError(f"{path}: no plan: the program refused the job, {number} at {place}: {rule_in_words(number)}")
    if TOO_LARGE_LINE.fullmatch(data):
        raise InputError(f"{path}: no plan: the job is too large for the program ({LIMITS}); {LARGER}")
    return bytes.fromhex(data.decode("ascii")) if PLAN_LINE.fullmatch(data) else None


def plan_of_hexadecimal(path: str, data: bytes) -> Optional[bytes]:
    """The plan that hexadecimal digits write, small or capital, with or without blanks between bytes; or none.

    What reads as such is taken as one. A plan's own bytes hardly do: without a join they are zero, and a join's
    count of moves, 20 bits of such characters, would be over a thousand.
    """
    if not HEXADECIMAL.fullmatch(data):
        return None
    try:
        return bytes.fromhex(data.decode("ascii"))
    except ValueError:
        raise InputError(f"{path}: expected a plan in hexadecimal, two digits a byte, found a digit alone") from None


def plan_from_either(path: str, data: bytes) -> bytes:
    """A plan's bytes, from these, from the program's line or from other hexadecimal."""
    plan = plan_of_line(path, data)
    if plan is None:
        plan = plan_of_hexadecimal(path, data)
    return data if plan is None else plan
