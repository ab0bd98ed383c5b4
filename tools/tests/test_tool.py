"""The tool as a command: its output, its exit status, and errors of one line."""

import os
import unittest
from pathlib import Path
from unittest import mock

import support
from maizetext import route
from maizetext.route import program_path
from marked import job_bytes, plan_bytes
from support import EXAMPLES, Folder, maize

A = EXAMPLES / "marked" / "a.txt"

CROSSING = """\
job: 3 layers, 8 rows, 10 columns; 5 nets, 16 obstacles
net 1: joined  2 of 2 pins, cost 9, added steps 0, penalised segments 0
net 2: joined  3 of 3 pins, cost 30, added steps 2, penalised segments 0
net 3: joined  2 of 2 pins, cost 35, added steps 4, penalised segments 0
net 4: joined  3 of 3 pins, cost 33, added steps 0, penalised segments 1
net 5: open    1 of 2 pins, cost 0, added steps 0, penalised segments 0; open pins (0,7,8)
totals: cost 107, added steps 6, penalised segments 1, nets fully joined 4 of 5
"""


class Packing(Folder):
    def test_pack_and_unpack(self):
        packed = maize("pack", A)
        self.assertEqual((packed.returncode, packed.stdout, packed.stderr), (0, job_bytes("A"), b""))
        self.assertEqual(packed.stdout, (EXAMPLES / "a.job").read_bytes())
        unpacked = maize("unpack", EXAMPLES / "a.job")
        self.assertEqual(unpacked.returncode, 0)
        self.assertEqual(maize("pack", "-", given=unpacked.stdout).stdout, job_bytes("A"))

    def test_a_bad_text_is_named(self):
        bad = self.file("bad.txt", A.read_bytes().replace(b"pin 0 0 3", b"pin 0 9 3"))
        line = A.read_text().splitlines().index("  pin 0 0 3") + 1
        self.fails(maize("pack", bad), 1, f"{bad}:{line}: a pin is outside the grid or on an obstacle: (0,9,3)")

    def test_a_text_that_is_none(self):
        self.fails(maize("pack", self.file("bad.txt", b"edition 1\ngrid \xff")), 1, "bad.txt:2: expected text in UTF-8, found byte FF")
        self.fails(maize("pack", EXAMPLES / "a.job"), 1, "a.job:1: expected a job's text form, found the control byte 11\n")
        self.fails(maize("pack", self.file("long", b"#" * 65_537)), 1, "long:1: expected a line of at most 65536 bytes")
        self.assertEqual(maize("pack", self.file("long", b"#" * 65_535 + b"\n" + A.read_bytes())).stdout, job_bytes("A"))

    def test_a_huge_text_that_is_none_is_not_read_whole(self):
        for begin in (b"", b"\xff\n", b"seven\n", b"7" * 65_536 + b"\n", b"7" * 70_000):
            huge = self.file("huge", begin)
            os.truncate(huge, 1 << 40)
            done = maize("pack", huge)
            self.fails(done, 1, "huge:1: expected ")
            self.assertLess(len(done.stderr) - len(str(huge)), 120)

    def test_bad_bytes_are_refused(self):
        self.fails(maize("unpack", self.file("bad", job_bytes("A") + b"\x00")), 1, "refused 11 at 206: a bit after the last field")
        self.fails(maize("unpack", self.file("cut", job_bytes("A")[:12])), 1, "refused 2 at 80: a group of bits is not whole")
        self.fails(maize("unpack", self.file("empty", b"")), 1, "refused 2 at 0")

    def test_a_mark_at_the_beginning_does_not_matter(self):
        self.assertEqual(maize("pack", self.file("a.txt", b"\xef\xbb\xbf" + A.read_bytes())).stdout, job_bytes("A"))


class Plans(Folder):
    def test_explain_takes_both_forms_of_both(self):
        line = self.file("line", plan_bytes("A").hex(" ").upper().encode() + b"\n")
        plan = self.file("plan", plan_bytes("A"))
        said = {maize("explain", job, made).stdout for job in (A, EXAMPLES / "a.job") for made in (line, plan)}
        self.assertEqual(len(said), 1)
        self.assertIn(b"cost 3, as recorded", said.pop())

    def test_a_plan_in_hexadecimal_of_any_kind(self):
        digits = plan_bytes("A").hex()
        spaced = plan_bytes("A").hex(" ")
        for given in (digits, digits.upper(), digits + "\n", spaced, f" {spaced} \r\n", f"{digits[:8]}\n{digits[8:]}\n"):
            done = maize("explain", A, "-", given=given.encode())
            self.assertEqual((done.returncode, done.stderr), (0, b""), given)
            self.assertIn(b"cost 3, as recorded", done.stdout)
        for given in (digits[:-1], "8", "8 0 0", "800 00"):
            self.fails(maize("explain", A, "-", given=given.encode()), 1, "-: expected a plan in hexadecimal, two digits a byte")

    def test_explain_exits_with_1_where_a_plan_breaks(self):
        done = maize("explain", A, self.file("plan", plan_bytes("B")))
        self.assertEqual((done.returncode, done.stderr), (1, b""))
        self.assertIn(b"the plan breaks at bit 44; replay gives: refused 17 at 44", done.stdout)

    def test_an_empty_line_is_a_plan_of_no_bytes(self):
        job = self.file("no-nets.txt", A.read_bytes().split(b"net")[0])
        for given in (b"\n", b""):
            done = maize("explain", job, self.file("plan", given))
            self.assertEqual(done.returncode, 0)
            self.assertIn(b"the plan is legal", done.stdout)

    def test_a_line_that_is_no_plan(self):
        self.fails(maize("explain", A, self.file("plan", b"refused 5 at 100\n")), 1, "refused the job, 5 at 100: a layer line's rule")
        self.fails(maize("draw", A, self.file("plan", b"too large\n")), 1, "too large for the program (at most 256 vertices")

    def test_draw(self):
        alone = maize("draw", A)
        self.assertEqual(alone.returncode, 0)
        self.assertNotIn(b'class="wire"', alone.stdout)
        self.assertIn(b'class="wire"', maize("draw", A, self.file("plan", plan_bytes("A"))).stdout)
        self.fails(maize("draw", A, self.file("bad", plan_bytes("B"))), 1, "bad: the plan breaks: refused 17 at 44")

    def test_a_job_is_told_by_its_content(self):
        self.fails(maize("draw", self.file("typo", b"editoin 1\n")), 1, "typo:1: expected 'edition EDITION', found 'editoin'")
        self.fails(maize("draw", self.file("bytes", b"\x00" * 30)), 1, "bytes: refused 3 at 0")


class Usage(Folder):
    def test_wrong_command_lines(self):
        for arguments, part in (
            ((), "required"),
            (("fold",), "invalid choice: 'fold'"),
            (("pack",), "required: JOB.txt"),
            (("explain", A), "required: PLAN"),
            (("unpack", A, A), "unrecognized arguments"),
            (("route", "--program"), "expected one argument"),
            (("explain", "-", "-"), "JOB and PLAN are both standard input (-), expected a file for one of them"),
            (("draw", "-", "-"), "JOB and PLAN are both standard input (-)"),
        ):
            with self.subTest(arguments):
                self.fails(maize(*arguments), 2, part)

    def test_files_that_are_not_there(self):
        self.fails(maize("pack", self.folder / "none.txt"), 1, "none.txt: No such file")
        self.fails(maize("explain", A, self.folder), 1, "Is a directory")

    def test_help(self):
        done = maize("--help")
        self.assertEqual(done.returncode, 0)
        for command in (b"pack", b"unpack", b"explain", b"draw", b"report", b"route"):
            self.assertIn(command, done.stdout)

    def test_the_tool_can_be_run(self):
        self.assertTrue(os.access(support.TOOLS / "maize", os.X_OK))


class Routing(Folder):
    """The program has a stand-in, which keeps the job that it was given and writes a line."""

    def stand_in(self, line: str, status: int = 0) -> Path:
        path = self.file("stand-in", f"#!/bin/sh\ncat > '{self.folder}/given'\nprintf '{line}'\nexit {status}\n".encode())
        path.chmod(0o755)
        return path

    def line(self, letter: str) -> str:
        return plan_bytes(letter).hex(" ").upper() + "\\n"

    def test_summaries_of_marked_jobs(self):
        for letter, part in (
            ("I", "net 1: joined  3 of 3 pins, cost 10, added steps 2, penalised segments 0\n"),
            ("C", "net 1: joined  2 of 2 pins, cost 58, added steps 0, penalised segments 1\n"),
            ("L", "net 2: open    1 of 2 pins, cost 0, added steps 0, penalised segments 0; open pins (2,1,0)\n"),
            ("L", "totals: cost 2, added steps 0, penalised segments 0, nets fully joined 1 of 2\n"),
        ):
            done = maize("route", EXAMPLES / "marked" / f"{letter.lower()}.txt", "--program", self.stand_in(self.line(letter)))
            self.assertEqual((done.returncode, done.stderr), (0, b""))
            self.assertIn(part, done.stdout.decode())
            self.assertEqual((self.folder / "given").read_bytes(), job_bytes(letter))

    def test_a_summary_in_full(self):
        line = (EXAMPLES / "crossing.plan").read_text().replace("\n", "\\n")
        done = maize("route", EXAMPLES / "crossing.txt", "--program", self.stand_in(line))
        self.assertEqual(done.stdout.decode(), CROSSING)

    def test_the_program_is_found_by_the_environment(self):
        program = str(self.stand_in(self.line("A")))
        done = maize("route", A, MAIZESPELL_PROGRAM=program, PATH=os.environ["PATH"])
        self.assertEqual(done.returncode, 0, done.stderr)
        self.assertIn(b"cost 3", done.stdout)

    def test_where_the_program_is_looked_for(self):
        self.assertEqual(program_path("here"), "here")
        with mock.patch.dict(os.environ, {"MAIZESPELL_PROGRAM": "there"}):
            self.assertEqual((program_path(None), program_path("here")), ("there", "here"))
            del os.environ["MAIZESPELL_PROGRAM"]
            self.assertEqual(route.BUILT, support.ROOT / "target" / "bin" / "maizespell")
            with mock.patch.object(route, "BUILT", self.file("maizespell", b"")):
                self.assertEqual(program_path(None), str(self.folder / "maizespell"))
            with mock.patch.object(route, "BUILT", self.folder / "none" / "maizespell"):
                self.assertEqual(program_path(None), "maizespell")

    def test_refusals_in_words(self):
        bad = self.file("bad", job_bytes("A")[:12])
        done = maize("route", bad, "--program", self.stand_in("refused 2 at 80\\n"))
        self.fails(done, 1, "the program refused the job, 2 at 80: a group of bits is not whole")
        self.assertEqual((self.folder / "given").read_bytes(), job_bytes("A")[:12])
        too_large = maize("route", A, "--program", self.stand_in("too large\\n"))
        self.fails(too_large, 1, "'maize route --host HOST' routes it, with the host that examples/host/build builds")

    def test_programs_that_fail(self):
        self.fails(maize("route", A, "--program", self.folder / "none"), 1, "'tools/build program' builds it")
        self.fails(maize("route", A, "--program", self.stand_in("", 3)), 1, "ended with status 3")
        self.fails(maize("route", A, "--program", self.stand_in("")), 1, "wrote no line that this tool knows")
        self.fails(maize("route", A, "--program", self.stand_in("hello\\n")), 1, "wrote no line that this tool knows")
        broken = self.stand_in(self.line("B"))
        self.fails(maize("route", A, "--program", broken), 1, f"the plan of {broken} breaks: refused 17 at 44")


class Hosting(Folder):
    """The host has a stand-in too, which keeps the job's file and leaves a plan's."""

    def stand_in(self, plan: bytes, status: int = 0, said: str = "") -> Path:
        self.file("kept", plan)
        script = f"#!/bin/sh\ncp \"$1\" '{self.folder}/given'\n[ {status} = 0 ] && cp '{self.folder}/kept' \"$2\"\n"
        path = self.file("host", f"{script}[ -z '{said}' ] || echo \"$1: {said}\" >&2\nexit {status}\n".encode())
        path.chmod(0o755)
        return path

    def test_a_plan_of_the_host_is_summed_up(self):
        done = maize("route", A, "--host", self.stand_in(plan_bytes("A")))
        self.assertEqual((done.returncode, done.stderr), (0, b""))
        self.assertIn(b"totals: cost 3, ", done.stdout)
        self.assertEqual((self.folder / "given").read_bytes(), job_bytes("A"))

    def test_what_the_host_refuses(self):
        self.fails(maize("route", A, "--host", self.stand_in(b"", 1, "refused 4 at 8")), 1, f"{A}: refused 4 at 8")
        none = self.folder / "none"
        self.fails(maize("route", A, "--host", none), 1, f"can't run the host {none}: No such file")

    def test_what_is_no_host(self):
        for host, status in (("true", 0), ("false", 1)):
            said = f"{A}: no plan: {host} wrote none and ended with status {status}; --host expects the host that"
            self.fails(maize("route", A, "--host", host), 1, said)
        said = "cat wrote none and ended with status 1, saying 'cat: "
        self.fails(maize("route", A, "--host", "cat"), 1, said)
        broken = self.stand_in(plan_bytes("B"))
        self.fails(maize("route", A, "--host", broken), 1, f"the plan of {broken} breaks: refused 17 at 44")

    def test_one_line_of_what_the_host_says(self):
        host = self.stand_in(b"", 2, "first\nsecond")
        self.fails(maize("route", A, "--host", host), 1, f"{A}: first\n")

    def test_the_host_or_the_program(self):
        self.fails(maize("route", A, "--host", "a", "--program", "b"), 2, "not allowed with argument")
