"""The tool's command line."""

import argparse
from typing import Any, NoReturn

from maizetext.version import version

PROGRAM_IS = "the program (else MAIZESPELL_PROGRAM, else target/bin/maizespell, else maizespell on the PATH)"
PLAN_FORMS = "a plan, as bytes or as hexadecimal, such as the program's line"
PAIRS = "JOB PLAN [JOB PLAN ..]"


class Parser(argparse.ArgumentParser):
    """A parser whose errors are one line, with exit status 2."""

    def error(self, message: str) -> NoReturn:
        self.exit(2, f"{self.prog}: {message}; see '{self.prog} --help'\n")


class Version(argparse.Action):
    """Says the version, which is looked up only when it is asked for."""

    def __init__(self, option_strings: list[str], dest: str, **_: Any) -> None:
        super().__init__(option_strings, dest, nargs=0, help="say the version and exit")

    def __call__(self, parser: argparse.ArgumentParser, *_: Any) -> None:
        print(f"maize {version()}")
        parser.exit()


def arguments() -> argparse.Namespace:
    """The command line, read and judged."""
    top = parser()
    given = top.parse_args()
    if given.command == "report":
        judge_pairs(top, given.files)
    elif given.job == "-" and getattr(given, "plan", None) == "-":
        top.error("JOB and PLAN are both standard input (-), expected a file for one of them")
    return given


def judge_pairs(top: Parser, files: list[str]) -> None:
    """Files are jobs and plans by turns, of which one may be standard input."""
    if len(files) % 2 == 1:
        top.error(f"report expects a PLAN for each JOB, found no PLAN for {files[-1]}")
    if files.count("-") > 1:
        top.error("several files are standard input (-), expected one at most")


def parser() -> Parser:
    """All commands with their arguments."""
    top = Parser(prog="maize", description="Jobs and plans that one can read. FILE - is standard input.")
    top.add_argument("--version", action=Version)
    commands = top.add_subparsers(dest="command", required=True, metavar="COMMAND")
    pack = commands.add_parser("pack", help="the text form of a job to the job's bytes")
    unpack = commands.add_parser("unpack", help="a job's bytes to its text form")
    explain = commands.add_parser("explain", help="a plan in words, each move with its price; says where a plan breaks")
    draw = commands.add_parser("draw", help="an SVG of every layer, with the plan's wires if there is a plan")
    report = commands.add_parser(
        "report", help="what plans are made of, layer by layer, and the sum over many", usage=f"maize report [-h] {PAIRS}"
    )
    route = commands.add_parser("route", help="run the program or the host on a job and sum up its plan")
    pack.add_argument("job", metavar="JOB.txt", help="the text form of a job")
    unpack.add_argument("job", metavar="JOB", help="a job's bytes")
    for command in (explain, draw, route):
        command.add_argument("job", metavar="JOB", help="a job, as text or bytes")
    explain.add_argument("plan", metavar="PLAN", help=PLAN_FORMS)
    draw.add_argument("plan", metavar="PLAN", nargs="?", help=PLAN_FORMS)
    report.add_argument("files", metavar="JOB PLAN", nargs="+", help=f"a job, as text or bytes, and {PLAN_FORMS}")
    router = route.add_mutually_exclusive_group()
    router.add_argument("--program", metavar="PATH", help=PROGRAM_IS)
    router.add_argument("--host", metavar="PATH", help="the host of examples/host, which routes larger jobs too")
    return top
