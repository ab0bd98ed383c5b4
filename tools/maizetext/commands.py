"""What each command does with its arguments: it writes to standard output and answers the exit status."""

import sys
from argparse import Namespace

from maizetext.draw import draw
from maizetext.errors import InputError
from maizetext.explain import explain
from maizetext.files import (
    bytes_from_either, job_from_bytes, job_from_either, job_from_text, opened, plan_from_either, read_file
)
from maizetext.job_packing import pack_job
from maizetext.replay import replay
from maizetext.report import Block, block_of, report
from maizetext.route import plan_by_host, plan_by_program, program_path, summary
from maizetext.text_writing import write_text


def pack_command(given: Namespace) -> int:
    """Text to bytes."""
    with opened(given.job) as file:
        job = job_from_text(given.job, file)
    sys.stdout.buffer.write(pack_job(job))
    return 0


def unpack_command(given: Namespace) -> int:
    """Bytes to text."""
    write(write_text(job_from_bytes(given.job, read_file(given.job))))
    return 0


def explain_command(given: Namespace) -> int:
    """A plan in words; 1 where it breaks."""
    job = job_from_either(given.job, read_file(given.job))
    text, legal = explain(job, plan_from_either(given.plan, read_file(given.plan)))
    write(text)
    return 0 if legal else 1


def draw_command(given: Namespace) -> int:
    """A picture of a job, and of a legal plan if there is one."""
    job = job_from_either(given.job, read_file(given.job))
    trace = None
    if given.plan is not None:
        trace = replay(job, plan_from_either(given.plan, read_file(given.plan)))
        if trace.broken:
            raise InputError(f"{given.plan}: the plan breaks: {trace.broken}")
    write(draw(job, trace))
    return 0


def report_command(given: Namespace) -> int:
    """What plans are made of, in tables; 1 where one breaks, or where its counts do not make its cost."""
    pairs = zip(given.files[::2], given.files[1::2])
    text, right = report([block(job, plan) for job, plan in pairs])
    write(text)
    return 0 if right else 1


def block(job_path: str, plan_path: str) -> Block:
    """A job with its plan, under the names of their files."""
    job = job_from_either(job_path, read_file(job_path))
    return block_of(f"{job_path} {plan_path}", job, plan_from_either(plan_path, read_file(plan_path)))


def route_command(given: Namespace) -> int:
    """The plan of the program or of the host, summed up."""
    data = bytes_from_either(given.job, read_file(given.job))
    if given.host is not None:
        router, plan_by = given.host, plan_by_host
    else:
        router, plan_by = program_path(given.program), plan_by_program
    plan = plan_by(router, given.job, data)
    write(summary(job_from_bytes(given.job, data), plan, router))
    return 0


def write(text: str) -> None:
    """Text to standard output, the same bytes in every locale."""
    sys.stdout.buffer.write(text.encode("utf-8"))


COMMANDS = {
    "pack": pack_command,
    "unpack": unpack_command,
    "explain": explain_command,
    "draw": draw_command,
    "report": report_command,
    "route": route_command,
}
