"""The program or the host run on a job, and what came of it."""

import os
import subprocess
import tempfile
from pathlib import Path
from typing import Iterator, Optional

from maizetext.errors import InputError
from maizetext.files import plan_of_line
from maizetext.job import Job
from maizetext.replay import NetTrace, Trace, replay
from maizetext.words import job_line, totals_line, vertices

BUILT = Path(__file__).resolve().parents[2] / "target" / "bin" / "maizespell"
"""Where the repository's program is built."""

HOST_IS = "--host expects the host that examples/host/build builds"
HOW = "'tools/build program' builds it as target/bin/maizespell, or --program or --host names one"


def program_path(given: Optional[str]) -> str:
    """The program's file: as given, or as MAIZESPELL_PROGRAM says, or as built, or else one on the PATH."""
    return given or os.environ.get("MAIZESPELL_PROGRAM") or (str(BUILT) if BUILT.exists() else BUILT.name)


def run_program(program: str, job: bytes) -> bytes:
    """The line that the program writes for a job."""
    try:
        done = subprocess.run([program], input=job, stdout=subprocess.PIPE, check=False)
    except OSError as error:
        raise InputError(f"can't run the program {program}: {error.strerror}; {HOW}") from None
    if done.returncode != 0:
        raise InputError(f"the program {program} ended with status {done.returncode}")
    return done.stdout


def plan_by_program(program: str, path: str, job: bytes) -> bytes:
    """The plan of a job, or an error that says in words why there is none."""
    line = run_program(program, job)
    plan = plan_of_line(path, line) if line.endswith(b"\n") else None
    if plan is None:
        raise InputError(f"the program {program} wrote no line that this tool knows, but {line[:40]!r}")
    return plan


def plan_by_host(host: str, path: str, job: bytes) -> bytes:
    """The plan that the host of examples/host writes of a job, however large; or its error."""
    with tempfile.TemporaryDirectory() as folder:
        job_file, plan_file = Path(folder, "job"), Path(folder, "plan")
        job_file.write_bytes(job)
        try:
            done = subprocess.run([host, str(job_file), str(plan_file)], capture_output=True, check=False)
        except OSError as error:
            raise InputError(f"can't run the host {host}: {error.strerror}; {HOST_IS}") from None
        if done.returncode != 0 or not plan_file.is_file():
            raise InputError(f"{path}: {why_no_plan(host, str(job_file), done)}")
        return plan_file.read_bytes()


def why_no_plan(host: str, job_file: str, done: subprocess.CompletedProcess) -> str:
    """What the host says of the job's file, or that it is not the host."""
    said = done.stderr.decode("utf-8", "replace").strip().split("\n")[0]
    if said.startswith(f"{job_file}: "):
        return said.removeprefix(f"{job_file}: ")
    wrote = f"no plan: {host} wrote none and ended with status {done.returncode}"
    return f"{wrote}{f', saying {said!r}' if said else ''}; {HOST_IS}"


def summary(job: Job, plan: bytes, router: str) -> str:
    """What a router's plan makes of a job, net by net."""
    trace = replay(job, plan)
    if trace.broken:
        raise InputError(f"the plan of {router} breaks: {trace.broken}")
    return "".join(line + "\n" for line in summary_lines(job, trace))


def summary_lines(job: Job, trace: Trace) -> Iterator[str]:
    """The job, a line for each net, and the totals."""
    yield job_line(job)
    for net in trace.nets:
        yield net_line(job, net)
    yield totals_line(job, trace)


def net_line(job: Job, net: NetTrace) -> str:
    """Whether a net is joined, and what it cost."""
    pins = len(job.nets[net.number - 1].pins)
    state = "open  " if net.open_pins else "joined"
    numbers = f"cost {net.total('cost')}, added steps {net.total('added')}, penalised segments {net.total('penalised')}"
    line = f"net {net.number}: {state}  {pins - len(net.open_pins)} of {pins} pins, {numbers}"
    return f"{line}; open pins {vertices(net.open_pins)}" if net.open_pins else line
