"""The host's wire report, where the host is built: its counts are those of the tool."""

import os
import subprocess
import unittest

import support
from maizetext.counts import Table, added_up, by_kind, counts_of
from maizetext.job_packing import pack_job
from maizetext.job_reading import read_job
from maizetext.replay import replay
from maizetext.text_reading import read_text
from marked import LETTERS, job_bytes, plan_bytes
from support import EXAMPLES, Folder

HOST = support.ROOT / "target" / "host" / "host"

Pair = tuple[bytes, bytes]
"""A job with its plan."""


def examples() -> list[Pair]:
    """The marked jobs and the crossing."""
    crossing = pack_job(read_text((EXAMPLES / "crossing.txt").read_text(), "crossing.txt"))
    plan = bytes.fromhex((EXAMPLES / "crossing.plan").read_text())
    return [*((job_bytes(letter), plan_bytes(letter)) for letter in LETTERS), (crossing, plan)]


def counts(pair: Pair) -> Table:
    """The tool's counts."""
    job = read_job(pair[0])
    return counts_of(job, replay(job, pair[1]))


def table(pairs: list[Pair], cost: int, joined: int) -> str:
    """What the host must write of plans; layers with no count are left out."""
    of_layers = added_up(map(counts, pairs))
    named = [(str(layer), of_layer) for layer, of_layer in enumerate(of_layers) if any(of_layer)]
    lines = ["layer  wire steps        vias added steps   penalised       guide       short"]
    for name, numbers in [*named, ("all", by_kind(of_layers))]:
        lines.append(f"{name:5}" + "".join(f" {number:11}" for number in numbers))
    return "\n".join([*lines, f"plans {len(pairs)}", f"cost {cost}", f"nets fully joined {joined}", ""])


@unittest.skipUnless(os.access(HOST, os.X_OK), "the host is not built")
class Reports(Folder):
    def reported(self, pairs: list[Pair]) -> subprocess.CompletedProcess:
        """The host on jobs with their plans."""
        files = []
        for number, (job, plan) in enumerate(pairs):
            files += [self.file(f"{number}.job", job), self.file(f"{number}.plan", plan)]
        return subprocess.run([HOST, "--report", *files], capture_output=True, check=False)

    def test_each_example(self):
        for job, plan in examples():
            trace = replay(read_job(job), plan)
            done = self.reported([(job, plan)])
            self.assertEqual((done.returncode, done.stderr), (0, b""))
            self.assertEqual(done.stdout.decode(), table([(job, plan)], trace.total("cost"), trace.joined()))

    def test_all_examples_together(self):
        done = self.reported(examples())
        self.assertEqual((done.returncode, done.stderr), (0, b""))
        self.assertEqual(done.stdout.decode(), table(examples(), 326 + 107, 13 + 4))

    def test_what_is_refused_adds_nothing(self):
        good, plan_of_b, cut = examples()[0], (job_bytes("A"), plan_bytes("B")), (job_bytes("A")[:12], plan_bytes("A"))
        done = self.reported([plan_of_b, good, cut])
        self.assertEqual((done.returncode, done.stdout.decode()), (1, table([good], 3, 1)))
        said = done.stderr.decode().splitlines()
        self.assertEqual(said[0], f"{self.folder}/0.plan: refused 17, move not legal, or not to the right pin: plan bit 44")
        self.assertEqual(said[1:], [f"{self.folder}/2.job: refused 2, group not whole: bit 80"])

    def test_wrong_command_lines(self):
        for given in ((), ("job",), ("job", "plan", "job")):
            done = subprocess.run([HOST, "--report", *given], capture_output=True, check=False)
            self.assertEqual((done.returncode, done.stdout), (2, b""))
            self.assertIn(b"usage: host --report JOB-FILE PLAN-FILE [JOB-FILE PLAN-FILE ..]\n", done.stderr)
        done = subprocess.run([HOST, "--report", self.folder / "none", "plan"], capture_output=True, check=False)
        self.assertEqual((done.returncode, done.stderr.decode()), (2, f"{self.folder}/none: cannot be opened\n"))
