"""The summaries that loads have to have: each is drawn from its order, and run by the model of staged volumes."""

from formats import plain
from formats.jobs import read_job
from formats.loads import load
from formats.staging_model import Model

KINDS = ("assign", "free", "staged", "changed", "destaged")


def summary(order, programs):
    """The text of a load's summary."""
    job = read_job(load(order, programs).encode())
    lines = Model(job, plain.Machine(job.volumes, job.read_only), plain).report().splitlines()
    made = [line.split()[4] for line in lines if line.startswith("change ")]
    counts = [f"entries {sum(line.startswith('entry ') for line in lines)}"]
    counts += [f"{kind} {made.count(kind)}" for kind in KINDS]
    return "\n".join([f"MSS LOAD {programs}", *counts, lines[-1], ""])
