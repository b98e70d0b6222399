"""Measures three formulas: one process, and `run` with two and with four at a time. Prints the rows of the table in README.md."""
import importlib
import os
import resource
import subprocess
import sys
import tempfile
import time
from pathlib import Path

HERE = Path(__file__).resolve().parent.parent
sys.path[:0] = [str(HERE), str(HERE.parent.parent / "bench")]
formulas = importlib.import_module("formulas")
program = importlib.import_module("common").program

FORMULAS = {
    "pigeonhole-10": lambda: formulas.pigeonhole(10),
    "random-300": lambda: formulas.random_3_sat(300, 1278, 6),
    "colouring-195": lambda: formulas.colouring(195, 901, 4, 3),
}
# How many cubes, and how many of them a process takes.
CUBES, BATCH = 64, 2
# For how many machines the runs of the batches are laid out.
MACHINES = 64


def taken(*words):
    """The seconds on the clock and of all processors, and the status."""
    before, start = resource.getrusage(resource.RUSAGE_CHILDREN), time.monotonic()
    status = subprocess.run(list(map(str, words)), stdout=subprocess.DEVNULL).returncode
    after = resource.getrusage(resource.RUSAGE_CHILDREN)
    return time.monotonic() - start, after.ru_utime + after.ru_stime - before.ru_utime - before.ru_stime, status


def batches_of(folder):
    """The seconds of the processor that each batch took, in the order in which they began."""
    told = [line.split() for line in (folder / "told").read_text().splitlines() if line.startswith("proof ")]
    return [float(seconds) for _, _, seconds, _ in sorted(told)]


def laid_out(seconds, machines):
    """How long the batches take where each goes to the machine that is free first."""
    free = [0.0] * machines
    for second in seconds:
        free[free.index(min(free))] += second
    return max(free)


def measure(name, folder):
    cnf = folder / f"{name}.cnf"
    formulas.write(cnf, FORMULAS[name]())
    cells = [taken(program(), "solve", cnf), taken(HERE / "split", cnf, CUBES)]
    for jobs in (2, 4):
        words = [HERE / "run", cnf, "--dir", folder / f"{name}.{jobs}", "--jobs", jobs, "--cubes", CUBES, "--batch", BATCH, "--unchecked"]
        cells.append(taken(*words, "--seconds", 600))
    cells.append(taken(HERE / "check", cnf, folder / f"{name}.4"))
    print(f"| `{name}` |", " | ".join(f"{wall:.1f} | {processor:.1f}" for wall, processor, _ in cells), "|", [cell[2] for cell in cells])
    print("    load", *os.getloadavg())
    for jobs in (2, 4):
        seconds = batches_of(folder / f"{name}.{jobs}")
        longest, whole = max(seconds), sum(seconds)
        told = ", ".join(f"{laid_out(seconds, machines):.1f} on {machines}" for machines in (1, 2, 4, 8, 16, MACHINES))
        print(f"    {jobs} jobs: {len(seconds)} batches, {whole:.1f} s, the longest {longest:.1f} s; laid out: {told}", flush=True)


def main():
    with tempfile.TemporaryDirectory() as folder:
        for name in sys.argv[1:] or FORMULAS:
            measure(name, Path(folder))


if __name__ == "__main__":
    main()
