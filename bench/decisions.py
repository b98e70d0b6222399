"""How the time of a decision grows with the number of variables."""
import datetime
import statistics
import tempfile
from dataclasses import dataclass
from typing import Callable

import formulas
import programs
from learning import number_told, positive

SUMMARY = "times decisions among 1,000 to 1,000,000 variables beside minisat"
SIZES = (1_000, 10_000, 100_000, 1_000_000)
REPETITIONS = 11
# How many times as many turns a smaller size gets as the next one, since its time is less certain.
MORE = 3


@dataclass
class Part:
    """What is timed: a formula for each number of variables."""

    title: str
    make: Callable
    # What the microseconds are for.
    each: str


PARTS = [
    Part("all activities are the same, and each variable is a decision", formulas.free, "a decision"),
    Part("a conflict bumps half of the variables, and each leaves the heap", formulas.ring, "a variable"),
]


@dataclass
class Measured:
    """Seconds of a whole run, and of its search alone."""

    run: float
    search: float


def add_arguments(command):
    command.add_argument("--repetitions", type=positive, default=REPETITIONS, help=f"turns at the largest size, and {MORE} times as many at each smaller one ({REPETITIONS})")


def write_pair(folder, name, formula):
    """Writes the formula, and the same with an empty clause. Gives each file with the status that a run ends with."""
    whole, refuted = f"{folder}/{name}.cnf", f"{folder}/{name}-refuted.cnf"
    formulas.write(whole, formula)
    formulas.write(refuted, formulas.refuted(formula))
    return [(whole, programs.SATISFIABLE), (refuted, programs.UNSATISFIABLE)]


def times_of(runs):
    """The seconds that each run takes: a program, a file and a status."""
    return [programs.measure(*run).processor for run in runs]


def measure_size(part, size, repetitions):
    """What our program takes for the formula of so many variables, and what the other one does.

    The programs and files take turns, so that what else the machine does slows each alike.
    """
    ours, theirs = [], []
    with tempfile.TemporaryDirectory() as folder:
        files = write_pair(folder, "formula", part.make(size))
        model = write_pair(folder, "model", formulas.last_name(size))
        for _ in range(repetitions):
            run, read, model_run, model_read = times_of((programs.ours(), *file) for file in files + model)
            # Ours prints a model, which is no part of the search. The other program is asked for none.
            ours.append((run, run - read - (model_run - model_read)))
            run, read = times_of((programs.learning_minisat(), *file) for file in files)
            theirs.append((run, run - read))
    return [Measured(*map(statistics.median, zip(*taken))) for taken in (ours, theirs)]


def print_row(cells):
    print(f"{cells[0]:>9} " + " ".join(f"{cell:>11}" for cell in cells[1:]), flush=True)


def print_heads(part):
    print(f"\n{part.title}")
    print_row(["", "varisat", "", "µs", "/ the one", "minisat", "", "µs", "/ the one"])
    print_row(["variables", *2 * ["run, ms", "search, ms", part.each, "before"]])


def print_size(size, both, before):
    """Prints the row of a size. Gives each program's microseconds, or None where chance hid the search."""
    cells, times = [f"{size:,}"], []
    for measured, last in zip(both, before):
        time = measured.search * 1e6 / size if measured.search > 0 else None
        ratio = time / last if time and last else None
        cells += [f"{measured.run * 1e3:,.1f}", f"{measured.search * 1e3:,.2f}", number_told(time, ".3f"), number_told(ratio, ".2f")]
        times.append(time)
    print_row(cells)
    return times


def run(arguments):
    programs.check_tools("minisat")
    programs.build_ours()
    print(f"{datetime.date.today()}, {programs.machine()}")
    print(f"the median of {arguments.repetitions} turns at {SIZES[-1]:,} variables, and of {MORE} times as many at each smaller size; times are the processor's; minisat runs with -no-pre")
    for part in PARTS:
        print_heads(part)
        before = [None, None]
        for place, size in enumerate(SIZES):
            repetitions = arguments.repetitions * MORE ** (len(SIZES) - 1 - place)
            before = print_size(size, measure_size(part, size, repetitions), before)
    return 0
