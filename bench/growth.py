"""How the time of a conflict grows with the formula."""
import datetime
import statistics
import tempfile
from dataclasses import dataclass
from typing import Callable

import formulas
import programs
from learning import SHORT, positive, print_heads, print_row

SUMMARY = "times a conflict beside minisat as formulas grow 2, 4 and 8 times"
REPETITIONS = 11
# How many formulas there are of each size.
SEEDS = (0, 1, 2)
PRIMES = (524287, 786433, 1000003)


@dataclass
class Family:
    """Unsatisfiable formulas, of which each size has about twice as many clauses as the one before."""

    name: str
    sizes: tuple
    # The formula of a size and a seed.
    make: Callable


FAMILIES = [
    Family("counter, steps", (50, 100, 200, 400), lambda steps, seed: formulas.counter(9, steps, steps + 1 + seed)),
    Family("monitored, steps", (5, 10, 20, 40), lambda steps, seed: formulas.monitored_path(48, steps, 224, 2 + seed)),
    Family("factoring, bits", (10, 14, 20, 28), lambda bits, seed: formulas.factoring(bits, PRIMES[seed])),
]
COLUMNS = [
    ("", "family", "<17"),
    ("", "size", ">5"),
    ("", "clauses", ">9"),
    ("conflicts", "varisat", ">10"),
    ("", "minisat", ">9"),
    ("µs a conflict", "varisat", ">14"),
    ("", "minisat", ">9"),
    ("ours /", "theirs", ">7"),
    ("times the first", "varisat", ">16"),
    ("", "minisat", ">9"),
    ("ours /", "theirs", ">7"),
]


@dataclass
class Searched:
    """Seconds of the processor that searching took, reading left out, and the conflicts in it."""

    time: float
    conflicts: int


def add_arguments(command):
    command.add_argument("--repetitions", type=positive, default=REPETITIONS, help=f"runs of each program on each file, where they take less than {SHORT:.0f} s ({REPETITIONS})")


def median_times(runs, repetitions):
    """The median seconds of each run of a program on a file. They take turns, so that what else the machine does slows each alike."""
    times = [[] for _ in runs]
    for _ in range(repetitions):
        for run, taken in zip(runs, times):
            if max(taken, default=0) < SHORT:
                taken.append(programs.measure(*run, programs.UNSATISFIABLE).processor)
    return map(statistics.median, times)


def search_both(folder, formula, repetitions):
    """What our program and minisat take to refute the formula. Reading it is timed by an empty clause at its end."""
    whole, refuted = f"{folder}/formula.cnf", f"{folder}/refuted.cnf"
    formulas.write(whole, formula)
    formulas.write(refuted, formulas.refuted(formula))
    ours, minisat = programs.ours(), programs.learning_minisat()
    conflicts = [programs.count_conflicts(whole, None), programs.decide(minisat, whole, None).conflicts]
    runs = [(program, path) for program in (ours, minisat) for path in (whole, refuted)]
    our_run, our_reading, their_run, their_reading = median_times(runs, repetitions)
    return [Searched(time, count) for time, count in zip((our_run - our_reading, their_run - their_reading), conflicts)]


def time_per_conflict(searched):
    return sum(one.time for one in searched) / sum(one.conflicts for one in searched)


def measure_size(folder, family, size, repetitions):
    """The clauses of the first formula, and for each program its conflicts on all formulas and its seconds for one."""
    made = [family.make(size, seed) for seed in SEEDS]
    both = zip(*(search_both(folder, formula, repetitions) for formula in made))
    told = [(sum(one.conflicts for one in searched), time_per_conflict(searched)) for searched in both]
    return len(made[0].clauses), told


def print_size(family, size, clauses, told, first):
    """Prints the row of a size, beside the seconds a conflict of each program at the first size."""
    times = [time for _, time in told]
    grown = [time / before for time, before in zip(times, first)]
    cells = [family.name, f"{size:,}", f"{clauses:,}", *(f"{conflicts:,}" for conflicts, _ in told)]
    cells += [f"{time * 1e6:,.1f}" for time in times] + [f"{times[0] / times[1]:,.2f}"]
    cells += [f"{ratio:,.2f}" for ratio in grown] + [f"{grown[0] / grown[1]:,.2f}"]
    print_row(COLUMNS, cells)


def run(arguments):
    programs.check_tools("minisat")
    programs.build_ours()
    print(f"{datetime.date.today()}, {programs.machine()}")
    print(f"{len(SEEDS)} formulas of each size; the median of {arguments.repetitions} runs, or of one where a run takes {SHORT:.0f} s; times are the processor's, without reading; minisat runs with -no-pre\n")
    print_heads(COLUMNS)
    with tempfile.TemporaryDirectory() as folder:
        for family in FAMILIES:
            first = None
            for size in family.sizes:
                clauses, told = measure_size(folder, family, size, arguments.repetitions)
                first = first or [time for _, time in told]
                print_size(family, size, clauses, told, first)
    return 0
