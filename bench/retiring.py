"""Whether a call takes no more after 10,000 calls whose clauses were retired than after 1,000, beside the libraries of minisat and CaDiCaL."""
import statistics
import tempfile
from dataclasses import dataclass

import incremental
import learning
import programs

SUMMARY = "times calls whose clauses are retired, and tells whether they and the memory stay what they were"
# What a call of ours may take at the end, and the memory, divided by what they took at first.
LIMIT = 1.2
POINT_HEADS = f" {'calls':>8} {'a call, ms':>11} {'MiB':>6}"
GROWTH_HEADS = f"{'ms / first':>12} {'MiB / first':>12} {'ms / half':>12} {'MiB / half':>12}"
HEADS = f"{'solver':13}{3 * POINT_HEADS} {GROWTH_HEADS}"


@dataclass
class Told:
    """How many calls were made; the milliseconds of the processor of one of the last 500, and the resident size in KiB; how many were
    satisfiable, and a checksum of the answers."""

    calls: int
    taken: float
    memory: int
    satisfiable: int
    checksum: int


def add_arguments(command):
    command.add_argument("--repetitions", type=learning.positive, default=3, help="turns of all solvers (3)")
    command.add_argument("--thousands", type=learning.positive, default=10, help="thousands of calls (10)")
    command.add_argument("--lemmas", type=learning.positive, default=20, help="lemmas of a call (20): from some 250 on ours simplifies them first")
    programs.add_against(command)


def told(line):
    calls, taken, *rest = line.split()
    return Told(int(calls), float(taken), *map(int, rest))


def answer(folder, name, arguments):
    """What is told after the first thousand of calls, after half of all, and after the last."""
    lines = incremental.must_run([f"{folder}/{name}", str(1000 * arguments.thousands), str(arguments.lemmas)]).splitlines()
    return [told(lines[index]) for index in (0, (len(lines) - 1) // 2, -1)]


def median(tellings):
    return statistics.median(one.taken for one in tellings), statistics.median(one.memory for one in tellings)


def print_solver(name, turns):
    """Prints the row of a solver, and gives how its time and its memory have grown since the first thousand of calls."""
    points = list(zip(*turns))
    first, half, last = (median(tellings) for tellings in points)
    row = "".join(f" {tellings[0].calls:8,} {taken:11.3f} {memory / 1024:6.1f}" for tellings, (taken, memory) in zip(points, (first, half, last)))
    grown = [last[index] / before[index] for before in (first, half) for index in (0, 1)]
    print(f"{name:13}{row} " + " ".join(f"{ratio:12.2f}" for ratio in grown), flush=True)
    return grown[:2]


def run(arguments):
    incremental.begin(arguments.repetitions)
    print(HEADS)
    with tempfile.TemporaryDirectory() as folder:
        names = incremental.build(folder, "retiring.c", arguments)
        turns = [[answer(folder, name, arguments) for name in names] for _ in range(arguments.repetitions)]
    grown = [print_solver(name, one) for name, one in zip(names, zip(*turns))]
    if len({points[-1].checksum for turn in turns for points in turn}) > 1:
        print("\nthe answers differ", flush=True)
        return 1
    slower = print_against(turns) if arguments.against else 0
    return 1 if max(grown[0]) > LIMIT else slower


def print_against(turns):
    """Compares our calls with those of the other checkout, at the three points at which they are timed, in the mean of the turns."""
    ours, theirs = (list(zip(*solver)) for solver in list(zip(*turns))[:2])
    times = [[statistics.mean(one.taken for one in point) for point in points] for points in (ours, theirs)]
    memory = [max(one.memory for one in points[-1]) for points in (ours, theirs)]
    return programs.print_against([one / other for one, other in zip(*times)], memory[0] / memory[1])
