"""The program without proofs beside the proved one."""
import datetime
import statistics
import tempfile
from functools import partial

import checking
import conflicts
import formulas
import learning
import programs

SUMMARY = "times deciding formulas by the program without proofs, beside the proved one"
# Searches of a second or more.
NAMES = conflicts.NAMES
REPETITIONS = 3


def add_arguments(command):
    command.add_argument("--repetitions", type=learning.positive, default=REPETITIONS, help=f"runs of each program on each formula ({REPETITIONS})")


def run(arguments):
    programs.build_ours()
    with tempfile.TemporaryDirectory() as folder:
        unproved = programs.build_unproved(programs.ROOT, "varisat_cli", folder)
        print(f"{datetime.date.today()}, {programs.machine()}")
        print(f"the median of {arguments.repetitions} runs\n")
        print(f"{'formula':<20} {'proved, s':>10} {'unproved, s':>12} {'unproved / proved':>18}")
        ratios = []
        for name in NAMES:
            path = f"{folder}/{name}.cnf"
            formulas.write(path, learning.FORMULAS[name]())
            runs = [partial(checking.seconds_of, [program, "solve", path], programs.UNSATISFIABLE) for program in (programs.PROGRAM, unproved)]
            ours, theirs = conflicts.median_times(runs, arguments.repetitions)
            ratios.append(theirs / ours)
            print(f"{name:<20} {ours:>10.2f} {theirs:>12.2f} {ratios[-1]:>18.2f}", flush=True)
    print(f"\ngeometric mean {statistics.geometric_mean(ratios):.2f}")
    return 0
