"""How much longer deciding takes where a proof is written."""
import statistics
import subprocess
import tempfile

import formulas
import learning
import programs

SUMMARY = "times deciding formulas with and without a proof, beside cadical"
# Each takes some tenths of a second to some seconds, and none has a model.
NAMES = [
    "pigeonhole-8",
    "random-225-unsat",
    "random-250-unsat",
    "colouring-150-unsat",
    "counter-9-unsat",
    "parity-30-unsat",
    "multiplier-7-unsat",
    "factoring-30-unsat",
]
# What a proof in text that is thrown away may cost in the mean.
AIM = 1.15


def add_arguments(command):
    command.add_argument("--only", action="append", choices=NAMES, metavar="NAME", help=f"this formula, and others named so: {', '.join(NAMES)}")
    command.add_argument("--repetitions", type=learning.positive, default=5, help="turns of all runs (5)")


def commands(path):
    """For each program its runs without a proof, with one in text, and with one in the binary format."""
    ours = [programs.PROGRAM, "solve", path, "--no-simplify"]
    found = [ours, [*ours, "--proof", "/dev/null"], [*ours, "--proof", "/dev/null", "--binary"]]
    for program in programs.cadicals():
        cadical = [*program.command, "-q", path]
        found += [cadical, [*cadical, "/dev/null", "--no-binary"], [*cadical, "/dev/null"]]
    return found


def print_heads():
    heads = f"{'formula':20}"
    for name in ("varisat", *(program.name for program in programs.cadicals())):
        heads += f" {name + ', ms':>17} {'text':>10} {'binary':>10} {'text / none':>12} {'binary / none':>14}"
    print(heads)


def measure(path, repetitions):
    """The median seconds of the processor of each run. They take turns, so that what else the machine does slows each alike."""
    turns = []
    for _ in range(repetitions):
        turn = []
        for command in commands(path):
            status, taken = programs.run_command(command, subprocess.DEVNULL, subprocess.DEVNULL, None)
            if status != programs.UNSATISFIABLE:
                programs.stop(f"{' '.join(command)} ended with status {status}")
            turn.append(taken.processor)
        turns.append(turn)
    return [statistics.median(times) for times in zip(*turns)]


def print_row(name, times):
    """Prints the row, and gives what a proof in text and one in the binary format cost us."""
    told = f"{name:20}"
    for none, text, binary in zip(times[::3], times[1::3], times[2::3]):
        told += f" {none * 1000:17,.1f} {text * 1000:10,.1f} {binary * 1000:10,.1f} {text / none:12.2f} {binary / none:14.2f}"
    print(told, flush=True)
    return times[1] / times[0], times[2] / times[0]


def run(arguments):
    programs.check_tools("cadical")
    programs.build_ours()
    print(programs.machine())
    print(f"the median of {arguments.repetitions} turns; times are the processor's\n")
    print_heads()
    ratios = []
    with tempfile.TemporaryDirectory() as folder:
        for name in arguments.only or NAMES:
            path = f"{folder}/{name}.cnf"
            formulas.write(path, learning.FORMULAS[name]())
            ratios.append(print_row(name, measure(path, arguments.repetitions)))
    text, binary = map(statistics.geometric_mean, zip(*ratios))
    print(f"\nin the mean: {text:.3f} with a proof in text, aim at most {AIM}; {binary:.3f} with a binary one")
    return 0 if text <= AIM else 1
