"""How long reading a formula takes, and how much memory."""
import os
import statistics
import tempfile

import formulas
import programs

SUMMARY = "times reading a formula of 100,000 clauses and 1,000,000 literals beside minisat and cadical"
CLAUSES = 100_000
VARIABLES = 20_000
SEED = 1
SIZES = (1, 2, 4)
# Our time is to be at most this many times the faster one's.
AIM = 2.0


def add_arguments(command):
    command.add_argument("--repetitions", type=int, default=11, help="runs of each program at each size (11)")


def time_all(every, path, repetitions):
    """The median times of each program. They run in turn, so that what else the machine does slows each alike."""
    runs = {program.name: [] for program in every}
    for _ in range(repetitions):
        for program in every:
            runs[program.name].append(programs.measure(program, path, programs.UNSATISFIABLE))
    return {
        name: programs.Taken(
            statistics.median(taken.wall for taken in all_taken),
            statistics.median(taken.processor for taken in all_taken),
        )
        for name, all_taken in runs.items()
    }


def print_size(every, path, literals, repetitions):
    """Prints what each program takes for one file, and answers how our time stands to the faster one's."""
    times = time_all(every, path, repetitions)
    ours = times["varisat"].processor
    print(f"\n{literals:,} literals, {os.path.getsize(path):,} bytes")
    print(f"{'':17} wall ms  processor ms  ours / theirs  memory KiB  bytes a literal")
    for program in every:
        taken = times[program.name]
        memory = programs.peak_memory(program, path, programs.UNSATISFIABLE)
        print(
            f"  {program.name:15} {taken.wall * 1e3:7.1f} {taken.processor * 1e3:13.1f} {ours / taken.processor:14.2f}"
            f" {memory:11,} {memory * 1024 / literals:16.1f}"
        )
    return ours / min(taken.processor for name, taken in times.items() if name != "varisat")


def run(arguments):
    programs.check_tools("minisat", "cadical", "/usr/bin/time")
    programs.build_ours()
    every = programs.readers()
    print(programs.machine())
    print(f"the median of {arguments.repetitions} runs; each program reads the file, and an empty clause at its end leaves nothing to search")
    ratios = []
    with tempfile.TemporaryDirectory() as folder:
        empty = f"{folder}/empty.cnf"
        formulas.write_empty(empty)
        starts = time_all(every, empty, arguments.repetitions)
        print("\na formula of the empty clause alone, processor ms: " + ", ".join(f"{name} {taken.processor * 1e3:.1f}" for name, taken in starts.items()))
        for size in SIZES:
            path = f"{folder}/{size}.cnf"
            literals = formulas.write_mixed(path, size * CLAUSES, size * VARIABLES, SEED)
            ratios.append(print_size(every, path, literals, arguments.repetitions))
    print(f"\nours / the faster one's: {ratios[0]:.2f}, aim at most {AIM:.0f}")
    return 0 if ratios[0] <= AIM else 1
