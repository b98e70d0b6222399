"""How long equally many conflicts take in our search and in that of the Rust crate."""
import datetime
import os
import statistics
import subprocess
import tempfile

import formulas
import learning
import programs
import real
import settings

SUMMARY = "times equally many conflicts beside the Rust crate"
THOUSANDS = 20
REPETITIONS = 5
# How a session answers `solve` where its steps are spent, and where a clause is empty.
INTERRUPTED, REFUTED = "err 1", "ok false"
# Neither search ends on them before its conflicts are spent.
NAMES = ["pigeonhole-9", "random-250-unsat", "colouring-150-unsat", "counter-9-unsat", "multiplier-7-unsat", "factoring-30-unsat"]
# What a ratio of times is to be at most: in the mean of the six and on each of them, and in the mean of a folder.
MEAN, EACH, MEAN_OF_FOLDER = 0.85, 1.1, 0.8


def add_arguments(command):
    command.add_argument("--thousands", type=learning.positive, default=THOUSANDS, help=f"thousands of conflicts, a multiple of 5 ({THOUSANDS})")
    command.add_argument("--repetitions", type=learning.positive, default=REPETITIONS, help=f"runs of each program on each formula ({REPETITIONS})")
    command.add_argument("--folder", metavar="FOLDER", help="texts to search in place of the six, as for real; one that is decided so soon is left out")
    command.add_argument("--as-solve", action="store_true", help="ours with the settings of solve, in place of those of a new solver, which the crate has")
    command.add_argument("--program", metavar="FILE", help="our program, in place of the proved one, which else is built where that is due")


def time_crate(crate, path, thousands, awaited):
    """Seconds of the processor that the crate takes, or None where it decides the formula before its conflicts are spent."""
    status, taken = programs.run_command([*crate.command, path, str(thousands)], subprocess.DEVNULL, subprocess.DEVNULL, None)
    if status != awaited and status in (programs.SATISFIABLE, programs.UNSATISFIABLE):
        return None
    programs.must_be(status, awaited, crate)
    return taken.processor


def time_session(lines, awaited):
    """Seconds that our session takes, or None where it decides the formula before its conflicts are spent."""
    with tempfile.TemporaryFile("w+", encoding="utf-8") as output:
        lines.seek(0)
        status, taken = programs.run_command([programs.PROGRAM, "session"], lines, output, None)
        output.seek(0)
        answer = output.read().splitlines()[-1]
    if status == 0 and answer != awaited and answer in ("ok true", "ok false"):
        return None
    if status or answer != awaited:
        programs.stop(f"varisat session ended with status {status} and said {answer}")
    return taken.processor


def median_times(runs, repetitions):
    """The median seconds of each run, or None where one of them ends before its conflicts are spent. They take turns."""
    times = [[] for _ in runs]
    for _ in range(repetitions):
        for run, taken in zip(runs, times):
            taken.append(run())
            if taken[-1] is None:
                return None
    return [statistics.median(taken) for taken in times]


def measure(crate, path, formula, arguments):
    """What our session and the crate take for the conflicts, or None where one of them ends before. Reading the clauses is taken off:
    it is timed by an empty clause at their end."""
    refuted = formulas.refuted(formula)
    refuted_path = f"{path}-refuted"
    formulas.write(refuted_path, refuted)
    chosen = [("max_steps", arguments.thousands * 1000), *(settings.OURS.items() if arguments.as_solve else [])]
    with tempfile.TemporaryFile("w+", encoding="utf-8") as lines, tempfile.TemporaryFile("w+", encoding="utf-8") as refuted_lines:
        for file, clauses in (lines, formula.clauses), (refuted_lines, refuted.clauses):
            programs.write_session(file, clauses, chosen)
            file.flush()
        runs = [
            lambda: time_session(lines, INTERRUPTED),
            lambda: time_crate(crate, path, arguments.thousands, 0),
            lambda: time_session(refuted_lines, REFUTED),
            lambda: time_crate(crate, refuted_path, arguments.thousands, programs.UNSATISFIABLE),
        ]
        times = median_times(runs, arguments.repetitions)
    if times is None:
        return None
    ours, theirs, our_reading, their_reading = times
    return ours - our_reading, theirs - their_reading


def texts(arguments, folder):
    """Each formula's name, the file of its text, and the formula."""
    if arguments.folder is None:
        for name in NAMES:
            formula, path = learning.FORMULAS[name](), f"{folder}/{name}.cnf"
            formulas.write(path, formula)
            yield name, path, formula
        return
    for file in sorted(os.listdir(arguments.folder)):
        if file.endswith((".cnf", ".cnf.xz")):
            clauses = list(formulas.clauses_of(real.unpacked(os.path.join(arguments.folder, file), folder)))
            formula = formulas.Formula(max((abs(lit) for clause in clauses for lit in clause), default=0), clauses)
            name = file[: file.index(".cnf")]
            path = f"{folder}/{name}.cnf"
            formulas.write(path, formula)
            yield name, path, formula


def run(arguments):
    programs.take_ours(arguments.program)
    crate = programs.rust_crate()
    if crate is None:
        programs.stop("the Rust crate is not built: cd bench/crate && cargo build --release")
    print(f"{datetime.date.today()}, {programs.machine()}")
    print(f"{arguments.thousands},000 conflicts with the settings of {'solve' if arguments.as_solve else 'a new solver'}, the median of {arguments.repetitions} runs, without reading\n")
    print(f"{'formula':<24} {'varisat, ms':>12} {'crate, ms':>12} {'ours / theirs':>14}")
    ratios = []
    with tempfile.TemporaryDirectory() as folder:
        for name, path, formula in texts(arguments, folder):
            times = measure(crate, path, formula, arguments)
            if times is None:
                print(f"{name:<24} {'decided before':>38}", flush=True)
                continue
            ours, theirs = times
            ratios.append(ours / theirs)
            print(f"{name:<24} {ours * 1e3:>12,.1f} {theirs * 1e3:>12,.1f} {ratios[-1]:>14.2f}", flush=True)
    if not ratios:
        programs.stop("no formula was searched for so many conflicts by both")
    mean, largest = statistics.geometric_mean(ratios), max(ratios)
    aims = (f", aim at most {MEAN}", f", aim at most {EACH}") if arguments.folder is None else (f", aim at most {MEAN_OF_FOLDER}", "")
    print(f"\ngeometric mean {mean:.2f}{aims[0]}; the largest {largest:.2f}{aims[1]}")
    return 0
