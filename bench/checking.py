"""How much longer deciding takes where a checker runs inside the solver."""
import statistics
import subprocess
import tempfile
from dataclasses import dataclass

import check
import formulas
import programs
from learning import positive

SUMMARY = "times deciding formulas with a checker inside, beside a proof that is written and then checked"
# What a checker inside may take in the mean, divided by what writing a proof and checking it take one after the other.
AIM = 1.2
HEADS = f"{'formula':14} {'solve, ms':>10} {'--proof':>10} {'check':>10} {'--check':>10} {'--check / solve':>16} {'--check / both':>15} {'MiB, solve':>11} {'check':>8} {'--check':>8}"


@dataclass
class Turn:
    """Seconds of the processor that each command took."""

    alone: float
    proving: float
    checking: float
    inside: float


def add_arguments(command):
    command.add_argument("--only", action="append", choices=list(check.FORMULAS), help="this formula alone; may be repeated")
    command.add_argument("--repetitions", type=positive, default=5, help="turns of all runs (5)")


def seconds_of(command, wanted):
    status, taken = programs.run_command(command, subprocess.DEVNULL, subprocess.DEVNULL, None)
    if status != wanted:
        programs.stop(f"{' '.join(command)} ended with status {status}")
    return taken.processor


def take_turn(path, proof):
    """Runs each command once: deciding alone, with a proof, checking that, and deciding with a checker inside."""
    solve = [programs.PROGRAM, "solve", path, "--no-simplify"]
    return Turn(
        seconds_of(solve, programs.UNSATISFIABLE),
        seconds_of([*solve, "--proof", proof], programs.UNSATISFIABLE),
        seconds_of([programs.PROGRAM, "check", path, proof], check.VERIFIED),
        seconds_of([*solve, "--check"], programs.UNSATISFIABLE),
    )


def peaks(path, proof):
    """The largest resident sizes of deciding, of a check of the proof, and of deciding with a checker inside, in MiB."""
    solve = programs.Program("varisat solve", [programs.PROGRAM, "solve"], options=("--no-simplify",))
    checking = programs.Program("varisat check", [programs.PROGRAM, "check", path])
    inside = programs.Program("varisat solve --check", [programs.PROGRAM, "solve", path], options=("--no-simplify",))
    runs = [(solve, path, programs.UNSATISFIABLE), (checking, proof, check.VERIFIED), (inside, "--check", programs.UNSATISFIABLE)]
    return [programs.peak_memory(*run) / 1024 for run in runs]


def print_row(name, path, proof, repetitions):
    """Prints the row, and gives what a checker inside costs beside both commands and beside deciding alone."""
    turns = [take_turn(path, proof) for _ in range(repetitions)]
    alone, proving, checking, inside = (statistics.median(getattr(turn, field) for turn in turns) for field in ("alone", "proving", "checking", "inside"))
    told = "".join(f" {seconds * 1000:10,.1f}" for seconds in (alone, proving, checking, inside))
    memory = peaks(path, proof)
    both = proving + checking
    print(f"{name:14}{told} {inside / alone:16.2f} {inside / both:15.2f} {memory[0]:11.1f} {memory[1]:8.1f} {memory[2]:8.1f}", flush=True)
    return inside / both, inside / alone


def run(arguments):
    programs.check_tools("/usr/bin/time")
    programs.build_ours()
    print(programs.machine())
    print(f"the median of {arguments.repetitions} turns; times are the processor's\n")
    print(HEADS)
    ratios = []
    with tempfile.TemporaryDirectory() as folder:
        for name in arguments.only or check.FORMULAS:
            path = f"{folder}/{name}.cnf"
            formulas.write(path, check.FORMULAS[name]())
            ratios.append(print_row(name, path, f"{folder}/{name}.drat", arguments.repetitions))
    both, alone = map(statistics.geometric_mean, zip(*ratios))
    print(f"\nin the mean: {both:.2f} of what a proof and its check take, aim at most {AIM}; {alone:.2f} of deciding alone")
    return 0 if both <= AIM else 1
