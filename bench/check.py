"""How long checking a proof of another solver takes, and how much memory."""
import os
import shutil
import statistics
import subprocess
import tempfile

import formulas
import programs

SUMMARY = "times checking DRAT proofs of some 10,000 to 200,000 lines that cadical writes"
# Proofs of these formulas grow in about this order. 4.5 clauses for each variable leave no solution.
FORMULAS = {
    "random-160": lambda: formulas.random_3_sat(160, 720, 1),
    "random-200": lambda: formulas.random_3_sat(200, 900, 1),
    "random-230": lambda: formulas.random_3_sat(230, 1035, 1),
    "pigeonhole-8": lambda: formulas.pigeonhole(8),
    "random-250": lambda: formulas.random_3_sat(250, 1125, 1),
}
# So many lines are to be checked in so many seconds, with at most so many times the proof's bytes of memory. What the
# program takes for itself counts little only in a proof of some length.
LINES, SECONDS, TIMES_BYTES, LONG = 100_000, 20, 3, 50_000
VERIFIED = 0
# The checker of the format's authors, where it is there. With -f it checks the lines in turn, as ours does.
OTHER = "drat-trim"


def add_arguments(command):
    command.add_argument("--only", action="append", choices=list(FORMULAS), help="this formula alone; may be repeated")
    command.add_argument("--repetitions", type=int, default=3, help="checks of each proof (3)")
    command.add_argument("--limit", type=int, default=120, help="seconds of the processor for a check, after which it is killed (120)")


def prove(prover, path, proof):
    """Writes the proof of cadical, and gives the seconds of the processor that it took."""
    status, taken = programs.run_command([*prover.command, "-q", "--no-binary", path, proof], subprocess.DEVNULL, subprocess.DEVNULL, None)
    if status != programs.UNSATISFIABLE:
        programs.stop(f"{prover.name} ended with status {status} on {path}")
    return taken.processor


def lines_of(proof):
    """The number of lines, and of literals in them."""
    lines = literals = 0
    with open(proof, encoding="ascii") as file:
        for line in file:
            lines += 1
            literals += len(line.split()) - 1 - line.startswith("d")
    return lines, literals


def check(command, limit):
    """The seconds of the processor that a check takes, or None past the limit."""
    status, taken = programs.run_command(command, subprocess.DEVNULL, subprocess.DEVNULL, limit)
    if programs.was_killed(status, taken, limit):
        return None
    if status != VERIFIED:
        programs.stop(f"{' '.join(command)} ended with status {status}")
    return taken.processor


def check_in_turn(commands, repetitions, limit):
    """The median seconds of each command, which run in turn, or None for one that came past the limit."""
    runs = [[check(command, limit) for command in commands] for _ in range(repetitions)]
    return [None if None in taken else statistics.median(taken) for taken in zip(*runs)]


def print_row(name, prover, path, proof, repetitions, limit):
    """Prints what one proof takes, and gives its lines, its seconds, and its memory divided by its bytes."""
    writing = prove(prover, path, proof)
    lines, literals = lines_of(proof)
    size = os.path.getsize(proof)
    commands = [[programs.PROGRAM, "check", path, proof]]
    if shutil.which(OTHER):
        commands.append([OTHER, path, proof, "-f"])
    seconds, *others = check_in_turn(commands, repetitions, limit)
    other = others[0] if others else None
    row = f"{name:14} {prover.name:14} {lines:8,} {literals / lines:9.1f} {size:11,} {writing:10.2f}"
    if seconds is None:
        print(f"{row}    > {limit}")
        return None
    check_program = programs.Program("varisat check", [programs.PROGRAM, "check", path])
    memory = programs.peak_memory(check_program, proof, VERIFIED) * 1024
    compared = f"{other:12.2f} {seconds / other:6.2f}" if other else f"{'-':>12} {'-':>6}"
    print(f"{row} {seconds:8.2f} {compared} {lines / seconds:11,.0f} {memory / size:15.1f}")
    return lines, seconds, memory / size


def run(arguments):
    programs.check_tools("cadical", "/usr/bin/time")
    programs.build_ours()
    print(programs.machine())
    print(f"the median of {arguments.repetitions} checks; times are the processor's; ratio: ours to {OTHER} -f\n")
    print(f"{'proof of':14} {'by':14} {'lines':>8} {'literals':>9} {'bytes':>11} {'writing s':>10} {'check s':>8} {'drat-trim s':>12} {'ratio':>6} {'lines a s':>11} {'memory / bytes':>15}")
    rows = []
    with tempfile.TemporaryDirectory() as folder:
        for name, make in FORMULAS.items():
            if arguments.only and name not in arguments.only:
                continue
            path = f"{folder}/{name}.cnf"
            formulas.write(path, make())
            for prover in programs.cadicals():
                rows.append(print_row(name, prover, path, f"{folder}/{name}.drat", arguments.repetitions, arguments.limit))
    if None in rows:
        return 1
    slowest = max(seconds * LINES / lines for lines, seconds, _ in rows)
    most = max((memory for lines, _, memory in rows if lines >= LONG), default=0)
    print(f"\n{LINES:,} lines at the slowest rate: {slowest:.1f} s, aim at most {SECONDS}; memory at most {most:.1f} times the bytes of a proof of {LONG:,} lines or more, aim {TIMES_BYTES}")
    return 0 if slowest <= SECONDS and most <= TIMES_BYTES else 1
