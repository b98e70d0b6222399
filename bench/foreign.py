"""How long checking proofs of solvers that simplify takes, beside drat-trim."""
import os
import re
import shutil
import signal
import statistics
import subprocess
import tempfile
from dataclasses import dataclass, replace
from typing import Optional

import check
import formulas
import learning
import programs
import real

SUMMARY = "times checking proofs that solvers which simplify write of the formulas of a folder, beside drat-trim"
CHECKER = check.OTHER
# The width of a solver's name with its version and options.
WIDTH = 46
# What a check may take, in seconds of the processor. The checker's own limit is one of the clock, and is set far above.
CHECK_LIMIT = 600
CLOCK_LIMIT = 20 * CHECK_LIMIT
# What our program tells of a proof on standard error.
TOLD = re.compile(r"^lines (\d+), RAT on the first literal (\d+), on another (\d+), deletions passed over: forced (\d+), absent (\d+)$", re.MULTILINE)
# Marks of lines in FRAT: clauses that DRAT has too, and those that only tell what the solver was given, still has, or counts anew.
ADDED, DELETED = "a", "d"
ONLY_FRAT = ("o", "f", "r")
# Our own formulas: those of `check`, some of `learning`, and smaller ones of the same kinds.
LEARNING = ("pigeonhole-7", "monitored-unsat", "colouring-150-unsat", "counter-9-unsat", "parity-30-unsat", "multiplier-7-unsat", "factoring-30-unsat")
FORMULAS = {
    **check.FORMULAS,
    **{name: learning.FORMULAS[name] for name in LEARNING},
    "counter-8-unsat": lambda: formulas.counter(8, 250, 251),
    "parity-28-unsat": lambda: formulas.parity(28, 2),
    "multiplier-6-unsat": lambda: formulas.commutativity(6),
}


@dataclass
class Solver:
    """A command, behind which the names of a formula and of a proof stand."""

    command: list
    options: str = ""
    is_frat: bool = False


SOLVERS = {
    "kissat": Solver(["kissat", "-q", "-n", "--no-binary"]),
    "cadical": Solver(["cadical", "-q", "-n", "--no-binary"]),
    "cadical-P1": Solver(["cadical", "-q", "-n", "--no-binary", "-P1", "--block=1", "--cover=1", "--condition=1"], " -P1, block, cover, condition"),
    "cryptominisat5": Solver(["cryptominisat5", "--verb", "0"], is_frat=True),
}


@dataclass
class Checked:
    """Whether a proof was verified, None past the limit, the seconds of the processor, and what was printed."""

    is_verified: Optional[bool]
    seconds: float
    printed: str


def add_arguments(command):
    command.add_argument("folder", metavar="FOLDER", help="texts, of which each name ends with .cnf, or with .cnf.xz where xz is there")
    command.add_argument("--only", action="append", metavar="FORMULA", help="this formula alone, without .cnf; may be repeated")
    command.add_argument("--solver", action="append", choices=list(SOLVERS), help="this solver alone, in each version; may be repeated")
    command.add_argument("--limit", type=learning.positive, default=30, help="seconds of the processor for a solver (30)")
    command.add_argument("--bytes", type=learning.positive, default=200_000_000, help="longer proofs are passed over (200000000)")
    command.add_argument("--program", metavar="FILE", help="our program, in place of the proved one, which else is built where that is due")


def name_of(path):
    return os.path.basename(path).partition(".cnf")[0]


def versioned(solver):
    """The solver's name with its version and its options."""
    program = solver.command[0]
    return f"{os.path.basename(program)} {programs.version(program)}{solver.options}"


def leave_ids_out(frat, proof):
    """Writes what a proof in FRAT has of a DRAT proof: added clauses without their ids and hints, and deletions without ids."""
    with open(frat, encoding="ascii") as lines, open(proof, "w", encoding="ascii") as file:
        for line in lines:
            mark, identifier, clause = line.rstrip("\n").split(" ", 2)
            if mark in ONLY_FRAT:
                continue
            if mark not in (ADDED, DELETED) or not identifier.isdigit():
                programs.stop(f"a line of FRAT that DRAT does not have: {line}")
            file.write(f"{'d ' if mark == DELETED else ''}{clause.partition(' l ')[0]}\n")


def prove(solver, path, proof, limit):
    """Whether the solver refutes the formula within the limit. Then its proof is there."""
    written = f"{proof}.frat" if solver.is_frat else proof
    status, taken = programs.run_command([*solver.command, path, written], subprocess.DEVNULL, subprocess.DEVNULL, limit)
    if programs.was_killed(status, taken, limit) or status == programs.SATISFIABLE:
        return False
    if status != programs.UNSATISFIABLE:
        programs.stop(f"{solver.command[0]} ended with status {status} on {os.path.basename(path)}")
    if solver.is_frat:
        leave_ids_out(written, proof)
    return True


def run_check(command):
    """The status, None past the limit, the seconds of the processor, and what was printed."""
    with tempfile.TemporaryFile("w+", encoding="utf-8") as output:
        status, taken = programs.run_command(command, subprocess.DEVNULL, output, CHECK_LIMIT, output)
        output.seek(0)
        printed = output.read()
    # GNU time tells by its status that the program that it ran was killed.
    if status == 128 + signal.SIGKILL or programs.was_killed(status, taken, CHECK_LIMIT):
        status = None
    return status, taken.processor, printed


def check_ours(path, proof):
    """What our check came to, and its peak memory in MiB."""
    with tempfile.NamedTemporaryFile("r", encoding="utf-8") as told:
        command = ["/usr/bin/time", "-f", "%M", "-o", told.name, programs.PROGRAM, "check", "--drat", path, proof]
        status, seconds, printed = run_check(command)
        memory = int(told.read().split()[-1]) / 1024
    if status not in (0, 1, None):
        programs.stop(f"varisat ended with status {status} on {os.path.basename(path)}: {printed}")
    return Checked(None if status is None else status == check.VERIFIED, seconds, printed), memory


def check_other(path, proof):
    status, seconds, printed = run_check([CHECKER, path, proof, "-f", "-t", str(CLOCK_LIMIT)])
    is_past = status is None or "s TIMEOUT" in printed
    return Checked(None if is_past else "s VERIFIED" in printed, seconds, printed)


def difference(ours, other):
    """What is wrong with two verdicts, or None: ours has to verify the proofs that the checker verifies, and none that it refuses."""
    if other.is_verified is None or (ours.is_verified is True) == other.is_verified:
        return None
    verdicts = {True: "verifies", False: "refuses", None: "comes to no end"}
    return f"ours {verdicts[ours.is_verified]}, {CHECKER} {verdicts[other.is_verified]}"


def counts_of(printed):
    """The cells of lines, RAT lines and forced deletions, as our program tells them."""
    found = TOLD.search(printed)
    if not found:
        return f"{'-':>9} {'-':>7} {'-':>7}"
    lines, first, another, forced, _ = map(int, found.groups())
    return f"{lines:9,} {first + another:7,} {forced:7,}"


def seconds_told(checked):
    return f"> {CHECK_LIMIT}" if checked.is_verified is None else f"{checked.seconds:.2f}"


def print_row(heads, path, proof):
    """Prints what the checks of a proof take, and gives the ratio, or None, and what is wrong with the verdicts, or None."""
    ours, memory = check_ours(path, proof)
    other = check_other(path, proof)
    ratio = max(ours.seconds, 0.01) / max(other.seconds, 0.01) if ours.is_verified and other.is_verified else None
    wrong = difference(ours, other)
    row = f"{heads} {counts_of(ours.printed)} {os.path.getsize(proof):12,} {seconds_told(ours):>8} {seconds_told(other):>12}"
    row += f" {ratio:6.2f}" if ratio is not None else f" {'-':>6}"
    print(f"{row} {memory:7.1f}{'  ' + wrong if wrong else ''}", flush=True)
    if ours.is_verified is False:
        print(f"  {ours.printed.strip()}", flush=True)
    return ratio, wrong


def run_solver(solver, name, path, arguments):
    """A row for the solver's proof of the formula, as `print_row` gives it, or None where there is none."""
    heads = f"{name_of(path):20} {name:{WIDTH}}"
    with tempfile.TemporaryDirectory() as folder:
        proof = f"{folder}/proof"
        if not prove(solver, path, proof, arguments.limit):
            return None
        size = os.path.getsize(proof)
        if size > arguments.bytes:
            print(f"{heads} passed over: {size:,} bytes", flush=True)
            return None
        return print_row(heads, path, proof)


def print_mean(name, rows):
    """Prints the mean of our ratios and the largest one of the solver's rows, of which each is a formula's name, a ratio and what is wrong."""
    ratios = [(ratio, formula) for formula, ratio, _ in rows if ratio is not None]
    if ratios:
        largest, formula = max(ratios)
        mean = statistics.geometric_mean(ratio for ratio, _ in ratios)
        print(f"{name:{WIDTH}} {len(ratios):3} proofs: in the mean {mean:.2f} of {CHECKER}, at most {largest:.2f} ({formula})")


def print_ends(rows):
    """Prints means and what is wrong with verdicts, for the rows of each solver, and gives the status."""
    for name, own in rows.items():
        print_mean(name, own)
    print_mean("all", [row for own in rows.values() for row in own])
    differing = [f"{formula}, {name}: {wrong}" for name, own in rows.items() for formula, _, wrong in own if wrong]
    print(f"verdicts that differ: {len(differing)}")
    for each in differing:
        print(f"  {each}")
    return int(bool(differing))


def texts(arguments, folder):
    """The texts of the folder that was named, and our own formulas, which are written into the other one."""
    for name, make in FORMULAS.items():
        formulas.write(f"{folder}/{name}.cnf", make())
    paths = [os.path.join(place, name) for place in (arguments.folder, folder) for name in sorted(os.listdir(place))]
    paths = [path for path in paths if path.endswith((".cnf", ".cnf.xz")) and (not arguments.only or name_of(path) in arguments.only)]
    if not paths:
        programs.stop("there is no such formula")
    return paths


def solvers_of(names):
    """The solvers of these names that the PATH has, and those of bench/peers."""
    found = []
    for solver in (SOLVERS[name] for name in names):
        tool, *options = solver.command
        files = dict.fromkeys([shutil.which(tool), programs.peer(tool)])
        found += [replace(solver, command=[file, *options]) for file in files if file and os.path.exists(file)]
    for solver in found:
        if os.path.basename(solver.command[0]) == "kissat":
            programs.check_kissat(solver.command[0])
    return found


def run_all(solvers, arguments):
    """The rows of each solver."""
    rows = {name: [] for name in solvers}
    with tempfile.TemporaryDirectory() as own:
        for packed in texts(arguments, own):
            with tempfile.TemporaryDirectory() as folder:
                path = real.unpacked(packed, folder)
                for name, solver in solvers.items():
                    row = run_solver(solver, name, path, arguments)
                    if row is not None:
                        rows[name].append((name_of(path), *row))
    return rows


def run(arguments):
    programs.check_tools("/usr/bin/time")
    if not shutil.which(CHECKER):
        programs.stop(f"missing: {CHECKER}")
    chosen = solvers_of(arguments.solver or SOLVERS)
    if not chosen:
        programs.stop("there is no such solver")
    programs.take_ours(arguments.program)
    print(programs.machine())
    print(f"seconds of the processor, one run each: at most {arguments.limit} for a solver, {CHECK_LIMIT} for a check; ratio: ours to {CHECKER} -f\n")
    heads = f"{'formula':20} {'solver':{WIDTH}} {'lines':>9} {'RAT':>7} {'forced':>7} {'bytes':>12} {'ours, s':>8} {CHECKER + ', s':>12} {'ratio':>6} {'MiB':>7}"
    print(heads, flush=True)
    rows = run_all({versioned(solver): solver for solver in chosen}, arguments)
    print()
    return print_ends(rows)
