"""What incremental calls take through IPASIR, beside the libraries of minisat and CaDiCaL."""
import datetime
import os
import shutil
import statistics
import subprocess
import tempfile
from dataclasses import dataclass

import learning
import programs

SUMMARY = "times 1,000 incremental calls over 100,000 variables through IPASIR, beside minisat and cadical where they are there"
SOURCES = f"{programs.ROOT}/bench/incremental"
# Debian's library.
MINISAT = "/usr/lib/libminisat.a"
HEADS = f"{'solver':13} {'clauses, ms':>12} {'first search':>13} {'calls':>12} {'a call':>10} {'MiB':>8} {'satisfiable':>12} {'ours / theirs':>14}"


@dataclass
class Answered:
    """The milliseconds of the processor, the largest resident size in KiB, how many calls were satisfiable, and a checksum of the answers."""

    clauses: float
    first: float
    calls: float
    memory: int
    satisfiable: int
    checksum: int


def add_arguments(command):
    command.add_argument("--repetitions", type=learning.positive, default=3, help="turns of all solvers (3)")
    command.add_argument("--calls", type=learning.positive, default=1000, help="incremental calls (1000)")
    programs.add_against(command)


def must_run(command, folder=None):
    done = subprocess.run(command, cwd=folder, stdout=subprocess.PIPE, stderr=subprocess.STDOUT, text=True)
    if done.returncode:
        programs.stop(f"{' '.join(command)} ended with status {done.returncode}:\n{done.stdout}")
    return done.stdout


def build_library(root=programs.ROOT, is_unproved=False):
    """Our library in the checkout, which is built where that is due."""
    must_run(["make", "-s", "-C", f"{root}/contrib/c", *(["UNPROVED=1"] if is_unproved else [])])
    return f"{os.path.abspath(root)}/out/c{'-unproved' if is_unproved else ''}/libvarisat.a"


def compile_client(folder, source):
    """The object file of the client, in C or C++."""
    compiled = f"{folder}/client.o"
    dialect = [] if source.endswith(".cc") else ["-std=c11", "-D_POSIX_C_SOURCE=200809L"]
    must_run([compiler_of(source), *dialect, "-O2", "-c", f"{SOURCES}/{source}", "-o", compiled])
    return compiled


def compiler_of(source):
    return "g++" if source.endswith(".cc") else "gcc"


def build(folder, source, arguments):
    """Links the client to each library that is there, and gives their names: ours, that of another checkout, and those of the peers."""
    ours = {"varisat": programs.ROOT, **({programs.AGAINST: arguments.against} if arguments.against else {})}
    libraries = {name: build_library(root, arguments.unproved) for name, root in ours.items()}
    compiled = compile_client(folder, source)
    # Ours needs no library of C++, which would take memory.
    linked = {name: [compiler_of(source), compiled, library] for name, library in libraries.items()}
    if os.path.exists(MINISAT):
        linked["minisat"] = ["g++", "-w", "-D__STDC_LIMIT_MACROS", "-D__STDC_FORMAT_MACROS", compiled, f"{SOURCES}/minisat.cc", MINISAT]
    linked.update({name: ["g++", compiled, library] for name, library in programs.cadical_libraries().items()})
    for name, command in linked.items():
        must_run([*command, "-O2", "-o", f"{folder}/{name}"])
    return list(linked)


def answer(folder, name, calls):
    words = must_run([f"{folder}/{name}", str(calls)]).split()
    return Answered(*map(float, words[:3]), *map(int, words[3:]))


def print_solver(name, runs, calls, ours):
    """Prints the row of a solver, and gives the milliseconds of its calls."""
    clauses, first, all_calls = (statistics.median(times) for times in zip(*((run.clauses, run.first, run.calls) for run in runs)))
    ratio = f"{ours / all_calls:14.2f}" if ours else ""
    memory = max(run.memory for run in runs) / 1024
    print(f"{name:13} {clauses:12,.1f} {first:13,.1f} {all_calls:12,.1f} {all_calls / calls:10,.2f} {memory:8,.1f} {runs[0].satisfiable:12,} {ratio}", flush=True)
    return all_calls


def begin(repetitions, middle="median"):
    """Sees that the tools are there, and prints where and how it is measured."""
    programs.check_tools("gcc", "g++")
    if not shutil.which("rt"):
        programs.stop("the command rt of the Rattle kit is not there")
    print(f"{datetime.date.today()}, {programs.machine()}")
    print(f"the {middle} of {repetitions} turns; times are the processor's\n")


def run(arguments):
    begin(arguments.repetitions)
    print(HEADS)
    with tempfile.TemporaryDirectory() as folder:
        names = build(folder, "calls.c", arguments)
        turns = [[answer(folder, name, arguments.calls) for name in names] for _ in range(arguments.repetitions)]
    ours = None
    for name, runs in zip(names, zip(*turns)):
        taken = print_solver(name, runs, arguments.calls, ours)
        ours = ours or taken
    if len({one.checksum for turn in turns for one in turn}) > 1:
        print("\nthe answers differ", flush=True)
        return 1
    if arguments.against:
        ours, theirs, *_ = zip(*turns)
        return programs.print_against([mean_time(ours) / mean_time(theirs)], max(run.memory for run in ours) / max(run.memory for run in theirs))
    return 0


def mean_time(runs):
    """The mean milliseconds of all that the runs of a solver did."""
    return statistics.mean(run.clauses + run.first + run.calls for run in runs)
