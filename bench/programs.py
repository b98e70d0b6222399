"""The programs that are compared, the machine they run on, and what a run of one takes."""
import os
import platform
import re
import resource
import shutil
import signal
import statistics
import subprocess
import sys
import tempfile
import time
from dataclasses import dataclass, replace
from typing import Callable, Optional

ROOT = os.path.dirname(os.path.dirname(os.path.abspath(__file__)))
PROGRAM = f"{ROOT}/crates/varisat_cli/out/varisat_cli"
# What cargo builds in bench/crate.
CRATE = f"{ROOT}/bench/crate/target/release/varisat-in-rust"
CRATE_SESSION = f"{CRATE}-session"
# Each tool that is not ours, and the Debian package that has it.
PACKAGES = {"minisat": "minisat", "cadical": "cadical", "/usr/bin/time": "time", "gcc": "gcc", "g++": "g++", "yosys": "yosys"}
# The one that draws.
DRAWING = {"gnuplot": "gnuplot-nox"}
# The name of our build of another checkout, and how much of its time this checkout's may take.
AGAINST = "--against"
SLOWER = 1.05
# The folder that bench/peers made, or None.
PEERS = None
# Debian's library of cadical.
CADICAL_LIBRARY = "/usr/lib/x86_64-linux-gnu/libcadical.a"
SATISFIABLE = 10
UNSATISFIABLE = 20


def untold(output):
    """For a program that does not tell its conflicts."""
    return None


@dataclass
class Program:
    name: str
    command: list
    # From what a run printed, how many conflicts it came to, or None.
    conflicts_of: Callable = untold
    # What stands behind the name of the formula.
    options: tuple = ()


@dataclass
class Taken:
    """Seconds on the clock, and seconds of the processor, the system's work included."""

    wall: float
    processor: float


@dataclass
class Decided:
    """What a run came to: SATISFIABLE, UNSATISFIABLE, or None past the limit."""

    verdict: Optional[int]
    conflicts: Optional[int]
    taken: Taken


def stop(why):
    print(f"bench: {why}", file=sys.stderr)
    sys.exit(2)


def machine():
    with open("/proc/cpuinfo", encoding="utf-8") as file:
        models = [line.partition(":")[2].strip() for line in file if line.startswith("model name")]
    load = os.getloadavg()[0]
    return f"{len(models)} x {models[0] if models else platform.processor()}, Linux {platform.release()}, load {load:.1f}"


def check_tools(*tools):
    packages = {**PACKAGES, **DRAWING}
    missing = [packages[tool] for tool in tools if not shutil.which(tool)]
    if missing:
        stop(f"missing: {', '.join(missing)}. On Debian: apt-get update; apt-get install -y {' '.join(missing)}")


def add_peers(command):
    command.add_argument("--peers", metavar="DIR", help="compare with the solvers that bench/peers made in DIR too")


def take_peers(folder):
    """Has later calls find the solvers that bench/peers made in the folder, and prints the versions of all peers that are there."""
    global PEERS
    PEERS = os.path.abspath(folder) if folder else None
    if folder and not os.path.exists(f"{PEERS}/bin/kissat"):
        stop(f"{folder} has no solvers: run bench/peers {folder}")
    files = [*(shutil.which(name) for name in ("minisat", "cadical", "kissat", "clasp")), peer("cadical"), peer("kissat")]
    print("peers: " + ", ".join(f"{os.path.basename(file)} {version(file)}" for file in files if file), flush=True)
    if folder:
        # For what else is there, as drat-trim, if the PATH has none.
        os.environ["PATH"] += f":{PEERS}/bin"


def peer(name):
    """The program of this name that bench/peers made, or None."""
    return f"{PEERS}/bin/{name}" if PEERS else None


def output_of(*command):
    """What the command prints on standard output; nothing if it is not there or fails."""
    if not shutil.which(command[0]):
        return ""
    return subprocess.run(command, stdin=subprocess.DEVNULL, stdout=subprocess.PIPE, stderr=subprocess.DEVNULL, text=True).stdout


def version(file):
    """The version of the program's Debian package, or else the last word of the first line that the program prints of its version."""
    package = output_of("dpkg", "--search", os.path.realpath(file)).partition(":")[0]
    if package:
        return output_of("dpkg-query", "--show", "--showformat=${Version}", package)
    return (output_of(file, "--version").split("\n", 1)[0].split() or ["of no known version"])[-1]


def check_kissat(file):
    """Stops if the program is a build of kissat with assertions, as that in Debian's package of 4.0.4 is: it takes a multiple of the time."""
    if "-DNDEBUG" not in output_of(file, "--build"):
        stop(f"{file} is a build of kissat with assertions, so that its times say nothing: bench/peers DIR makes one without")


def kissats(file=None):
    """Kissat of the file, or else of the PATH, if it is there; and kissat of bench/peers, whose name has its version."""
    first = file or shutil.which("kissat")
    found = [Program("kissat", [first])] if first and first != peer("kissat") else []
    if PEERS:
        found.append(Program(f"kissat-{version(peer('kissat'))}", [peer("kissat")]))
    for program in found:
        check_kissat(*program.command)
    return found


def cadicals():
    """Cadical of the PATH; and cadical of bench/peers, whose name has its version."""
    return [Program("cadical", ["cadical"])] + ([Program(f"cadical-{version(peer('cadical'))}", [peer("cadical")])] if PEERS else [])


def cadical_libraries():
    """The file of each library of cadical that is there, by the name that its program has in `cadicals`."""
    files = [CADICAL_LIBRARY, *([f"{PEERS}/lib/libcadical.a"] if PEERS else [])]
    return {program.name: file for program, file in zip(cadicals(), files) if os.path.exists(file)}


def quiet(program):
    """The same program, asked to print no statistics."""
    return replace(program, command=[*program.command, "-q"])


def build_ours():
    """Proves and builds our program where that is due, and tells so on standard error."""
    if subprocess.run([f"{ROOT}/varisat", "--prove"], stdin=subprocess.DEVNULL, stdout=sys.stderr).returncode:
        stop("the program was not built")


def is_behind_gate(root, name):
    """Whether the program of the crate is there, as the gate leaves it in the checkout, and no source is newer."""
    told = 'root=$1; . "$root/install/prove.sh"; is_newest "$root/crates/$2/out/$2" "$2"'
    return subprocess.run(["bash", "-c", told, "bash", root, name]).returncode == 0


def build_unproved(root, crate, folder):
    """The program of the crate without proofs, as a first start of ./varisat builds its own, from a copy of the checkout's last commit in
    the folder."""
    copy = os.path.join(folder, crate)
    subprocess.run(["git", "clone", "-q", root, copy], check=True)
    start = f"{copy}/varisat"
    with open(start, encoding="utf-8") as file:
        text = file.read().replace("varisat_cli", crate)
    with open(start, "w", encoding="utf-8") as file:
        file.write(text)
    told = subprocess.run([start, "--which"], stdin=subprocess.DEVNULL, stdout=subprocess.PIPE, stderr=subprocess.DEVNULL, text=True)
    if told.returncode:
        stop(f"the program of {crate} without proofs was not built")
    return told.stdout.strip()


def add_against(command):
    command.add_argument("--unproved", action="store_true", help="build ours without proofs, in some minutes")
    command.add_argument("--against", metavar="CHECKOUT", help=f"time ours of that checkout too, built in the same way, in turn; the status is 1 if this one takes more than {SLOWER} of its time")


def print_against(ratios, memory=None):
    """Prints the geometric mean of the ratios of our times to those of the other checkout, and the ratio of memories, and gives the status."""
    mean = statistics.geometric_mean(ratios)
    told = "" if memory is None else f"; memory {memory:.2f}"
    print(f"\nours / {AGAINST}: {mean:.3f} of the time, at most {SLOWER}: {'slower' if mean > SLOWER else 'not slower'}{told}")
    return int(mean > SLOWER)


def take_ours(file):
    """Has the program in the file stand for ours, or where none is named the proved one, which is built where that is due."""
    global PROGRAM
    if file:
        PROGRAM = os.path.abspath(file)
    else:
        build_ours()


def ours():
    """Our program, as it searches a formula that it does not simplify."""
    return Program("varisat", [PROGRAM, "solve"], options=("--no-simplify",))


def rust_crate():
    """A program over the Rust crate varisat, where it is built, or None."""
    return Program("varisat in Rust", [CRATE]) if os.path.exists(CRATE) else None


def readers():
    """The programs whose reading is compared."""
    return [
        ours(),
        Program("minisat", ["minisat", "-verb=0"]),
        # Without its preprocessing it keeps no lists for that while it reads.
        Program("minisat -no-pre", ["minisat", "-verb=0", "-no-pre"]),
        *map(quiet, [*cadicals(), *kissats()]),
    ]


def minisat_conflicts(output):
    line = re.search(r"^conflicts +: (\d+)", output, re.MULTILINE)
    return int(line[1]) if line else None


def learning_minisat():
    """The program whose search ours is compared with. It prints its conflicts, and searches without preprocessing."""
    return Program("minisat", ["minisat", "-verb=1", "-no-pre"], minisat_conflicts)


def must_be(status, wanted, program):
    if status != wanted:
        stop(f"{program.name} ended with status {status}, not {wanted}")


def run_command(command, source, output, limit, errors=subprocess.DEVNULL):
    """Runs the command, and gives its status and what it took. It is killed past the limit, in whole seconds of the processor."""
    started = time.perf_counter()
    child = subprocess.Popen(command, stdin=source, stdout=output, stderr=errors)
    if limit is not None:
        resource.prlimit(child.pid, resource.RLIMIT_CPU, (limit, limit))
    _, ended, usage = os.wait4(child.pid, 0)
    wall = time.perf_counter() - started
    child.returncode = os.waitstatus_to_exitcode(ended)
    return child.returncode, Taken(wall, usage.ru_utime + usage.ru_stime)


def run_once(program, path, output, limit=None):
    """Runs the program on the file."""
    return run_command([*program.command, path, *program.options], subprocess.DEVNULL, output, limit)


def measure(program, path, status):
    """Runs the program on the file, and sees that it ends with the status."""
    ended, taken = run_once(program, path, subprocess.DEVNULL)
    must_be(ended, status, program)
    return taken


def was_killed(status, taken, limit):
    # The limit is kept by another clock than the times that are told, so that a run at the limit may seem below it.
    return status == -signal.SIGKILL and taken.processor > 0.9 * limit


def count_conflicts(path, limit):
    """How many conflicts our program comes to on the file, which it tells with `--progress`; None past the limit."""
    with tempfile.TemporaryFile("w+", encoding="utf-8") as errors:
        status, taken = run_command([*ours().command, path, *ours().options, "--progress"], subprocess.DEVNULL, subprocess.DEVNULL, limit, errors)
        errors.seek(0)
        line = re.search(r"^c conflicts +(\d+)$", errors.read(), re.MULTILINE)
    if was_killed(status, taken, limit):
        return None
    if not line:
        stop(f"varisat told no conflicts on {os.path.basename(path)}")
    return int(line[1])


def write_session(lines, clauses, settings=()):
    """Writes a session that decides the clauses, with the settings that are given as pairs of a name and a number."""
    lines.writelines(f"config {name} {number}\n" for name, number in settings)
    lines.writelines(" ".join(["add", *map(str, clause)]) + "\n" for clause in clauses)
    lines.write("solve\n")


def decide_by_session(clauses, limit, settings=()):
    """Decides the clauses in a session of our program: with the settings of a new solver, but for those that are given as pairs of a
    name and a number. Each step but one that finds a model comes to a conflict."""
    with tempfile.TemporaryFile("w+", encoding="utf-8") as lines, tempfile.TemporaryFile("w+", encoding="utf-8") as output:
        write_session(lines, clauses, settings)
        lines.write("steps\n")
        lines.seek(0)
        status, taken = run_command([PROGRAM, "session"], lines, output, limit)
        output.seek(0)
        answers = output.read().splitlines()[-2:]
    if was_killed(status, taken, limit):
        return Decided(None, None, taken)
    verdicts = {"ok true": SATISFIABLE, "ok false": UNSATISFIABLE}
    if status or len(answers) < 2 or answers[0] not in verdicts:
        stop(f"varisat session ended with status {status} and decided nothing")
    verdict, steps = verdicts[answers[0]], int(answers[1].split()[1])
    return Decided(verdict, steps - 1 if verdict == SATISFIABLE else steps, taken)


def decide(program, path, limit):
    """Runs the program on the file, and sees that it decides the formula, or is killed past the limit."""
    with tempfile.TemporaryFile("w+", encoding="utf-8") as output:
        status, taken = run_once(program, path, output, limit)
        output.seek(0)
        conflicts = program.conflicts_of(output.read())
    if was_killed(status, taken, limit):
        return Decided(None, None, taken)
    if status not in (SATISFIABLE, UNSATISFIABLE):
        stop(f"{program.name} ended with status {status} on {os.path.basename(path)}, and decided nothing")
    return Decided(status, conflicts, taken)


def peak_memory(program, path, status):
    """The largest resident size of a run, in KiB. A child of Python itself would be told as large as Python."""
    command = ["/usr/bin/time", "--quiet", "-f", "%M", *program.command, path, *program.options]
    done = subprocess.run(command, stdout=subprocess.DEVNULL, stderr=subprocess.PIPE, text=True)
    must_be(done.returncode, status, program)
    return int(done.stderr.split()[-1])
