"""How long formulas from clients take, in a folder of DIMACS CNF texts, and what simplifying them takes."""
import json
import os
import re
import shutil
import statistics
import subprocess
import tempfile
import threading
from concurrent.futures import ThreadPoolExecutor
from dataclasses import replace

import learning
import programs
from formulas import clauses_of

SUMMARY = "times deciding the formulas of a folder, beside minisat, cadical and kissat"
CHECKER = "drat-trim"
# What a check by the checker may take, in seconds.
CHECK_LIMIT = 600
# One run at a time writes to the file of results.
WRITING = threading.Lock()


def add_arguments(command):
    command.add_argument("folder", metavar="FOLDER", help="texts, of which each name ends with .cnf, or with .cnf.xz where xz is there")
    command.add_argument("--limit", type=learning.positive, default=30, help="seconds of the processor for a run (30)")
    command.add_argument("--check", action="store_true", help=f"check each proof by {CHECKER}, where it is there, and that of a search without simplification")
    command.add_argument("--program", metavar="FILE", help="our program, in place of the proved one, which else is built where that is due")
    command.add_argument("--kissat", metavar="FILE", help="the program kissat (the one on the PATH)")
    command.add_argument("--at-once", type=learning.positive, default=1, metavar="COUNT", help="runs at a time (1)")
    command.add_argument("--results", metavar="FILE", help="a line of JSON for each run is added to it, and the runs that it has are not made again")
    command.add_argument("--deciding", action="store_true", help="measure no simplifying")


def conflicts_told(output):
    """How many conflicts a run of ours, of cadical or of kissat told, or None."""
    counts = re.findall(r"^c conflicts:? +(\d+)", output, re.MULTILINE)
    return int(counts[-1]) if counts else None


def solvers(kissat):
    ours = [programs.PROGRAM, "solve"]
    found = [
        programs.Program("varisat", ours, conflicts_told, ("--progress",)),
        programs.Program("--no-simplify", ours, conflicts_told, ("--progress", "--no-simplify")),
        programs.Program("minisat", ["minisat", "-verb=1"], programs.minisat_conflicts),
        replace(programs.learning_minisat(), name="minisat -no-pre"),
    ]
    return found + [replace(program, conflicts_of=conflicts_told) for program in (*programs.cadicals(), *programs.kissats(kissat))]


def unpacked(path, folder):
    """The text itself, unpacked into the folder where it is packed."""
    if not path.endswith(".xz"):
        return path
    text = os.path.join(folder, os.path.basename(path)[: -len(".xz")])
    with open(text, "wb") as file:
        subprocess.run(["xz", "-dc", path], stdout=file, check=True)
    return text


def check_model(path, output):
    """Stops unless the model that our program printed has a literal of each clause."""
    model = set()
    for line in output.splitlines():
        if line.startswith("v"):
            model.update(map(int, line.split()[1:]))
    if not all(any(literal in model for literal in clause) for clause in clauses_of(path)):
        programs.stop(f"the model of {os.path.basename(path)} does not satisfy it")


def decide(program, path, limit):
    """The status, None past the limit, the seconds of the processor, and the conflicts that were told, or None."""
    name = os.path.basename(path)[:-4]
    with tempfile.TemporaryFile("w+", encoding="utf-8") as output:
        command = [*program.command, path, *program.options]
        status, taken = programs.run_command(command, subprocess.DEVNULL, output, limit, output)
        output.seek(0)
        printed = output.read()
    if programs.was_killed(status, taken, limit):
        status = None
    elif status not in (programs.SATISFIABLE, programs.UNSATISFIABLE):
        programs.stop(f"{program.name} ended with status {status} on {name}")
    elif status == programs.SATISFIABLE and program.command[0] == programs.PROGRAM:
        check_model(path, printed)
    return {
        "formula": name,
        "program": program.name,
        "limit": limit,
        "status": status,
        "seconds": taken.processor if status else limit,
        "conflicts": program.conflicts_of(printed),
    }


def simplifiers():
    """Programs that read a formula, simplify it and stop: ours with the lists of the search filled, minisat with the clauses left written."""
    return [
        programs.Program("varisat", [programs.PROGRAM, "solve"], options=("--max-steps", "0")),
        programs.Program("minisat", ["minisat", "-verb=0", "-dimacs=/dev/null"]),
    ]


def literals_of(path):
    """How many millions of literals the text has."""
    return sum(map(len, clauses_of(path))) / 1e6


def measure_simplifying(program, path):
    """Seconds of the processor and MiB that a run takes."""
    with tempfile.NamedTemporaryFile("r", encoding="utf-8") as told:
        command = ["/usr/bin/time", "-f", "%M", "-o", told.name, *program.command, path, *program.options]
        _, taken = programs.run_command(command, subprocess.DEVNULL, subprocess.DEVNULL, None)
        return taken.processor, int(told.read().split()[-1]) / 1024


def run_simplifiers(path):
    """Prints what simplifying takes a million literals, and gives the seconds and the MiB of each program."""
    size = literals_of(path)
    found = [measure_simplifying(program, path) for program in simplifiers()]
    row = f"{os.path.basename(path)[:-4]:24} {size:7.2f}"
    row += "".join(f" {seconds / size:11.2f} {memory / size:11.0f}" for seconds, memory in found)
    print(row, flush=True)
    return found


def check_proof(path, folder, limit, *options):
    """Seconds of the checker for our proof, or None where there is none or it came to no end."""
    proof = os.path.join(folder, "proof")
    command = [programs.PROGRAM, "solve", path, "--proof", proof, *options]
    status, _ = programs.run_command(command, subprocess.DEVNULL, subprocess.DEVNULL, 2 * limit)
    if status != programs.UNSATISFIABLE:
        return None
    with tempfile.TemporaryFile("w+", encoding="utf-8") as output:
        command = [CHECKER, path, proof, "-f", "-t", str(CHECK_LIMIT)]
        _, taken = programs.run_command(command, subprocess.DEVNULL, output, CHECK_LIMIT)
        output.seek(0)
        printed = output.read()
    if "s NOT VERIFIED" in printed:
        programs.stop(f"{CHECKER} refuses the proof of {os.path.basename(path)}")
    return taken.processor if "s VERIFIED" in printed else None


def known_results(arguments):
    """The runs of the file that had this limit, by formula and program."""
    if not arguments.results or not os.path.exists(arguments.results):
        return {}
    with open(arguments.results, encoding="utf-8") as file:
        results = map(json.loads, file)
        return {(result["formula"], result["program"]): result for result in results if result["limit"] == arguments.limit}


def decide_or_know(known, program, path, arguments):
    """The run's result, out of the file of results where it is there, else put into it."""
    result = known.get((os.path.basename(path)[:-4], program.name))
    if not result:
        result = decide(program, path, arguments.limit)
        if arguments.results:
            with WRITING, open(arguments.results, "a", encoding="utf-8") as file:
                print(json.dumps(result), file=file)
    return result


def print_formula(path, found, folder, arguments):
    """Prints a row, and gives the seconds of each program. `*` is a run past the limit."""
    name = os.path.basename(path)[:-4]
    verdicts = {result["status"] for result in found if result["status"]}
    if len(verdicts) > 1:
        programs.stop(f"the programs do not agree on {name}")
    verdict = max(verdicts, default=None)
    row = f"{name:24} {str(verdict or '-'):>7}"
    row += "".join(f" {result['seconds']:14.2f}{' ' if result['status'] else '*'}" for result in found)
    row += "".join(f" {'-' if result['conflicts'] is None else result['conflicts']:>15}" for result in found)
    if arguments.check and found[0]["status"] == programs.UNSATISFIABLE:
        for options in ((), ("--no-simplify",)):
            seconds = check_proof(path, folder, arguments.limit, *options)
            row += f" {seconds:12.2f}" if seconds is not None else f" {'-':>12}"
    print(row, flush=True)
    return [result["seconds"] for result in found]


def mean_ratio(rows, ours, theirs):
    return statistics.geometric_mean(max(row[ours], 0.01) / max(row[theirs], 0.01) for row in rows)


def each_text(arguments, names, run_text):
    """What the function returns for each text, unpacked, and a folder of its own."""
    found = []
    for name in names:
        with tempfile.TemporaryDirectory() as folder:
            found.append(run_text(unpacked(os.path.join(arguments.folder, name), folder), folder))
    return found


def print_heads(programs_run, arguments):
    print(f"seconds of the processor, at most {arguments.limit}, and conflicts\n")
    heads = f"{'formula':24} {'verdict':>7}" + "".join(f" {program.name:>14} " for program in programs_run)
    heads += "".join(f" {program.name:>15}" for program in programs_run)
    print(heads + (f" {CHECKER:>12} {'unsimplified':>12}" if arguments.check else ""))


def decide_all(arguments, names):
    """Runs go on over all formulas, so many at once, and a row is printed as soon as those of its formula have ended."""
    known, compared = known_results(arguments), solvers(arguments.kissat)
    print_heads(compared, arguments)
    with tempfile.TemporaryDirectory() as folder, ThreadPoolExecutor(arguments.at_once) as pool:
        texts = [unpacked(os.path.join(arguments.folder, name), folder) for name in names]
        runs = [[pool.submit(decide_or_know, known, program, text, arguments) for program in compared] for text in texts]
        rows = [print_formula(text, [run.result() for run in started], folder, arguments) for text, started in zip(texts, runs)]
    for index, program in enumerate(compared[2:], start=2):
        ratios = mean_ratio(rows, 0, index), mean_ratio(rows, 1, index)
        print(f"in the mean {ratios[0]:.2f} of {program.name}, and without simplification {ratios[1]:.2f}")


def simplify_all(arguments, names):
    print("\nreading and simplifying, for a million literals\n")
    heads = "".join(f" {program.name + ', s':>11} {'MiB':>11}" for program in simplifiers())
    print(f"{'formula':24} {'million':>7}" + heads)
    rows = each_text(arguments, names, lambda path, folder: run_simplifiers(path))
    for index, name in enumerate(("time", "memory")):
        ratio = statistics.geometric_mean(max(ours[index], 0.01) / max(theirs[index], 0.01) for ours, theirs in rows)
        print(f"in the mean {ratio:.2f} of minisat's {name}")


def run(arguments):
    programs.check_tools("minisat", "cadical", "/usr/bin/time")
    if arguments.kissat and not shutil.which(arguments.kissat):
        programs.stop(f"missing: {arguments.kissat}")
    if arguments.check and not shutil.which(CHECKER):
        programs.stop(f"missing: {CHECKER}")
    names = sorted(name for name in os.listdir(arguments.folder) if name.endswith((".cnf", ".cnf.xz")))
    if not names:
        programs.stop(f"{arguments.folder} has no formula")
    programs.take_ours(arguments.program)
    print(programs.machine())
    if arguments.kissat:
        print(f"kissat is {programs.version(shutil.which(arguments.kissat))}, of {arguments.kissat}")
    decide_all(arguments, names)
    if not arguments.deciding:
        simplify_all(arguments, names)
    return 0
