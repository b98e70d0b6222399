"""How long our MaxSAT solver takes for an optimum, beside clasp and sat4j."""
import datetime
import math
import os
import re
import shutil
import statistics
import subprocess
import sys
import tempfile

import learning
import maxsat_problems
import programs

SUMMARY = "times the optimum of MaxSAT problems, beside clasp and sat4j"
# The jars of Debian's package sat4j.
SAT4J = [f"/usr/share/java/org.ow2.sat4j.{part}.jar" for part in ("maxsat", "pb", "core")]
LIMIT = 20
# Seconds below which a time counts as this one, since chance moves it.
LEAST = 0.05
# What clasp decides within so many seconds is to take ours at most so many times as long, and in the mean less.
WITHIN = 10
EACH = 4.0
MEAN = 1.5
PROBLEMS = {
    **{f"pack-{count}": (maxsat_problems.packages, count, count) for count in (40, 80, 150)},
    **{f"time-{count}": (maxsat_problems.lessons, count, hours, count) for count, hours in ((12, 3), (16, 3), (20, 4))},
    **{f"wrand-{seed}": (maxsat_problems.random_units, 200, 600, 120, 20, seed + 1) for seed in (0, 2, 4)},
    **{f"rand-{seed}": (maxsat_problems.random_units, 200, 800, 200, 1, seed + 1) for seed in (0, 1, 4)},
}


def add_arguments(command):
    command.add_argument("--limit", type=int, default=LIMIT, metavar="SECONDS", help=f"of the processor, for each run ({LIMIT})")
    command.add_argument("--program", metavar="FILE", help="time this program, and build none")
    command.add_argument("--repetitions", type=learning.positive, default=1, help="turns of all solvers, of whose times the means count (1)")
    programs.add_against(command)


def solvers(arguments, folder):
    """Ours, that of another checkout, and those of the others that are there."""
    found = [programs.Program("maxsat", [arguments.program or build_ours(programs.ROOT, arguments.unproved, folder)])]
    if arguments.against:
        os.mkdir(f"{folder}/against")
        found.append(programs.Program(programs.AGAINST, [build_ours(os.path.abspath(arguments.against), arguments.unproved, f"{folder}/against")]))
    if shutil.which("clasp"):
        found.append(programs.Program("clasp", ["clasp", "--quiet=1"]))
    if shutil.which("java") and os.path.exists(SAT4J[0]):
        found.append(programs.Program("sat4j", ["java", "-cp", ":".join(SAT4J), "org.sat4j.maxsat.GenericOptLauncher"]))
    return found


def optimum(solver, path, limit):
    """The cost that the solver found to be the least, "none" where nothing satisfies the hard clauses, or None, and its seconds of the
    processor."""
    with tempfile.TemporaryFile("w+", encoding="utf-8") as output:
        _, taken = programs.run_once(solver, path, output, limit)
        output.seek(0)
        text = output.read()
    if "s UNSATISFIABLE" in text:
        return "none", taken.processor
    costs = re.findall(r"^o (\d+)$", text, re.MULTILINE)
    if "s OPTIMUM FOUND" not in text or not costs:
        return None, taken.processor
    return int(costs[-1]), taken.processor


def build_ours(root=programs.ROOT, is_unproved=False, folder=None):
    """The program of the checkout: proved and built there, unless the gate left it; or without proofs, in the folder."""
    if is_unproved:
        return programs.build_unproved(root, "maxsat", folder)
    if not programs.is_behind_gate(root, "maxsat"):
        command = ["rt", "run", "--", "-"]
        if subprocess.run(command, cwd=f"{root}/crates/maxsat", stdin=subprocess.DEVNULL, stdout=sys.stderr).returncode not in (0, 2):
            programs.stop("the program was not built")
    return f"{root}/crates/maxsat/out/maxsat"


def measure(every, path, arguments):
    """The costs that the solvers found, and for each solver the cost of its last turn, or None if a turn found none, and its mean seconds.
    They take turns."""
    turns = [[optimum(solver, path, arguments.limit) for solver in every] for _ in range(arguments.repetitions)]
    costs = {cost for turn in turns for cost, _ in turn if cost is not None}
    results = {}
    for solver, runs in zip(every, zip(*turns)):
        has_found = all(cost is not None for cost, _ in runs)
        results[solver.name] = (runs[-1][0] if has_found else None, statistics.mean(seconds for _, seconds in runs))
    return costs, results


def run(arguments):
    failed, ratios, against = False, [], []
    with tempfile.TemporaryDirectory() as folder:
        every = solvers(arguments, folder)
        print(f"{datetime.date.today()}, {programs.machine()}")
        print(f"the mean of {arguments.repetitions} turns; seconds are the processor's\n")
        print("| problem | cost |", " | ".join(solver.name for solver in every), "|")
        print("|---|---|" + "---|" * len(every))
        for name, (make, *numbers) in PROBLEMS.items():
            path = f"{folder}/{name}.wcnf"
            make(*numbers).write(path)
            costs, results = measure(every, path, arguments)
            if len(costs) > 1:
                print(f"different costs on {name}: {results}")
                failed = True
            if arguments.against:
                against.append(max(results["maxsat"][1], LEAST) / max(results[programs.AGAINST][1], LEAST))
            times = [f"{seconds:.2f}" if cost is not None else f"> {arguments.limit}" for cost, seconds in results.values()]
            print(f"| {name} | {min(costs, key=str, default='')} |", " | ".join(times), "|", flush=True)
            (cost, ours), (other, theirs) = results["maxsat"], results.get("clasp", (None, 0))
            if other is not None and theirs < WITHIN and (cost is None or ours > EACH * max(theirs, 0.01)):
                failed = True
            if cost is not None and other is not None and cost != "none":
                ratios.append(max(ours, 0.01) / max(theirs, 0.01))
    if ratios:
        mean = math.exp(sum(map(math.log, ratios)) / len(ratios))
        print(f"\nours / clasp in the geometric mean of {len(ratios)}: {mean:.2f}")
        failed = failed or mean > MEAN
    if against:
        failed = bool(programs.print_against(against)) or failed
    return int(failed)
