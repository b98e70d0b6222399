"""How long deciding formulas takes where it matters to learn."""
import argparse
import datetime
import statistics
import sys
import tempfile
from dataclasses import dataclass
from typing import Optional

import formulas
import plot
import programs

SUMMARY = "times deciding hard formulas beside minisat and cadical"
LIMIT = 120
REPETITIONS = 5
# Seconds below which a run is repeated, since its time is uncertain.
SHORT = 1.0
# Seeds and sizes that make one of a pair satisfiable, and give minisat hundreds of conflicts at least. The last ten take
# it seconds.
FORMULAS = {
    "pigeonhole-7": lambda: formulas.pigeonhole(7),
    "pigeonhole-8": lambda: formulas.pigeonhole(8),
    "random-4.00-sat": lambda: formulas.random_3_sat(120, 480, 11),
    "random-4.00-unsat": lambda: formulas.random_3_sat(120, 480, 12),
    "random-4.26-sat": lambda: formulas.random_3_sat(120, 511, 5),
    "random-4.26-unsat": lambda: formulas.random_3_sat(120, 511, 9),
    "colouring-sat": lambda: formulas.colouring(200, 460, 3, 2),
    "colouring-unsat": lambda: formulas.colouring(200, 460, 3, 1),
    "counter-sat": lambda: formulas.counter(6, 50, 50),
    "counter-unsat": lambda: formulas.counter(6, 50, 51),
    "monitored-unsat": lambda: formulas.monitored_path(24, 20, 112, 3),
    "sparse-unsat": lambda: formulas.sparse(formulas.colouring(250, 650, 3, 2), 10_000_000, 1),
    "pigeonhole-9": lambda: formulas.pigeonhole(9),
    "random-225-sat": lambda: formulas.random_3_sat(225, 958, 3),
    "random-225-unsat": lambda: formulas.random_3_sat(225, 958, 2),
    "random-250-unsat": lambda: formulas.random_3_sat(250, 1065, 5),
    "colouring-150-unsat": lambda: formulas.colouring(150, 690, 4, 4),
    "counter-9-unsat": lambda: formulas.counter(9, 400, 401),
    "parity-30-unsat": lambda: formulas.parity(30, 1),
    "multiplier-7-unsat": lambda: formulas.commutativity(7),
    "factoring-32-sat": lambda: formulas.factoring(18, 65521 * 65519),
    "factoring-30-unsat": lambda: formulas.factoring(16, 1073741789),
}
PICTURE = f"{programs.ROOT}/bench/learning.svg"
VERDICTS = {programs.SATISFIABLE: "sat", programs.UNSATISFIABLE: "unsat"}
# The columns of a row: what stands above each, in two lines, and where it is aligned. Between them are the times of the peers.
FIRST_COLUMNS = [
    ("", "formula", "<19"),
    ("", "verdict", ">7"),
    ("ms", "varisat", ">10"),
    ("", "defaults", ">10"),
]
LAST_COLUMNS = [
    ("conflicts", "varisat", ">10"),
    ("", "defaults", ">9"),
    ("", "minisat", ">9"),
    ("µs a conflict", "varisat", ">14"),
    ("", "minisat", ">9"),
    ("MiB", "varisat", ">8"),
    ("", "minisat", ">8"),
    ("ours / minisat's", "ms", ">17"),
    ("", "µs", ">6"),
    ("", "MiB", ">6"),
]


@dataclass
class Result:
    """What the runs of a program on a formula came to. What is not known is None."""

    verdict: Optional[int]
    # Seconds of the processor.
    time: Optional[float]
    conflicts: Optional[int] = None
    # The largest resident size, in KiB.
    memory: Optional[int] = None

    def time_per_conflict(self):
        """With all in it that is not search."""
        return self.time / self.conflicts if self.time and self.conflicts else None


# What a ratio is of, and what it is to be at most in the mean.
RATIOS = [
    ("time", lambda result: result.time, 1.3),
    ("time a conflict", Result.time_per_conflict, 1.0),
    ("memory", lambda result: result.memory, 1.2),
]


def positive(text):
    number = int(text)
    if number < 1:
        raise argparse.ArgumentTypeError("has to be at least 1")
    return number


def add_arguments(command):
    command.add_argument("--limit", type=positive, default=LIMIT, metavar="SECONDS", help=f"seconds of the processor for a run ({LIMIT})")
    command.add_argument("--only", action="append", choices=FORMULAS, metavar="NAME", help=f"this formula, and others named so: {', '.join(FORMULAS)}")
    command.add_argument("--plot", action="store_true", help="draw formulas decided against time into bench/learning.svg; the Rust crate too, where bench/crate is built")
    command.add_argument("--repetitions", type=positive, default=REPETITIONS, help=f"runs of each program on each formula, where they take less than {SHORT:.0f} s ({REPETITIONS})")


def decide_all(every, path, limit, repetitions):
    """For each program its run with the median time. They run in turn, so that what else the machine does slows each alike."""
    runs = {program.name: [] for program in every}
    for _ in range(repetitions):
        for program in every:
            if all(run.taken.processor < SHORT for run in runs[program.name]):
                runs[program.name].append(programs.decide(program, path, limit))
    return [sorted(done, key=lambda run: run.taken.processor)[len(done) // 2] for done in runs.values()]


def result_of(program, path, run):
    """What the run came to, with the memory that another one takes."""
    if run.verdict is None:
        return Result(None, None)
    return Result(run.verdict, run.taken.processor, run.conflicts, programs.peak_memory(program, path, run.verdict))


def measure_formula(every, path, clauses, arguments):
    """The result of each program, and that of our session, which decides with the settings of a new solver."""
    runs = decide_all(every, path, arguments.limit, arguments.repetitions)
    results = [result_of(program, path, run) for program, run in zip(every, runs)]
    results[0].conflicts = programs.count_conflicts(path, arguments.limit)
    session = programs.decide_by_session(clauses, arguments.limit)
    return results, Result(session.verdict, None if session.verdict is None else session.taken.processor, session.conflicts)


def ratio_of(ours, theirs, part):
    """How a part of our result stands to that of theirs, or None where one is not known."""
    one, other = part(ours), part(theirs)
    return one / other if one and other else None


def print_row(columns, cells):
    aligned = [f"{cell:{place}}" for cell, (_, _, place) in zip(cells, columns)]
    print(" ".join(aligned).rstrip(), flush=True)


def print_heads(columns):
    print_row(columns, [above for above, _, _ in columns])
    print_row(columns, [below for _, below, _ in columns])


def number_told(number, form, scale=1):
    return "-" if number is None else f"{number * scale:{form}}"


def verdicts_told(verdicts):
    """The one verdict of those who decided, or each of them."""
    return "/".join(sorted({VERDICTS[verdict] for verdict in verdicts if verdict is not None})) or "-"


def columns_of(every):
    """The columns for the programs, of which the first is ours."""
    return [*FIRST_COLUMNS, *(("", program.name, f">{max(10, 1 + len(program.name))}") for program in every[1:]), *LAST_COLUMNS]


def print_formula(name, every, results, defaults, limit):
    """Prints the row of a formula, from the result of each program, of which the first is ours and the second minisat, and ours by default."""
    ours, minisat, *others = results
    cells = [name, verdicts_told(result.verdict for result in results)]
    cells += [f"> {limit} s" if result.time is None else f"{result.time * 1e3:,.1f}" for result in (ours, defaults, minisat, *others)]
    cells += [number_told(result.conflicts, ",") for result in (ours, defaults, minisat)]
    cells += [number_told(result.time_per_conflict(), ",.1f", 1e6) for result in (ours, minisat)]
    cells += [number_told(result.memory, ",.1f", 1 / 1024) for result in (ours, minisat)]
    cells += [number_told(ratio_of(ours, minisat, part), ",.2f") for _, part, _ in RATIOS]
    print_row(columns_of(every), cells)


def print_mean(title, ratios, after=""):
    known = [ratio for ratio in ratios if ratio is not None]
    mean = f"{statistics.geometric_mean(known):,.2f}" if known else "-"
    print(f"{title}: {mean} over {len(known)} of {len(ratios)} formulas{after}")


def print_means(programs_run, every, defaults):
    """Prints the geometric means of the ratios, for the results of each formula."""
    print("\ngeometric means")
    for title, part, aim in RATIOS:
        ratios = [ratio_of(ours, minisat, part) for ours, minisat, *_ in every]
        print_mean(f"  {title}, ours / minisat's", ratios, f", aim at most {aim:.1f}")
    title, part, _ = RATIOS[0]
    for place, program in enumerate(programs_run[2:], start=2):
        print_mean(f"  {title}, ours / {program.name}'s", [ratio_of(results[0], results[place], part) for results in every])
    print_mean(f"  {title}, ours / ours by default", [ratio_of(ours, default, part) for (ours, *_), default in zip(every, defaults)])


def differing(name, every, verdicts):
    """Whether two verdicts on the formula differ, which is told. The last one is that of our session."""
    if len({*verdicts} - {None}) < 2:
        return False
    told = zip([*(program.name for program in every), "varisat session"], verdicts)
    print(f"bench: {name}: {', '.join(f'{who} says {VERDICTS.get(verdict)}' for who, verdict in told)}", file=sys.stderr)
    return True


def draw(every, all_results):
    """Draws a curve for each program, from the results of each formula."""
    times = [[results[place].time for results in all_results] for place in range(len(every))]
    plot.draw(PICTURE, len(all_results), [(program.name, [time for time in known if time is not None]) for program, known in zip(every, times)])


def run(arguments):
    programs.check_tools("minisat", "cadical", "/usr/bin/time", *(programs.DRAWING if arguments.plot else ()))
    programs.build_ours()
    compared = [programs.ours(), programs.learning_minisat(), *map(programs.quiet, [*programs.cadicals(), *programs.kissats()])]
    # It is in the picture alone.
    crate = programs.rust_crate() if arguments.plot else None
    every = [*compared, *([crate] if crate else [])]
    print(f"{datetime.date.today()}, {programs.machine()}")
    print(f"the median of {arguments.repetitions} runs, or of one where a run takes {SHORT:.0f} s; times are the processor's; minisat runs with -no-pre\n")
    print_heads(columns_of(compared))
    all_results, all_defaults, status = [], [], 0
    with tempfile.TemporaryDirectory() as folder:
        for name in (name for name in FORMULAS if not arguments.only or name in arguments.only):
            formula, path = FORMULAS[name](), f"{folder}/{name}.cnf"
            formulas.write(path, formula)
            results, defaults = measure_formula(every, path, formula.clauses, arguments)
            print_formula(name, compared, results[: len(compared)], defaults, arguments.limit)
            all_results.append(results)
            all_defaults.append(defaults)
            if differing(name, every, [result.verdict for result in (*results, defaults)]):
                status = 1
    print_means(compared, all_results, all_defaults)
    if arguments.plot:
        draw(every, all_results)
    return status
