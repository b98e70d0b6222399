"""Which settings decide files in less time."""
import datetime
import statistics
from concurrent.futures import ThreadPoolExecutor

import formulas
import learning
import programs

SUMMARY = "times deciding formulas under other settings than those of solve"
# The settings of `solve`, where they are others than those of a new solver.
OURS = {"reduce_locals_interval": 2000, "luby_restart_interval_scale": 1, "restart_glue": 110}
# What is tried in place of ours, one at a time.
TRIED = [
    {"reduce_locals_interval": 15000, "luby_restart_interval_scale": 128, "restart_glue": 0},
    {"luby_restart_interval_scale": 64, "restart_glue": 0},
    {"reduce_locals_interval": 1000},
    {"reduce_locals_interval": 1400},
    {"reduce_locals_interval": 2800},
    {"reduce_locals_interval": 4000},
    {"restart_glue": 105},
    {"restart_glue": 125},
    {"restart_glue": 150},
    {"reduce_mids_interval": 2500},
    {"reduce_mids_interval": 5000},
    {"reduce_mids_interval": 20000},
    {"vsids_decay": 900},
    {"vsids_decay": 930},
    {"vsids_decay": 970},
    {"clause_activity_decay": 990},
    {"clause_activity_decay": 995},
]


def families(seed):
    """Formulas that none of the others has, for the seed: each kind in sizes that take about a second."""
    return {
        f"random-235-{seed}": formulas.random_3_sat(235, 1001, 7000 + seed),
        f"random-5-{seed}": formulas.random_3_sat(310, 1550, 7100 + seed),
        f"colouring-150-{seed}": formulas.colouring(150, 690, 4, 7200 + seed),
        f"colouring-440-{seed}": formulas.colouring(440, 1020, 3, 7300 + seed),
        f"counter-9-{seed}": formulas.counter(9, 330 + 20 * seed, 331 + 20 * seed),
        f"parity-{32 + seed}": formulas.parity(32 + seed, 7400 + seed),
        f"monitored-{seed}": formulas.monitored_path(48, 30, 223 + seed, 7500 + seed),
        f"factoring-{seed}": formulas.factoring(16, (1073741783, 1073741741, 1073741723, 1073741719, 1073741717)[seed % 5]),
    }


def add_arguments(command):
    command.add_argument("--limit", type=learning.positive, default=30, metavar="SECONDS", help="seconds of the processor for a run (30)")
    command.add_argument("--seeds", type=learning.positive, default=4, help="how many formulas of each kind (4)")
    command.add_argument("--at-once", type=learning.positive, default=1, metavar="COUNT", help="runs at a time (1)")


def told(settings):
    return ", ".join(f"{name} {number}" for name, number in settings.items())


def decide(formula, settings, limit):
    return programs.decide_by_session(formula.clauses, limit, {**OURS, **settings}.items())


def run(arguments):
    programs.build_ours()
    drawn = {name: formula for seed in range(arguments.seeds) for name, formula in families(seed).items()}
    print(f"{datetime.date.today()}, {programs.machine()}: {len(drawn)} formulas, at most {arguments.limit} s each, {arguments.at_once} at a time")
    times, verdicts = {}, {}
    with ThreadPoolExecutor(arguments.at_once) as pool:
        for name, formula in drawn.items():
            runs = [pool.submit(decide, formula, settings, arguments.limit) for settings in [{}, *TRIED]]
            for place, found in enumerate(run.result() for run in runs):
                # A run past the limit counts as one at the limit.
                times[name, place] = min(found.taken.processor, arguments.limit)
                verdicts.setdefault(name, set()).add(found.verdict)
            print(f"  {name:<20} {times[name, 0]:8.2f} s", flush=True)
    print("\nthe time under the settings of solve with these in their place, divided by that under the settings of solve:")
    print("geometric mean, and how many formulas take less than 0.9 and more than 1.1 of it")
    for place, settings in enumerate(TRIED, 1):
        ratios = [times[name, place] / times[name, 0] for name in drawn]
        less, more = sum(ratio < 0.9 for ratio in ratios), sum(ratio > 1.1 for ratio in ratios)
        print(f"  {told(settings):<64} {statistics.geometric_mean(ratios):6.2f} {less:4} {more:4}")
    return int(any(len(found - {None}) > 1 for found in verdicts.values()))
