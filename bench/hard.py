"""Formulas that take a search longer than those of the other benchmarks."""
import os

import clients
import families
import formulas
import puzzles

SUMMARY = "makes formulas that take minisat 10 seconds and more"
# A function that makes each formula.
FORMULAS = {
    "random-280-unsat": lambda: formulas.random_3_sat(280, 1204, 8001),
    "random-300-sat": lambda: formulas.random_3_sat(300, 1290, 8002),
    "random-4-100-unsat": lambda: formulas.random_sat(100, 993, 4, 8003),
    "random-5-65-unsat": lambda: formulas.random_sat(65, 1385, 5, 8006),
    "random-7-40-unsat": lambda: formulas.random_sat(40, 3512, 7, 8007),
    "colouring-174-unsat": lambda: formulas.colouring(174, 800, 4, 8005),
    "counter-10-unsat": lambda: formulas.counter(10, 800, 801),
    "parity-34-unsat": lambda: formulas.parity(34, 31400),
    "parity-36-unsat": lambda: formulas.parity(36, 31400),
    "multiplier-8-unsat": lambda: formulas.commutativity(8),
    "two-multipliers-8-unsat": lambda: formulas.two_multipliers(8),
    "factoring-36-unsat": lambda: formulas.factoring(19, 68719476731),
    "degrees-31-unsat": lambda: formulas.odd_degrees(31, 4, 8008),
    "progressions-114-unsat": lambda: formulas.two_kinds(114, 3, 11),
    "three-kinds-51-unsat": lambda: puzzles.many_kinds(51, (3, 3, 4)),
    "counts-22-unsat": lambda: formulas.counts(22, 8009),
    "dominoes-12-unsat": lambda: puzzles.dominoes(12),
    "life-15-sat": lambda: puzzles.life(15, 2, 4, 1),
    "core-7-unsat": lambda: clients.of_verilog("core", "same", 7, WIDTH=8),
    "queue-14-unsat": lambda: clients.of_verilog("queue", "same", 14, WIDTH=4, BITS=3),
    "arbiter-10-unsat": lambda: clients.of_verilog("arbiter", "right", 16, SIZE=10),
    "product-8-unsat": lambda: clients.of_verilog("product", "same", 10, WIDTH=8),
    "booth-8-unsat": lambda: clients.of_circuit("-N 8 -b"),
    "root-26-unsat": lambda: clients.of_c("root", BITS=26),
    "quotient-19-unsat": lambda: clients.of_c("quotient", BITS=19),
    "quotient-20-unsat": lambda: clients.of_c("quotient", BITS=20),
    "sorting-8-unsat": lambda: clients.of_c("sorting", BYTES=8),
}
# Some that take ours a few seconds, on which changes of the search were tried too.
SHORTER = {
    "random-5-60-sat": lambda: formulas.random_sat(60, 1290, 5, 8004),
    "colouring-170-unsat": lambda: formulas.colouring(170, 782, 4, 8005),
    "counter-10-700-unsat": lambda: formulas.counter(10, 700, 701),
    "factoring-34-unsat": lambda: formulas.factoring(18, 17179869143),
    "counts-18-unsat": lambda: formulas.counts(18, 8009),
}


def add_arguments(command):
    command.add_argument("folder", metavar="FOLDER", help="where to write them, each as a text of its name")
    command.add_argument("--shorter", action="store_true", help="write some that take a few seconds too")
    command.add_argument("--families", action="store_true", help="write those that show how a search decides, and no others")
    command.add_argument("--only", action="append", choices=[*FORMULAS, *SHORTER, *families.FORMULAS], metavar="NAME", help="this formula alone; may be given several times")


def run(arguments):
    os.makedirs(arguments.folder, exist_ok=True)
    known = {**FORMULAS, **SHORTER, **families.FORMULAS}
    wanted = families.FORMULAS if arguments.families else {**FORMULAS, **SHORTER} if arguments.shorter else FORMULAS
    for name in arguments.only or wanted:
        try:
            formula = known[name]()
        except clients.NotMade as reason:
            print(f"{name:24} is not made: {reason}", flush=True)
            continue
        literals = formulas.write(os.path.join(arguments.folder, f"{name}.cnf"), formula)
        print(f"{name:24} {formula.variables:9} variables {len(formula.clauses):9} clauses {literals:9} literals", flush=True)
    return 0
