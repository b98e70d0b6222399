"""How time and memory grow with formulas of odd shapes."""
import itertools
import math
import os
import shutil
import subprocess
import tempfile

import formulas
import programs
from learning import positive

SUMMARY = "times and weighs formulas of odd shapes at sizes N, 2N and 4N, beside minisat and cadical"
SIZE = 50_000
SIZES = (1, 2, 4)
LIMIT = 60
CHECKER = "drat-trim"
# What a run may take beside the better of the others: so many times their time and a second, so many times their memory and MiB more.
TIME_RATIO, MORE_SECONDS = 3, 1
MEMORY_RATIO, MORE_MEMORY = 4, 50
# The exponents of growth: at most this, where the longest run takes as many seconds, or MiB, at least.
MOST_EXPONENT = 1.2
LEAST_SECONDS = 0.5
LEAST_MEMORY = 100
# The families whose time goes with the highest variable: what they take of memory is at most so many bytes a name, beside the others' bound.
FAR = ("far", "far-many", "names")
FAR_VARIABLE = 20
BYTES_A_NAME = 6
# What of ours decides the formulas.
WAYS = ("solve", "library", "maxsat")
# How maxsat ends with an optimum. All clauses are hard, so it finds one just if there is a model.
OPTIMUM = 30


def random_clauses(variables, count, length, seed=1):
    numbers = formulas.Numbers(seed)
    return [formulas.random_clause(numbers, variables, length) for _ in range(count)]


def wide(size):
    """One clause."""
    return [list(range(1, size + 1))]


def wide_pair(size):
    """Two clauses of opposite literals."""
    return [list(range(1, size // 2 + 1)), [-variable for variable in range(1, size // 2 + 1)]]


def wide_thrice(size):
    """Three wide clauses that share all but one variable."""
    width = size // 3
    return [[*range(1, width), width + k] for k in range(3)]


def wide_implying(size):
    """One wide clause, each of whose literals implies one more."""
    width = size // 3
    return [list(range(1, width + 1)), *([-variable, width + 1] for variable in range(1, width + 1))]


def wide_ordered(size):
    """One wide clause, each of whose literals implies the next one, so that each could be taken from it."""
    width = size // 3
    return [list(range(1, width + 1)), *([-variable, variable + 1] for variable in range(1, width))]


def wide_fixed(size):
    """One wide clause, then the opposites of all its literals but one, as units."""
    width = size // 2
    return [list(range(1, width + 1)), *([-variable] for variable in range(1, width))]


def wide_fixed_before(size):
    """The same with the units first."""
    clauses = wide_fixed(size)
    return clauses[1:] + clauses[:1]


def wide_many(size):
    """As many clauses as each has literals, of random variables."""
    width = math.isqrt(size)
    return random_clauses(4 * width, width, width)


def wide_hubs(size):
    """Clauses of 300 literals, all of the same 600 variables."""
    return random_clauses(600, size // 300, 300)


def growing(size):
    """Clauses that grow by a literal, each of which fixes one more variable."""
    count = math.isqrt(2 * size)
    return [[*(-variable for variable in range(1, last)), last] for last in range(1, count + 1)]


def growing_back(size):
    """The same, the longest first."""
    return growing(size)[::-1]


def nested(size):
    """Clauses of which each is a part of the next one."""
    count = math.isqrt(2 * size)
    return [list(range(1, last + 1)) for last in range(2, count + 1)]


def nested_back(size):
    """The same, the longest first."""
    return nested(size)[::-1]


def nested_ends(size):
    """Clauses that grow by a literal, each with an end of its own, so that none is a part of another."""
    count = math.isqrt(2 * size)
    return [[*range(1, last), count + last] for last in range(2, count + 1)]


def windows(size):
    """As many clauses as each has literals, each of neighbouring variables and shifted by one."""
    width = math.isqrt(size)
    return [list(range(first, first + width)) for first in range(1, width + 1)]


def narrow_windows(size):
    """The same of 20 literals each."""
    return [list(range(first, first + 20)) for first in range(1, size // 20 + 1)]


def far(size):
    """A stray high variable behind short clauses."""
    return [*random_clauses(max(size // 3, 3), size // 3, 3), [FAR_VARIABLE * size, 1]]


def far_many(size):
    """Short clauses over variables that are far from one another."""
    return [[literal * FAR_VARIABLE // 4 for literal in clause] for clause in random_clauses(size, size // 3, 3)]


def names(size):
    """Clauses of two literals over variables of their own."""
    return [[variable, variable + 1] for variable in range(1, size, 2)]


def hub(size):
    """A variable that stands in all clauses."""
    return [[1, 2 + 2 * place, -3 - 2 * place] for place in range(size // 3)]


def hub_both(size):
    """A variable that stands in all clauses, in half of them as its opposite."""
    return [[1 if place % 2 else -1, 2 + place] for place in range(size // 2)]


def hubs(size):
    """As many variables as each has clauses of two literals."""
    side = math.isqrt(size // 2)
    return [[-one, side + 1 + (one * side + other) % (3 * side)] for one in range(1, side + 1) for other in range(side)]


def star(size):
    """A literal that implies all others."""
    return [[-1, place + 2] for place in range(size // 2)]


def star_back(size):
    """A literal that all others imply."""
    return [[-place - 2, 1] for place in range(size // 2)]


def ring(size):
    """Literals of which each implies the next one, the last one the first."""
    count = size // 2
    return [[-place - 1, (place + 1) % count + 1] for place in range(count)]


def odd_ring(size):
    """A ring and its opposite, of which one literal is fixed in both ways."""
    half = ring(size)
    return [*half, [1, len(half) // 2], [-1, -(len(half) // 2)]]


def ladder(size):
    """Two rows of literals, whose rungs are equal literals."""
    count = size // 8
    rungs = ([[-place, count + place], [place, -count - place]] for place in range(1, count + 1))
    rows = ([[-place, place + 1], [-count - place, count + place + 1]] for place in range(1, count))
    return [clause for pair in itertools.chain(rungs, rows) for clause in pair]


def equals(size):
    """A row of equal literals."""
    return [clause for place in range(1, size // 4) for clause in ([-place, place + 1], [place, -place - 1])]


def equals_to_one(size):
    """Literals that all equal one."""
    return [clause for place in range(2, size // 4) for clause in ([-place, 1], [place, -1])]


def grid(size):
    """Rows and columns of literals, each of which implies that below it and that to its right."""
    side = math.isqrt(size // 4)
    cells = [(row, column) for row in range(side - 1) for column in range(side - 1)]
    return [[-row * side - column - 1, other] for row, column in cells for other in (row * side + column + 2, (row + 1) * side + column + 1)]


def biclique(size):
    """Literals each of which excludes each of as many others."""
    side = math.isqrt(size // 2)
    return [[-one, -side - other] for one in range(1, side + 1) for other in range(1, side + 1)]


def at_most_one(size):
    """Literals of which each excludes each other one, and of which one is true."""
    count = math.isqrt(size)
    return [list(range(1, count + 1)), *([-one, -other] for one, other in itertools.combinations(range(1, count + 1), 2))]


def counting(size):
    """Literals of which at most one is true, by a further one for each."""
    count = size // 7
    rows = ([[-place, count + place], [-count - place, count + place + 1], [-place - 1, -count - place]] for place in range(1, count))
    return [clause for row in rows for clause in row]


def equal_clauses(size):
    """The same clause again and again."""
    return [[1, -2, 3]] * (size // 3)


def equal_wide(size):
    """The same clause of 1,500 literals again and again."""
    return [list(range(1, 1501))] * (size // 1500 + 1)


def permuted(size):
    """Clauses of the same 100 literals, each in another order."""
    return [[(first + place * 37) % 100 + 1 for place in range(100)] for first in range(size // 100)]


def tautologies(size):
    """Clauses with a literal and its opposite."""
    return [[place + 1, place + 2, -place - 1] for place in range(size // 3)]


def wide_tautology(size):
    """One clause of literals and their opposites."""
    return [[literal for variable in range(1, size // 2 + 1) for literal in (variable, -variable)]]


def doubles(size):
    """One clause that names a literal again and again."""
    return [[1] * size]


def wide_doubles(size):
    """One clause that names each literal twice."""
    return [[*range(1, size // 2 + 1), *range(1, size // 2 + 1)]]


def units_early(size):
    """Units, then clauses of which each has two of their opposites."""
    count = size // 4
    return [*([place] for place in range(1, count + 1)), *([-place, -(place % count) - 1, count + place] for place in range(1, count + 1))]


def units_late(size):
    """The same with the units last."""
    clauses = units_early(size)
    return clauses[len(clauses) // 2:] + clauses[:len(clauses) // 2]


def same_units(size):
    """The same unit again and again."""
    return [[1]] * size


def gates(size):
    """A tree of gates."""
    formula = formulas.Formula()
    level = [formula.new_variable() for _ in range(size // 7)]
    while len(level) > 1:
        pairs = zip(level[::2], level[1::2])
        level = [formula.both(one, -other) for one, other in pairs]
    return formula.clauses


def xors(size):
    """A row of sums of two inputs, each an input of the next one."""
    formula = formulas.Formula()
    last = formula.new_variable()
    for _ in range(size // 12):
        last = formula.differ(last, formula.new_variable())
    return formula.clauses


def xor_tree(size):
    """A tree of such sums."""
    formula = formulas.Formula()
    level = [formula.new_variable() for _ in range(size // 12)]
    while len(level) > 1:
        level = [formula.differ(one, other) for one, other in zip(level[::2], level[1::2])]
    return formula.clauses


def chain(size):
    """A unit, and a row of literals of which each implies the next one."""
    return [[1], *([-place, place + 1] for place in range(1, size // 2))]


def chain_back(size):
    """The same, the unit last."""
    return chain(size)[::-1]


def chain_refuted(size):
    """The same, with the last one's opposite as a unit."""
    return [*chain_back(size), [-(size // 2)]]


def pairs_chain(size):
    """A row of literals of which each two imply the next one, after two units."""
    return [[1], [2], *([-place, -place - 1, place + 2] for place in range(1, size // 3))]


def pairs_chain_back(size):
    """The same, the units last."""
    return pairs_chain(size)[::-1]


def positives(size):
    """Clauses of three variables, none of them as an opposite."""
    return [[abs(literal) for literal in clause] for clause in random_clauses(max(size // 3, 3), size // 3, 3)]


def two_literals(size):
    """Random clauses of two literals, with few for each variable."""
    return random_clauses(max(size // 2 * 10 // 9, 2), size // 2, 2)


def three_literals(size):
    """Random clauses of three literals, with three for each variable: most solvers guess a model."""
    return random_clauses(max(size // 9, 3), size // 3, 3)


def few_three_literals(size):
    """Random clauses of three literals, with two for each variable."""
    return random_clauses(max(size // 6, 3), size // 3, 3)


def long_literals(size):
    """Random clauses of 30 literals over a hundredth as many variables."""
    return random_clauses(max(size // 100, 30), size // 30, 30)


def islands(size):
    """Small formulas that share nothing."""
    triples = [[sign * (1 + (place + k) % 4) * (-1) ** (place // (k + 1)) for k, sign in enumerate((1, 1, -1))] for place in range(6)]
    return [[literal + (4 * island if literal > 0 else -4 * island) for literal in clause] for island in range(size // 18) for clause in triples]


def strengthened(size):
    """Clauses of 100 literals, and for each two that take a literal from it."""
    rows = ((100 * row, row) for row in range(size // 104))
    return [clause for first, row in rows for clause in (list(range(first + 1, first + 101)), [first + 1, -first - 2], [first + 2, -first - 3])]


FAMILIES = {
    make.__name__.replace("_", "-"): make
    for make in (
        wide, wide_pair, wide_thrice, wide_implying, wide_ordered, wide_fixed, wide_fixed_before, wide_many, wide_hubs, growing,
        growing_back, nested, nested_back, nested_ends, windows, narrow_windows, far, far_many, names, hub, hub_both, hubs, star,
        star_back, ring, odd_ring, ladder, equals, equals_to_one, grid, biclique, at_most_one, counting, equal_clauses, equal_wide,
        permuted, tautologies, wide_tautology, doubles, wide_doubles, units_early, units_late, same_units, gates, xors, xor_tree, chain,
        chain_back, chain_refuted, pairs_chain, pairs_chain_back, positives, two_literals, three_literals, few_three_literals,
        long_literals, islands, strengthened,
    )
}


def add_arguments(command):
    command.add_argument("--size", type=positive, default=SIZE, metavar="N", help=f"literals of the smallest formula of each family ({SIZE:,})")
    command.add_argument("--limit", type=positive, default=LIMIT, help=f"seconds of the processor for a run ({LIMIT})")
    command.add_argument("--only", action="append", choices=FAMILIES, metavar="FAMILY", help="this family alone; may be given again")
    command.add_argument("--program", metavar="FILE", help="our program, in place of the proved one, which else is built where that is due")
    command.add_argument("--alone", action="store_true", help="without the other solvers")
    command.add_argument("--check", action="store_true", help="check each proof by our checker, and each model")
    command.add_argument("--option", action="append", default=[], metavar="WORD", help="an option of ours, as --no-simplify; may be given again")
    command.add_argument("--by", choices=WAYS, default="solve", help="what of ours decides the formula: solve, the library for C, which prints the model or checks its proof, or maxsat; only growth and the limit are then goals")
    command.add_argument("--library", metavar="FILE", help="the library for --by library (out/c/libvarisat.a)")


def peers():
    """The programs that are compared."""
    return [programs.Program("minisat", ["minisat", "-verb=0"]), *map(programs.quiet, programs.cadicals())]


def write(path, clauses):
    formulas.write_clauses(path, max((abs(literal) for clause in clauses for literal in clause), default=0), len(clauses), clauses)


def write_hard(path, clauses):
    """A WCNF text of the clauses, all hard, and a soft one."""
    with open(path, "w", encoding="utf-8") as file:
        file.writelines(f"h {' '.join(map(str, clause))} 0\n" for clause in clauses)
        file.write("1 1 0\n")


def deciding(arguments, folder):
    """Our program that decides the formulas."""
    options = tuple(arguments.option)
    if arguments.by == "solve":
        programs.take_ours(arguments.program)
        return programs.Program("varisat", [programs.PROGRAM, "solve"], options=options)
    if arguments.by == "maxsat":
        return programs.Program("maxsat", [arguments.program or f"{programs.ROOT}/maxsat"], options=options)
    program = os.path.join(folder, "decide")
    words = ["gcc", "-O2", "-o", program, f"{programs.ROOT}/contrib/c/tests/decide.c", arguments.library or f"{programs.ROOT}/out/c/libvarisat.a"]
    if subprocess.run(words).returncode:
        programs.stop("the program over the library was not built")
    return programs.Program("library", [program], options=options)


def weigh(program, path, limit, output=subprocess.DEVNULL):
    """The status, seconds of the processor and MiB of a run; None for seconds past the limit."""
    with tempfile.NamedTemporaryFile("r", encoding="utf-8") as told:
        command = ["/usr/bin/time", "--quiet", "-f", "%M", "-o", told.name, *program.command, path, *program.options]
        status, taken = programs.run_command(command, subprocess.DEVNULL, output, limit)
        words = told.read().split()
    if taken.processor > 0.9 * limit:
        return None, None, None
    return status, taken.processor, int(words[-1]) / 1024


def check_answer(program, path, folder, status, name):
    """Stops if the program's proof, or its model, does not hold."""
    proof = os.path.join(folder, "proof")
    with open(os.path.join(folder, "answer"), "w+", encoding="utf-8") as output:
        ended = subprocess.run([*program.command, path, *program.options, "--proof", proof], stdout=output, stderr=subprocess.DEVNULL).returncode
        if ended != status:
            programs.stop(f"{name}: {program.name} ended with {ended} under a proof, and with {status} before")
        output.seek(0)
        literals = {int(word) for line in output if line.startswith("v ") for word in line.split()[1:]}
    if status == programs.SATISFIABLE:
        if not all(any(literal in literals for literal in clause) for clause in formulas.clauses_of(path)):
            programs.stop(f"{name}: no model")
    elif subprocess.run([programs.PROGRAM, "check", path, proof], stdout=subprocess.DEVNULL).returncode:
        programs.stop(f"{name}: a proof that does not hold")


def exponents(rows, index):
    """For each program that ended at all sizes the power of the size by which its seconds, or MiB, grow."""
    columns = [[found[index] for found in column] for column in zip(*rows)]
    return [math.log2(values[-1] / values[0]) / (len(values) - 1) if all(values) else math.nan for values in columns if None not in values]


def measure(make, size, folder, every, arguments, name):
    """For each program its status, seconds and MiB."""
    path = os.path.join(folder, "formula.cnf")
    clauses = make(size)
    write(path, clauses)
    found = [weigh(program, path, arguments.limit) for program in every[1:]]
    if arguments.by == "maxsat":
        path += ".wcnf"
        write_hard(path, clauses)
    status, *taken = weigh(every[0], path, arguments.limit)
    found.insert(0, (programs.SATISFIABLE if status == OPTIMUM else status, *taken))
    statuses = {status for status, _, _ in found if status is not None}
    if not statuses <= {programs.SATISFIABLE, programs.UNSATISFIABLE} or len(statuses) > 1:
        programs.stop(f"{name}: the programs do not agree, or end as they should not: {statuses}")
    if arguments.check and found[0][0] is not None:
        check_answer(every[0], path, folder, found[0][0], name)
    return found


def shortest(found, index):
    return min((one[index] for one in found[1:] if one[index] is not None), default=None)


def missed(name, size, found, by):
    """What of the goals our run of the largest size misses, in words."""
    _, seconds, memory = found[0]
    if seconds is None:
        return ["limit"]
    if by != "solve":
        return []
    others = shortest(found, 1), shortest(found, 2)
    words = []
    if others[0] is not None and seconds > TIME_RATIO * others[0] + MORE_SECONDS:
        words.append("time")
    most = None if others[1] is None else MEMORY_RATIO * others[1] + MORE_MEMORY
    if name in FAR and most is not None:
        most = max(most, others[1] + BYTES_A_NAME * FAR_VARIABLE * size / 2**20)
    if most is not None and memory > most:
        words.append("memory")
    return words


def cell(value, digits):
    return f"{'-' if value is None else format(value, f',.{digits}f'):>8}"


def print_family(name, make, folder, every, arguments):
    """Prints a row for each size, and gives what is missed of the goals."""
    rows = []
    for times in SIZES:
        rows.append(measure(make, times * arguments.size, folder, every, arguments, name))
        cells = "".join(f" {cell(seconds, 2)} {cell(memory, 0)}" for _, seconds, memory in rows[-1])
        print(f"{name:18} {times * arguments.size:>10,}{cells}", end="\n" if times != SIZES[-1] else "", flush=True)
    words = missed(name, arguments.size * SIZES[-1], rows[-1], arguments.by)
    if all(row[0][1] is not None for row in rows):
        for index, least, title in ((1, LEAST_SECONDS, "time"), (2, LEAST_MEMORY, "memory")):
            ours = exponents(rows, index)[0]
            print(f"   {ours:5.2f}", end="")
            if rows[-1][0][index] >= least and ours > MOST_EXPONENT:
                words.append(f"{title}'s exponent")
    print("   " + ", ".join(words), flush=True)
    return words


def run(arguments):
    programs.check_tools("/usr/bin/time", *([] if arguments.alone else ["minisat", "cadical"]))
    if arguments.check and arguments.by != "solve":
        programs.stop("--check goes with --by solve alone")
    with tempfile.TemporaryDirectory() as folder:
        every = [deciding(arguments, folder), *([] if arguments.alone else peers())]
        print(programs.machine())
        print(f"seconds of the processor, at most {arguments.limit}, and MiB; then the exponents of ours, and the goals that are missed\n")
        print(f"{'family':18} {'literals':>10}" + "".join(f" {program.name[:13]:>13}, s" + " " * 2 for program in every))
        found = {name: print_family(name, FAMILIES[name], folder, every, arguments) for name in arguments.only or FAMILIES}
    bad = {name: words for name, words in found.items() if words}
    print(f"\n{len(found)} families, {len(bad)} of which miss a goal" + "".join(f"; {name}: {', '.join(words)}" for name, words in bad.items()))
    return int(bool(bad))
