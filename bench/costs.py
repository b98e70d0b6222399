"""The least costs of small MaxSAT problems, beside all assignments."""
import itertools
import os
import re
import subprocess
import tempfile

import formulas
import optimum
import programs

SUMMARY = "compares the optimum of small MaxSAT problems with that of all assignments"


def add_arguments(command):
    command.add_argument("--count", type=int, default=20000, metavar="N", help="so many problems (20000)")
    command.add_argument("--seed", type=int, default=1, metavar="N", help="begin with this one (1)")
    command.add_argument("--program", metavar="FILE", help="run this program, and build none")


def random_clause(numbers, variables, least, most):
    """Literals of which some may be doubled or opposite to each other."""
    length = least + numbers.below(most - least + 1)
    return [(1 + numbers.below(variables)) * (1 - 2 * numbers.below(2)) for _ in range(length)]


def random_weight(numbers):
    kind = numbers.below(20)
    if kind == 0:
        return 0
    if kind == 1:
        return 2**64 - 1 - numbers.below(3)
    if kind == 2:
        return 2**62 + numbers.below(2**20)
    return 1 + numbers.below(1 if kind < 8 else 12)


def random_problem(numbers):
    """Hard clauses and soft ones over few variables."""
    variables = 1 + numbers.below(8)
    hard = [random_clause(numbers, variables, 0 if numbers.below(60) == 0 else 1, 3) for _ in range(numbers.below(3 * variables))]
    soft = [(random_weight(numbers), random_clause(numbers, variables, 0 if numbers.below(9) == 0 else 1, 3)) for _ in range(numbers.below(14))]
    return variables, hard, soft


def write(path, old, variables, hard, soft):
    """In the old format with a greatest weight that is no soft one's, where there is one below 2^64; else in the new one."""
    top = max((weight for weight, _ in soft), default=0) + 1
    with open(path, "w", encoding="ascii") as file:
        if old and top < 2**64:
            file.write(f"p wcnf {variables} {len(hard) + len(soft)} {top}\n")
            first = str(top)
        else:
            file.write("c a problem\n")
            first = "h"
        lines = [(first, clause) for clause in hard] + [(str(weight), clause) for weight, clause in soft]
        for start, clause in lines:
            file.write(" ".join([start, *map(str, clause), "0"]) + "\n")


def satisfies(values, clause):
    return any(values[abs(literal) - 1] == (literal > 0) for literal in clause)


def cost_of(values, soft):
    return sum(weight for weight, clause in soft if not satisfies(values, clause))


def least_cost(variables, hard, soft):
    """The least cost of all assignments, or None."""
    every = itertools.product((False, True), repeat=variables)
    return min((cost_of(values, soft) for values in every if all(satisfies(values, clause) for clause in hard)), default=None)


def fault(done, variables, hard, soft):
    """What is wrong in what was printed, or None."""
    least = least_cost(variables, hard, soft)
    if least is None:
        return None if done.returncode == 20 and done.stdout == "s UNSATISFIABLE\n" else "is unsatisfiable"
    if least >= 2**64:
        return None if done.returncode == 0 and done.stdout.endswith("s UNKNOWN\n") else "costs 2^64 or more"
    answer = re.fullmatch(r"(?:o \d+\n)*o (\d+)\ns OPTIMUM FOUND\nv ([01]*)\n", done.stdout)
    if done.returncode != 30 or not answer:
        return f"costs {least}"
    values = [digit == "1" for digit in answer[2]] + [False] * variables
    if not all(satisfies(values, clause) for clause in hard) or cost_of(values, soft) != least or int(answer[1]) != least:
        return f"costs {least}, and {cost_of(values, soft)} as printed"
    return None


def run(arguments):
    program = arguments.program or optimum.build_ours()
    counts = {}
    with tempfile.TemporaryDirectory() as folder:
        path = f"{folder}/problem.wcnf"
        for seed in range(arguments.seed, arguments.seed + arguments.count):
            numbers = formulas.Numbers(seed)
            old = numbers.below(2) == 1
            problem = random_problem(numbers)
            write(path, old, *problem)
            done = subprocess.run([program, path], stdin=subprocess.DEVNULL, capture_output=True, text=True)
            wrong = fault(done, *problem)
            if wrong:
                os.rename(path, f"{programs.ROOT}/out-{seed}.wcnf")
                print(f"problem {seed} {wrong}; printed was:\n{done.stdout}{done.stderr}")
                return 1
            counts[done.returncode] = counts.get(done.returncode, 0) + 1
    print(f"{arguments.count} problems: {counts.get(30, 0)} with an optimum, {counts.get(20, 0)} unsatisfiable, {counts.get(0, 0)} that cost 2^64 or more")
    return 0
