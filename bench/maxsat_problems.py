"""MaxSAT problems for benchmarks, in the old format of WCNF, which clasp and sat4j read: the same seed gives the same bytes."""
from formulas import Numbers


class Problem:
    """Hard clauses, and soft ones with a weight each."""

    def __init__(self, variables):
        self.variables, self.hard, self.soft = variables, [], []

    def write(self, path):
        top = sum(weight for weight, _ in self.soft) + 1
        with open(path, "w", encoding="ascii") as file:
            file.write(f"p wcnf {self.variables} {len(self.hard) + len(self.soft)} {top}\n")
            for weight, clause in [(top, clause) for clause in self.hard] + self.soft:
                file.write(" ".join(map(str, [weight, *clause, 0])) + "\n")


def packages(count, seed):
    """Packages of three versions each: what a version needs and what it breaks, and the weights of packages that are left out and of versions that are installed."""
    numbers = Numbers(seed)
    problem = Problem(3 * count)
    versions = [[3 * package + version + 1 for version in range(3)] for package in range(count)]
    for package in range(count):
        for one in range(3):
            for other in range(one):
                problem.hard.append([-versions[package][one], -versions[package][other]])
        for version in versions[package]:
            for _ in range(1 + numbers.below(2)):
                needed = numbers.below(count)
                if needed != package:
                    least = numbers.below(3)
                    problem.hard.append([-version, *versions[needed][least:]])
            for _ in range(2):
                broken = numbers.below(count)
                if broken != package:
                    problem.hard.append([-version, -versions[broken][numbers.below(3)]])
        problem.soft.append((10 + numbers.below(20), list(versions[package])))
        for version in range(3):
            problem.soft.append((4 - version, [-versions[package][version]]))
    return problem


def lessons(count, hours, seed):
    """Lessons in hours: pairs that share a class or a teacher are apart, and some hours of a lesson cost a weight."""
    numbers = Numbers(seed)
    problem = Problem(count * hours)
    at = [[lesson * hours + hour + 1 for hour in range(hours)] for lesson in range(count)]
    for lesson in range(count):
        problem.hard.append(list(at[lesson]))
        for one in range(hours):
            for other in range(one):
                problem.hard.append([-at[lesson][one], -at[lesson][other]])
        for other in range(lesson):
            if numbers.below(100) < 30:
                for hour in range(hours):
                    problem.hard.append([-at[lesson][hour], -at[other][hour]])
        for _ in range(2):
            problem.soft.append((1 + numbers.below(9), [-at[lesson][numbers.below(hours)]]))
    return problem


def random_units(variables, hard, soft, most, seed):
    """Random clauses of three variables that some assignment satisfies, and random soft clauses of one literal each, with weights up
    to the greatest."""
    numbers = Numbers(seed)
    problem = Problem(variables)
    hidden = [numbers.below(2) for _ in range(variables)]
    while len(problem.hard) < hard:
        clause = []
        while len(clause) < 3:
            literal = (1 + numbers.below(variables)) * (1 - 2 * numbers.below(2))
            if abs(literal) not in map(abs, clause):
                clause.append(literal)
        if any((literal > 0) == hidden[abs(literal) - 1] for literal in clause):
            problem.hard.append(clause)
    for _ in range(soft):
        literal = (1 + numbers.below(variables)) * (1 - 2 * numbers.below(2))
        problem.soft.append((1 + numbers.below(most), [literal]))
    return problem
