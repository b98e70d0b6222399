"""Right and broken DRAT proofs of small formulas, and what the checks of them come to."""
import itertools
import os
import shutil
import subprocess
import tempfile

import formulas
import programs

SUMMARY = "checks right and broken DRAT proofs of small formulas, beside drat-trim and all assignments"
VERIFIED = "s VERIFIED"
# What is done to a line of a right proof, or to two.
BREAKS = ["drop", "double", "swap", "flip", "shorten", "lengthen", "pivot", "delete", "delete absent", "keep"]


def add_arguments(command):
    command.add_argument("--count", type=int, default=20000, metavar="N", help="so many proofs (20000)")
    command.add_argument("--seed", type=int, default=1, metavar="N", help="begin with this one (1)")
    command.add_argument("--program", default=programs.PROGRAM, metavar="FILE", help="check with this program, and build none")


def literal(numbers, variables):
    variable = 1 + numbers.below(variables)
    return variable if numbers.below(2) else -variable


def random_formula(numbers):
    """A formula of three to seven variables, mostly of three literals a clause, which has a model about every third time."""
    variables = 3 + numbers.below(5)
    clauses = []
    for _ in range(variables * (4 + numbers.below(5))):
        length = 2 + (numbers.below(5) > 0)
        chosen = {abs(each): each for each in (literal(numbers, variables) for _ in range(2 * length))}
        clauses.append(list(chosen.values())[:length])
    return variables, clauses


def has_model(variables, clauses):
    for values in itertools.product((False, True), repeat=variables):
        if all(any(values[abs(each) - 1] == (each > 0) for each in clause) for clause in clauses):
            return True
    return False


def definitions(numbers, variables):
    """Lines that define a new variable as the conjunction of two literals: RAT on it."""
    one, other = literal(numbers, variables), literal(numbers, variables)
    new = variables + 1
    if abs(one) == abs(other):
        return [[new, one], [-new, -one]]
    return [[new, -one, -other], [-new, one], [-new, other]]


def tree(clauses, assumed, variables):
    """The clauses that a search without learning comes to, deepest first; the last one is that of `assumed`."""
    false = {-each for each in assumed}
    if any(false.issuperset(clause) for clause in clauses):
        return [[-each for each in assumed]]
    free = [variable for variable in range(1, variables + 1) if variable not in map(abs, assumed)]
    if not free:
        return []
    lines = []
    for each in (free[0], -free[0]):
        lines += tree(clauses, [*assumed, each], variables)
    return [*lines, [-each for each in assumed]]


def right_proof(numbers, variables, clauses):
    """Lines of which each follows or is RAT, where the formula has no model and no deletion among them takes what a later one needs."""
    lines = [("", line) for line in definitions(numbers, variables)] if numbers.below(2) else []
    for clause in tree(clauses, [], variables):
        lines.append(("", clause))
        if numbers.below(6) == 0:
            lines.append(("d ", clauses[numbers.below(len(clauses))] if numbers.below(8) == 0 else clause))
    return [line for line in lines if line[1] or not line[0]]


def shuffled(numbers, clause):
    rest = list(clause)
    return [rest.pop(numbers.below(len(rest))) for _ in clause]


def broken(numbers, how, lines, variables, clauses):
    """The lines after the break, at a random place."""
    if not lines:
        return lines
    place = numbers.below(1 + len(lines) // 2)
    mark, clause = lines[place]
    before, after = lines[:place], lines[place + 1 :]
    spot = numbers.below(max(1, len(clause)))
    if how == "drop":
        return before + after
    if how == "double":
        return [*before, (mark, clause), (mark, clause), *after]
    if how == "swap" and after:
        return [*before, after[0], (mark, clause), *after[1:]]
    if how == "flip" and clause:
        return [*before, (mark, [*clause[:spot], -clause[spot], *clause[spot + 1 :]]), *after]
    if how == "shorten" and len(clause) > 1:
        return [*before, (mark, clause[:spot] + clause[spot + 1 :]), *after]
    if how == "lengthen":
        return [*before, (mark, [literal(numbers, variables + 2), *clause]), *after]
    if how == "pivot":
        return [*before, (mark, shuffled(numbers, clause)), *after]
    if how == "delete":
        return [*before, ("d ", shuffled(numbers, clauses[numbers.below(len(clauses))])), (mark, clause), *after]
    if how == "delete absent":
        return [*before, ("d ", [literal(numbers, variables + 2), variables + 3]), (mark, clause), *after]
    if how == "keep":
        return [line for line in lines if not line[0]]
    return lines


def write_proof(path, lines, is_binary):
    with open(path, "wb") as file:
        for mark, clause in lines:
            if is_binary:
                file.write(b"d" if mark else b"a")
                for each in [*clause, None]:
                    number = 0 if each is None else 2 * abs(each) + (each < 0)
                    file.write(bytes([number]))
            else:
                file.write((mark + " ".join(map(str, [*clause, 0])) + "\n").encode())


def told(command):
    """What a command prints on standard output and on standard error, as lines."""
    ran = subprocess.run(command, stdin=subprocess.DEVNULL, stdout=subprocess.PIPE, stderr=subprocess.STDOUT)
    return ran.returncode, ran.stdout.decode(errors="replace").splitlines()


def propagated(clauses, assumed):
    """The literals that unit propagation makes true, or None where it makes a clause false."""
    true = set(assumed)
    while not any(-each in true for each in true):
        new = set()
        for clause in clauses:
            left = {each for each in clause if -each not in true}
            if not left:
                return None
            if len(left) == 1:
                new |= left
        if new <= true:
            return true
        true |= new
    return None


def is_rat(clauses, clause, pivot):
    """Whether each clause with the opposite of the pivot follows once the clause's literals replace that."""
    for other in clauses:
        if -pivot in other:
            rest = [each for each in other if each != -pivot]
            if propagated(clauses, [-each for each in [*clause, *rest]]) is not None:
                return False
    return True


def refutes(clauses, lines, on_first):
    """Whether the lines refute the clauses: by RAT on the first literal of a line alone, or on any."""
    held = [list(clause) for clause in clauses]
    for mark, clause in lines:
        true = propagated(held, [])
        if true is None:
            return True
        if not mark:
            follows = propagated(held, [-each for each in clause]) is None
            if not follows and not any(is_rat(held, clause, pivot) for pivot in (clause[:1] if on_first else clause)):
                return False
            held.append(list(clause))
        elif len({each for each in clause if -each not in true}) != 1:
            same = [place for place, other in enumerate(held) if set(other) == set(clause)]
            if same:
                held.pop(same[0])
    return propagated(held, []) is None


def kind_of(clauses, lines, is_verified):
    """Why the peer's verdict differs, if that is known. By the rules that docs/USE.md states ours has to be right."""
    if refutes(clauses, lines, False) != is_verified:
        return None
    if is_verified and not refutes(clauses, lines, True):
        return "ours yes, drat-trim no: a line is RAT on another literal than the first alone"
    return None


def judge(program, folder, seed, has_peer, kinds):
    """Whether ours verifies the proof that the seed gives, and what is wrong with that, if anything is. Counts differences
    from the peer of a known kind in `kinds`."""
    numbers = formulas.Numbers(seed)
    variables, clauses = random_formula(numbers)
    lines = right_proof(numbers, variables, clauses)
    breaks = [BREAKS[numbers.below(len(BREAKS))] for _ in range(numbers.below(5))]
    for how in breaks:
        lines = broken(numbers, how, lines, variables, clauses)
    # A deletion of the empty clause is left out: the peer reads it and the next line as one.
    lines = [line for line in lines if line[1] or not line[0]]
    cnf, proof = f"{folder}/formula.cnf", f"{folder}/proof"
    formulas.write_clauses(cnf, variables, len(clauses), clauses)
    write_proof(proof, lines, is_binary=numbers.below(4) == 0)
    status, printed = told([program, "check", "--drat", cnf, proof])
    if status not in (0, 1) or (status == 0) != (VERIFIED in printed):
        return None, f"status {status}: {' '.join(printed)}"
    if status == 0 and has_model(variables, clauses):
        return True, "verified, and the formula has a model"
    # A deletion may take a clause of the formula that a later line needs.
    if not breaks and status == 1 and refutes(clauses, lines, False):
        return False, f"a right proof is refused: {' '.join(printed)}"
    if has_peer:
        _, peer = told(["drat-trim", cnf, proof, "-f", "-w"])
        if (VERIFIED in peer) != (status == 0):
            kind = kind_of(clauses, lines, status == 0)
            if kind is not None:
                kinds.setdefault(kind, []).append(seed)
                return status == 0, None
            return status == 0, f"drat-trim says {'yes' if VERIFIED in peer else 'no'}, ours {'yes' if status == 0 else 'no'} ({', '.join(breaks)})"
    return status == 0, None


def run(arguments):
    if arguments.program == programs.PROGRAM:
        programs.build_ours()
    program = os.path.abspath(arguments.program)
    has_peer = shutil.which("drat-trim") is not None
    if not has_peer:
        print("drat-trim is not there: verdicts are compared with all assignments alone")
    verified, wrong, kinds = 0, 0, {}
    with tempfile.TemporaryDirectory() as folder:
        for seed in range(arguments.seed, arguments.seed + arguments.count):
            is_verified, fault = judge(program, folder, seed, has_peer, kinds)
            verified += bool(is_verified)
            wrong += fault is not None
            if fault is not None:
                print(f"seed {seed}: {fault}", flush=True)
    print(f"{arguments.count} proofs: {verified} verified, {arguments.count - verified} not; {wrong} wrong")
    for kind, seeds in kinds.items():
        print(f"{len(seeds)} differ as is known: {kind} (seeds {', '.join(map(str, seeds[:10]))}{' ..' if len(seeds) > 10 else ''})")
    return int(wrong > 0)
