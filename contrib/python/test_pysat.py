"""Programs over PySAT's solvers: each class makes the calls that a module of pysat.examples makes, in its order and with its arguments, and
its answers are compared with a search through all assignments. python3 -m unittest"""
import itertools
import random
import unittest

from varisat import WCNF, Solver


def is_satisfied(clauses, model):
    true = set(model)
    return all(any(literal in true for literal in clause) for clause in clauses)


def assignments(count):
    return itertools.product(*((-variable, variable) for variable in range(1, count + 1)))


def cost_of(formula, model):
    """The weight of the soft clauses that the model does not satisfy, None if it does not satisfy the hard ones."""
    if not is_satisfied(formula.hard, model):
        return None
    return sum(weight for clause, weight in zip(formula.soft, formula.wght) if not is_satisfied([clause], model))


def costs(formula):
    return sorted(cost for model in assignments(formula.nv) if (cost := cost_of(formula, model)) is not None)


def draw(rng, hard, soft, heaviest):
    """A formula of so many clauses."""
    formula, count = WCNF(), rng.randint(2, 6)

    def clause():
        return [rng.choice([1, -1]) * rng.randint(1, count) for _ in range(rng.randint(1, 3))]

    for _ in range(rng.randint(0, hard)):
        formula.append(clause())
    for _ in range(rng.randint(1, soft)):
        formula.append(clause(), rng.randint(1, heaviest))
    return formula


class CoreGuided:
    """The calls of pysat.examples.rc2: a core relaxes its soft clauses by a sum, whose bound grows with further cores."""

    def __init__(self, formula, trim=0, minz=False, exhaust=False):
        self.trim, self.minz, self.exhaust = trim, minz, exhaust
        self.oracle = Solver(name="g3", bootstrap_with=formula.hard, incr=False, use_timer=True)
        self.cost, self.top, self.count = 0, formula.nv, formula.nv
        # What is assumed, with its weight; of a sum, its outputs and how many of them are allowed.
        self.weights, self.bounds = {}, {}
        for clause, weight in zip(formula.soft, formula.wght):
            selector = clause[0]
            if len(clause) > 1:
                selector = self.new()
                self.oracle.add_clause([*clause, -selector])
            self.assume(selector, weight)

    def new(self):
        self.top += 1
        return self.top

    def assume(self, literal, weight):
        self.weights[literal] = self.weights.get(literal, 0) + weight

    def compute(self):
        while not self.oracle.solve(assumptions=list(self.weights)):
            core = self.oracle.get_core()
            if core:
                core = self.minimized(self.trimmed(core))
            if not core:
                return None
            self.relax(core)
        return [literal for literal in self.oracle.get_model() if abs(literal) <= self.count]

    def trimmed(self, core):
        for _ in range(self.trim):
            self.oracle.solve(assumptions=core)
            core, before = self.oracle.get_core(), core
            if len(core) == len(before):
                break
        return core

    def minimized(self, core):
        if self.minz and len(core) > 1:
            core = sorted(core, key=lambda literal: self.weights[literal])
            self.oracle.conf_budget(1000)
            place = 0
            while place < len(core):
                rest = core[:place] + core[place + 1:]
                if self.oracle.solve_limited(assumptions=rest) == False:
                    core = rest
                elif self.oracle.get_status() == True:
                    place += 1
                else:
                    break
        return core

    def relax(self, core):
        least = min(self.weights[literal] for literal in core)
        self.cost += least
        for literal in core:
            self.weights[literal] -= least
            if not self.weights[literal]:
                del self.weights[literal]
            if literal in self.bounds:
                self.allow(*self.bounds[literal], least)
        if len(core) == 1:
            if core[0] not in self.bounds:
                self.oracle.add_clause([-core[0]])
            return
        outputs, allowed = self.sum([-literal for literal in core]), 1
        while self.exhaust and allowed < len(outputs) and not self.oracle.solve(assumptions=[-outputs[allowed]]):
            self.cost += least
            allowed += 1
        if allowed < len(outputs):
            self.allow(outputs, allowed - 1, least)
        else:
            for literal in core:
                self.oracle.add_clause([-literal])

    def allow(self, outputs, allowed, weight):
        """One more than so many."""
        if allowed + 1 < len(outputs):
            self.assume(-outputs[allowed + 1], weight)
            self.bounds[-outputs[allowed + 1]] = outputs, allowed + 1

    def sum(self, literals):
        """Output n follows once more than n of the literals are true."""
        if len(literals) == 1:
            return literals
        first, second = self.sum(literals[: len(literals) // 2]), self.sum(literals[len(literals) // 2:])
        outputs = [self.new() for _ in literals]
        for many, more in itertools.product(range(len(first) + 1), range(len(second) + 1)):
            if many + more:
                self.oracle.add_clause([-it for it in [*first[:many][-1:], *second[:more][-1:]]] + [outputs[many + more - 1]])
        return outputs

    def enumerate(self):
        while (model := self.compute()) is not None:
            yield model
            self.oracle.add_clause([-literal for literal in model])

    def delete(self):
        self.oracle.delete()


class CorrectionSets:
    """The calls of pysat.examples.lbx: literals are tried one by one, and each set of soft clauses that is found is barred."""

    def __init__(self, formula):
        self.oracle = Solver(name="m22", bootstrap_with=formula.hard, use_timer=True)
        self.soft = formula.soft
        self.selectors = range(formula.nv + 1, formula.nv + 1 + len(self.soft))
        for clause, selector in zip(self.soft, self.selectors):
            self.oracle.add_clause([*clause, -selector])

    def compute(self):
        if not self.oracle.solve(assumptions=[]):
            return None
        satisfied, forced, literals = set(), [], []

        def keep_satisfied():
            model = self.oracle.get_model()
            for number, clause in enumerate(self.soft):
                # By its place, as a model has each variable.
                if any(len(model) < abs(literal) or model[abs(literal) - 1] == literal for literal in clause):
                    satisfied.add(number)

        keep_satisfied()
        literals = sorted({literal for number, clause in enumerate(self.soft) if number not in satisfied for literal in clause})
        for literal in literals:
            if self.oracle.solve(assumptions=[self.selectors[number] for number in satisfied] + forced + [literal]):
                keep_satisfied()
                forced.append(literal)
            else:
                forced.append(-literal)
        return frozenset(range(len(self.soft))) - satisfied

    def enumerate(self):
        while (found := self.compute()) is not None:
            yield found
            self.oracle.add_clause([self.selectors[number] for number in found])

    def oracle_time(self):
        return self.oracle.time_accum()


def core_by_deletion(formula):
    """The calls of pysat.examples.musx: what is left of a core once no clause can be taken out."""
    oracle = Solver(name="m22", bootstrap_with=formula.hard, use_timer=True)
    selectors = {formula.nv + 1 + number: number for number in range(len(formula.soft))}
    for selector, number in selectors.items():
        oracle.add_clause(formula.soft[number] + [-selector])
    if oracle.solve(assumptions=list(selectors)):
        return None
    core, place = sorted(oracle.get_core()), 0
    while place < len(core):
        rest = core[:place] + core[place + 1:]
        if oracle.solve(assumptions=rest):
            place += 1
        else:
            core = rest
    oracle.delete()
    return [selectors[selector] for selector in core]


class HittingSets:
    """The calls of pysat.examples.hitman with its sorted hitting sets: an optimizer as above, to which sets are added in between."""

    def __init__(self, count):
        formula = WCNF()
        formula.extend([[-element] for element in range(1, count + 1)], weights=[1] * count)
        self.oracle = CoreGuided(formula)

    def hit(self, elements):
        self.oracle.oracle.add_clause(list(elements))

    def block(self, elements):
        self.oracle.oracle.add_clause([-element for element in elements])

    def get(self):
        model = self.oracle.compute()
        return None if model is None else {literal for literal in model if literal > 0}


class Examples(unittest.TestCase):
    def test_rc2(self):
        rng = random.Random(2)
        options = [dict(zip(("trim", "minz", "exhaust"), values)) for values in itertools.product((0, 3), (False, True), (False, True))]
        for round in range(400):
            formula = draw(rng, hard=6, soft=8, heaviest=rng.choice([1, 5]))
            found = CoreGuided(formula, **options[round % len(options)])
            model, wanted = found.compute(), costs(formula)
            self.assertEqual(model is None, not wanted)
            if wanted:
                self.assertEqual((found.cost, cost_of(formula, model)), (wanted[0], wanted[0]))
            self.assertGreater(found.oracle.time_accum(), 0)
            found.delete()

    def test_rc2_one_after_the_other(self):
        rng = random.Random(3)
        for _ in range(60):
            formula = draw(rng, hard=4, soft=5, heaviest=3)
            found = CoreGuided(formula)
            self.assertEqual([cost_of(formula, model) for model in found.enumerate()], costs(formula))
            found.delete()

    def test_lbx(self):
        rng = random.Random(4)
        for _ in range(150):
            formula = draw(rng, hard=4, soft=7, heaviest=1)
            # The sets of soft clauses that some model leaves unsatisfied, and of these the least.
            left = {frozenset(number for number, clause in enumerate(formula.soft) if not is_satisfied([clause], model))
                    for model in assignments(formula.nv) if is_satisfied(formula.hard, model)}
            wanted = {it for it in left if not any(other < it for other in left)}
            sets = CorrectionSets(formula)
            found = list(sets.enumerate())
            self.assertEqual((set(found), len(found)), (wanted, len(wanted)))
            self.assertGreater(sets.oracle_time(), 0)

    def test_musx(self):
        rng, cores = random.Random(5), 0
        for _ in range(300):
            formula = draw(rng, hard=4, soft=14, heaviest=1)
            core = core_by_deletion(formula)

            def is_satisfiable(numbers):
                clauses = formula.hard + [formula.soft[number] for number in numbers]
                return any(is_satisfied(clauses, model) for model in assignments(formula.nv))

            self.assertEqual(core is None, is_satisfiable(range(len(formula.soft))))
            if core is not None:
                cores += 1
                self.assertFalse(is_satisfiable(core))
                self.assertTrue(all(is_satisfiable(set(core) - {number}) for number in core))
        self.assertGreater(cores, 50)

    def test_hitman(self):
        rng = random.Random(6)
        for _ in range(60):
            count = rng.randint(2, 7)
            sets, found = [], HittingSets(count)
            for _ in range(rng.randint(1, 6)):
                sets.append(rng.sample(range(1, count + 1), rng.randint(1, count)))
                found.hit(sets[-1])
                least = min(len(chosen) for size in range(count + 1) for chosen in itertools.combinations(range(1, count + 1), size)
                            if all(set(chosen) & set(it) for it in sets))
                chosen = found.get()
                self.assertTrue(all(chosen & set(it) for it in sets))
                self.assertEqual(len(chosen), least)
            # All of them in turn, none of which has another one in it.
            hitting = [chosen]
            while True:
                found.block(hitting[-1])
                if (chosen := found.get()) is None:
                    break
                hitting.append(chosen)
            wanted = [set(chosen) for size in range(count + 1) for chosen in itertools.combinations(range(1, count + 1), size)
                      if all(set(chosen) & set(it) for it in sets)]
            self.assertCountEqual(map(sorted, hitting), [sorted(it) for it in wanted if not any(other < it for other in wanted)])
            self.assertEqual(list(map(len, hitting)), sorted(map(len, hitting)))


if __name__ == "__main__":
    unittest.main(verbosity=0)
