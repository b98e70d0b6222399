"""Tests of the package varisat, except those of PySAT's call sequences: python3 -m unittest"""
import contextlib
import copy
import ctypes
import doctest
import importlib.util
import io
import itertools
import os
import pickle
import random
import re
import signal
import sys
import tempfile
import threading
import time
import unittest
from array import array

import varisat
from varisat import CNF, COUNTERS, SETTINGS, WCNF, ErrorNumber, Simplifier, Solver, VarisatError, check_proof
from varisat._library import SIGNATURES, library

HEADER = os.path.join(os.path.dirname(os.path.abspath(__file__)), "../c/varisat.h")


def is_satisfied(clauses, model):
    true = set(model)
    return all(any(literal in true for literal in clause) for clause in clauses)


def brute(clauses, count, assumed=()):
    for values in itertools.product([1, -1], repeat=count):
        model = [value * (index + 1) for index, value in enumerate(values)]
        if set(assumed) <= set(model) and is_satisfied(clauses, model):
            return True
    return False


def pigeons(n):
    clauses = [[p * (n - 1) + h + 1 for h in range(n - 1)] for p in range(n)]
    for h in range(n - 1):
        for p, q in itertools.combinations(range(n), 2):
            clauses.append([-(p * (n - 1) + h + 1), -(q * (n - 1) + h + 1)])
    return clauses


def load_tests(loader, tests, pattern):
    """Adds the examples of the docstrings and of README.md."""
    tests.addTests(doctest.DocFileSuite("README.md"))
    for name in ("", "._library", "._simplifier", "._solver", ".formula", ".pycosat"):
        tests.addTests(doctest.DocTestSuite(importlib.import_module("varisat" + name)))
    return tests


class Formula:
    """As PySAT's: what it is iterated over, which its attribute may lack."""
    def __init__(self, clauses):
        self.made, self.clauses, self.atmosts = clauses, [], []

    def __iter__(self):
        return iter(self.made)


class Calls(unittest.TestCase):
    def test_random_formulas(self):
        rng = random.Random(1)
        for _ in range(300):
            count = rng.randint(1, 7)
            clauses = [[rng.choice([1, -1]) * rng.randint(1, count) for _ in range(rng.randint(1, 4))] for _ in range(rng.randint(1, 25))]
            with Solver() as solver:
                given = []
                for part in range(0, len(clauses), 5):
                    solver.append_formula(clauses[part : part + 5])
                    given += clauses[part : part + 5]
                    assumed = [rng.choice([1, -1]) * v for v in rng.sample(range(1, count + 1), rng.randint(0, count))]
                    answer = solver.solve(assumptions=assumed)
                    self.assertEqual(answer, brute(given, count, assumed))
                    if answer:
                        self.assertTrue(is_satisfied(given + [[literal] for literal in assumed], solver.get_model()))
                        self.assertIsNone(solver.get_core())
                    else:
                        core = solver.get_core()
                        self.assertLessEqual(set(core), set(assumed))
                        self.assertFalse(brute(given, count, core))
                        self.assertIsNone(solver.get_model())

    def test_enum_models(self):
        with Solver(bootstrap_with=[[1, 2], [-2, 3]]) as solver:
            self.assertEqual(len({tuple(model) for model in solver.enum_models()}), 4)

    def test_formulas(self):
        plain = type("Plain", (), {"clauses": [[1, 2], [-1]]})()
        for formula in (plain, Formula([[1, 2], [-1]]), ((1, 2), {-1}), (iter(clause) for clause in [[1, 2], array("q", [-1])])):
            with Solver(bootstrap_with=formula) as solver:
                self.assertEqual((solver.nof_clauses(), solver.solve(), solver.get_model()), (2, True, [-1, 2]))
        (limited := Formula([[1, 2]])).atmosts.append([[1, 2], 1])
        self.assertRaises(NotImplementedError, Solver, limited)
        with Solver() as solver:
            self.assertIsNone(solver.add_clause([1]))
            self.assertTrue(solver.add_clause([2], no_return=False))

    def test_names(self):
        # A name comes first, or one formula alone.
        for made in (Solver("g4", [[1, 2], [-1]]), Solver(name="cadical153", bootstrap_with=[[1, 2], [-1]], use_timer=True, incr=True),
                     Solver("any name", bootstrap_with=CNF(from_clauses=[[1, 2], [-1]]), warm_start=True), Solver([[1, 2], [-1]])):
            with made as solver:
                self.assertEqual((solver.nof_clauses(), solver.solve(), solver.get_model()), (2, True, [-1, 2]))
        self.assertRaises(TypeError, Solver, [[1]], [[2]])
        self.assertRaises(TypeError, Solver, [[1]], bootstrap_with=[[2]])
        for file in ("formula.cnf", "formula.cnf.gz", "/tmp/formula", "../formula"):
            self.assertRaisesRegex(ValueError, "from_file", Solver, file)
        for words in ({}, {"name": "g4"}, {"bootstrap_with": None}):
            self.assertEqual(Solver(**words).nof_clauses(), 0)
        solver = Solver("g4", [[1], [-1]], vsids_decay=900)
        self.assertRaises(VarisatError, solver.new, "g4", [[1 << 29]])
        self.assertRaisesRegex(VarisatError, "deleted", solver.solve)
        solver.new("g4", [[1]], True, proof=(target := io.BytesIO()))
        self.assertTrue(solver.solve())
        solver.delete()
        solver.new()
        self.assertEqual((solver.solve(), solver.nof_vars()), (True, 0))
        # While a call is under way it is not replaced.
        with Solver(pigeons(7)) as solver:
            def call():
                with self.assertRaises(VarisatError) as refused:
                    solver.new()
                self.assertEqual(refused.exception.number, ErrorNumber.BUSY)

            solver.set_terminate(call)
            self.assertFalse(solver.solve())

    def test_what_is_not_there(self):
        with Solver([[1, 2]]) as solver:
            self.assertFalse(solver.supports_atmost())
            for call in (lambda: solver.add_atmost([1, 2], k=1), lambda: solver.add_atmost(lits=[1, 2], k=1, no_return=False),
                         lambda: solver.propagate(assumptions=[1], phase_saving=2)):
                self.assertRaises(NotImplementedError, call)
            self.assertTrue(solver.solve())
            self.assertIsNone(solver.get_proof())

    def test_phases(self):
        with Solver([[1, 2, 3], [-1, -2, -3]]) as solver:
            for phases in ([1, 2, -3], [-1, -2, 3], [1, -2, -3]):
                solver.set_phases(literals=phases)
                self.assertTrue(solver.solve(assumptions=[-phases[0]]))
                self.assertTrue(solver.solve())
                self.assertEqual(solver.get_model(), phases)
            for variable in (1, 2, 3):
                solver.unset_phase(variable)
            # Then they are decided as they were last assigned.
            self.assertTrue(solver.solve([-1, 2, 3]))
            self.assertTrue(solver.solve())
            self.assertEqual(solver.get_model(), [-1, 2, 3])
            self.assertRaises(ValueError, solver.set_phases, [1, 0])
            self.assertRaises(ValueError, solver.unset_phase, 0)
            self.assertRaises(OverflowError, solver.unset_phase, (1 << 32) + 1)

    def test_budgets(self):
        with Solver(pigeons(10)) as solver:
            def spent(name):
                before = solver.accum_stats()
                self.assertIsNone(solver.solve_limited(expect_interrupt=True))
                self.assertIsNone(solver.get_status())
                after = solver.accum_stats()
                self.assertLessEqual(after["conflicts"] - before["conflicts"], after["steps"] - before["steps"])
                return after[name] - before[name]

            solver.conf_budget(50)
            self.assertEqual([spent("steps"), spent("steps")], [50, 50])
            solver.conf_budget()
            for set_budget, name in ((solver.prop_budget, "propagations"), (solver.dec_budget, "decisions")):
                set_budget(500)
                for _ in range(2):
                    # A step comes to a few of them.
                    self.assertTrue(500 <= spent(name) < 700)
                set_budget(0)
                self.assertEqual(spent("steps"), 0)
                set_budget(-1)
            # The first that is spent ends the search.
            solver.conf_budget(3)
            solver.prop_budget(1 << 40)
            self.assertEqual(spent("steps"), 3)
            solver.prop_budget(1)
            self.assertEqual(spent("steps"), 1)
            # Searches without limits know of none, and other limits are asked for in between.
            self.assertFalse(solver.solve([1, 10]))
            solver.conf_budget(-1)
            solver.prop_budget(1 << 40)
            solver.set_terminate(lambda: True)
            self.assertEqual(spent("steps"), 1)
            self.assertRaises(OverflowError, solver.dec_budget, 1 << 64)
        # An answer of the last step is an answer.
        with Solver([[1, 2], [3, 4]]) as solver:
            solver.dec_budget(1)
            self.assertTrue(solver.solve_limited())

    def test_timers(self):
        for use_timer in (True, False):
            with Solver("g4", pigeons(8), use_timer) as solver:
                self.assertEqual((solver.time(), solver.time_accum()), (0, 0))
                self.assertFalse(solver.solve())
                first = solver.time()
                self.assertEqual((first > 0, solver.time_accum()), (use_timer, first))
                solver.solve_limited()
                self.assertEqual(solver.time_accum(), first + solver.time())
        # What ends by an exception counts.
        with Solver(pigeons(8), use_timer=True) as solver:
            solver.set_terminate(lambda: 1 // 0)
            self.assertRaises(ZeroDivisionError, solver.solve)
            self.assertGreater(solver.time(), 0)

    def test_kept_proofs(self):
        clauses = pigeons(6)
        text = "".join(" ".join(map(str, clause)) + " 0\n" for clause in clauses).encode()
        with Solver("g4", bootstrap_with=clauses, with_proof=True) as solver:
            solver.conf_budget(3)
            self.assertIsNone(solver.solve_limited())
            self.assertFalse(solver.solve())
            lines = solver.get_proof()
            self.assertEqual(lines[-1], "0")
            self.assertTrue(check_proof(text, "\n".join(lines).encode()))
            with self.assertRaises(VarisatError) as refused:
                solver.solve([1])
            self.assertEqual(refused.exception.number, ErrorNumber.PROOF_OPEN)
        with Solver([[1, 2]], with_proof=True, format="marked") as solver:
            self.assertFalse(solver.solve([-1, -2]))
            self.assertEqual(solver.get_proof()[0], "i 1 2 0")
        self.assertRaises(ValueError, Solver, with_proof=True, format="binary")
        self.assertRaises(ValueError, Solver, with_proof=True, proof=io.BytesIO())

    def test_variables(self):
        with Solver([[1, -4]]) as solver:
            solver.solve(assumptions=[6])
            self.assertEqual((solver.nof_vars(), solver.new_var(), solver.nof_vars()), (6, 7, 7))
            solver.witness_var(7)
            self.assertRaises(VarisatError, solver.append_formula, [[9], [7]])
            self.assertEqual((solver.nof_vars(), solver.new_var()), (9, 10))
            # A refusal of the module itself comes before any clause.
            self.assertRaises(VarisatError, solver.append_formula, [[12], [1 << 29]])
            self.assertEqual((solver.nof_vars(), solver.new_var()), (10, 11))
            solver.hide_var(13)
            self.assertEqual((solver.nof_vars(), solver.new_var()), (13, 13))
            # Without a model as well.
            solver.append_formula([[]])
            self.assertRaises(VarisatError, solver.add_clause, [1 << 29])
        # Iterables may call the solver to which they are given.
        with Solver() as solver:
            solver.append_formula((solver.new_var(), solver.new_var()) for _ in range(2))
            solver.add_clause(-solver.new_var() for _ in range(2))
            self.assertTrue(solver.solve(solver.new_var() for _ in range(1)))
            self.assertEqual((solver.nof_clauses(), solver.nof_vars(), solver.get_model()[6]), (3, 7, 7))

    def test_texts_of_errors(self):
        error = VarisatError(-16, "why", 7)
        self.assertEqual((error.number, error.number.name, str(error), error.place), (-16, "WRONG_PROOF", "why", 7))
        again = pickle.loads(pickle.dumps(error))
        self.assertEqual((type(again), again.number, str(again), again.place), (VarisatError, -16, "why", 7))
        self.assertEqual((VarisatError(-99, "").number, VarisatError(-99, "").place), (-99, None))

    @unittest.skipUnless(os.path.exists(HEADER), "varisat.h is not there")
    def test_the_header(self):
        with open(HEADER) as file:
            text = re.sub(r"/\*.*?\*/", "", file.read(), flags=re.DOTALL)
        numbers = {name: int(number) for name, number in re.findall(r"VARISAT_(\w+) = (-\d+)", text)}
        self.assertEqual(numbers, {error.name: error.value for error in ErrorNumber})
        for name, enum in ((COUNTERS, "counter"), (SETTINGS, "setting")):
            words = re.search(rf"enum varisat_{enum} {{(.*?)}}", text, re.DOTALL)[1]
            self.assertEqual(name, tuple(word.lower() for word in re.findall(r"VARISAT_(\w+)", words)))
        self.assertEqual(varisat.__version__, ".".join(re.findall(r"VERSION_(?:MAJOR|MINOR|PATCH) (\d+)", text)))
        # What C's types are to ctypes.
        types = {"int": ctypes.c_int, "int32_t": ctypes.c_int32, "size_t": ctypes.c_size_t, "uint64_t": ctypes.c_uint64,
                 "const char *": ctypes.c_char_p, "uint64_t *": ctypes.POINTER(ctypes.c_uint64)}

        def type_of(words):
            words = re.sub(r"\b(enum \w+)", "int", words.strip())
            return types.get(words, ctypes.c_void_p if words.endswith("*") else None)

        for name, (result, arguments) in SIGNATURES.items():
            found = re.search(rf"^(.*\W)varisat_{name}\((.*)\);$", text, re.MULTILINE)
            given = [] if found[2] == "void" else [type_of(re.sub(r"\w+$", "", word.strip())) for word in found[2].split(",")]
            # Bytes go to what takes any.
            self.assertEqual([type_of(found[1]), *given], [result, *(ctypes.c_void_p if name == "check_proof" and place == 3 else it
                                                                   for place, it in enumerate(arguments))], name)
        self.assertEqual(tuple(library.varisat_setting_name(number).decode() for number in range(len(SETTINGS))), SETTINGS)
        self.assertIsNone(library.varisat_setting_name(len(SETTINGS)))

    def test_copies(self):
        for owner in (Solver([[1]]), Simplifier([[1]])):
            for call in (copy.copy, copy.deepcopy, pickle.dumps):
                self.assertRaises(TypeError, call, owner)

    def test_modes(self):
        with Solver([[1, 2]]) as solver:
            solver.hide_var(2)
            solver.add_clause([-2])
            self.assertTrue(solver.solve())
            self.assertEqual((solver.observe_internal_vars(), solver.nof_vars()), ([3], 3))
            with self.assertRaises(VarisatError) as refused:
                solver.add_clause([3])
            self.assertEqual(refused.exception.number, -6)

    def test_refusals(self):
        with Solver() as solver:
            self.assertRaises(ValueError, solver.add_clause, [1, 0])
            self.assertRaises(TypeError, solver.add_clause, ["a"])
            self.assertRaises(OverflowError, solver.add_clause, [1 << 40])
            self.assertRaises(VarisatError, solver.add_clause, [1 << 29])
            # Numbers that ctypes would cut.
            for call in (solver.hide_var, solver.witness_var, solver.sample_var):
                self.assertRaises(OverflowError, call, (1 << 32) + 1)
            self.assertRaises(OverflowError, solver.solve, steps=-1)
            self.assertRaises(ValueError, solver.solve, [1, 0])
            self.assertRaises(ValueError, solver.hide_var, -1)
            self.assertRaises(ValueError, solver.is_fixed, 0)
            self.assertRaises(OverflowError, solver.is_fixed, (1 << 32) + 1)
            self.assertRaises(TypeError, solver.read_dimacs, io.StringIO("1 0"))
            solver.delete()
            self.assertRaisesRegex(VarisatError, "deleted", solver.solve)
        self.assertRaises(ValueError, Solver, format="lrat")
        self.assertRaises(TypeError, Solver, proof="a name")
        self.assertRaises(OverflowError, Solver, reduce_locals_interval=-1)
        self.assertRaises(OverflowError, Simplifier, frozen=[(1 << 32) + 1])
        self.assertRaises(VarisatError, Solver, vsids_decay=3)
        self.assertRaises(TypeError, Solver, vsids_decai=900)
        with self.assertRaises(MemoryError):
            Solver(pigeons(20), heap_limit=10000)
        with Solver(heap_limit=10000) as solver:
            self.assertTrue(solver.is_valid())
            self.assertRaises(MemoryError, solver.append_formula, pigeons(20))
            self.assertFalse(solver.is_valid())
            # The number is the call's, and the text tells what came before.
            with self.assertRaisesRegex(VarisatError, "memory") as refused:
                solver.solve()
            self.assertEqual(refused.exception.number, -4)

    def test_interrupts(self):
        with Solver(pigeons(12)) as solver:
            self.assertIsNone(solver.solve(steps=100))
            self.assertEqual(solver.accum_stats()["steps"], 100)
            threading.Timer(0.2, solver.interrupt).start()
            begin = time.time()
            self.assertIsNone(solver.solve())
            self.assertLess(time.time() - begin, 20)
            solver.set_terminate(lambda: True)
            self.assertIsNone(solver.solve())
            solver.set_terminate()
            # A shell has what it starts in the background ignore Ctrl-C, and Python then raises nothing.
            signal.signal(signal.SIGINT, signal.default_int_handler)
            begun = threading.Event()

            def press():
                begun.wait()
                time.sleep(0.2)
                os.kill(os.getpid(), signal.SIGINT)

            # The thread is there before, as its start may take long on a busy machine.
            threading.Thread(target=press).start()
            with self.assertRaises(KeyboardInterrupt):
                begun.set()
                solver.solve()
            self.assertFalse(solver.solve(assumptions=[1, 12]))
            solver.interrupt()
            solver.clear_interrupt()
            self.assertIsNone(solver.solve(steps=3000))
            self.assertGreater(solver.accum_stats()["steps"], 3000)

    def test_second_calls(self):
        # The pigeons fit unless 91 is assumed, and 90 and 91 exclude each other.
        with Solver([[-91, *clause] for clause in pigeons(8)] + [[-90, -91]]) as solver:
            def call():
                for second in (lambda: solver.solve([90, 91]), lambda: solver.add_clause([-91]), solver.get_model, solver.delete):
                    with self.assertRaises(VarisatError) as refused:
                        second()
                    self.assertEqual(refused.exception.number, -18)
                asked.append(solver.accum_stats()["steps"])

            asked = []
            solver.set_terminate(call)
            self.assertFalse(solver.solve([91]))
            self.assertEqual(solver.get_core(), [91])
            self.assertTrue(asked)
            self.assertFalse(solver.solve([90, 91]))

    def test_threads(self):
        # A proof has its bytes once, and in order, where threads take turns in giving clauses and searching.
        class Slow(io.BytesIO):
            def write(self, piece):
                time.sleep(0)
                return super().write(piece)

        clauses, target = pigeons(6), Slow()
        left = [[clause] for clause in clauses]

        def take_turns(call):
            while True:
                try:
                    return call()
                except VarisatError as refused:
                    if refused.number != -18:
                        raise

        def give():
            with contextlib.suppress(IndexError):
                while formula := left.pop():
                    take_turns(lambda: solver.append_formula(formula))
                    take_turns(lambda: solver.solve(steps=2))

        with Solver(proof=target, format="marked") as solver:
            threads = [threading.Thread(target=give) for _ in range(3)]
            interval = sys.getswitchinterval()
            sys.setswitchinterval(1e-6)
            try:
                for thread in threads:
                    thread.start()
                for thread in threads:
                    thread.join()
            finally:
                sys.setswitchinterval(interval)
            self.assertFalse(solver.solve())
            solver.close_proof()
        text = "".join(" ".join(map(str, clause)) + " 0\n" for clause in clauses).encode()
        self.assertTrue(check_proof(text, target.getvalue(), "marked"))

    def test_proofs(self):
        clauses = pigeons(6)
        text = "".join(" ".join(map(str, clause)) + " 0\n" for clause in clauses).encode()
        for format in ("drat", "binary", "marked"):
            target = io.BytesIO()
            with Solver(clauses, proof=target, format=format) as solver:
                self.assertFalse(solver.solve())
                solver.close_proof()
            self.assertTrue(check_proof(text, target.getvalue(), format))
            self.assertTrue(check_proof(bytearray(text), memoryview(target.getvalue()), format))
            self.assertRaises(VarisatError, check_proof, b"1 2 0", target.getvalue(), format)
            with self.assertRaisesRegex(VarisatError, "line 2 of the text") as refused:
                check_proof(b"1 2 0\nx", b"", format)
            self.assertEqual((refused.exception.number, refused.exception.place), (-13, 2))
            self.assertRaisesRegex(VarisatError, "byte 0 of the proof", check_proof, text, b"x", format)
            self.assertRaises(TypeError, check_proof, text.decode(), b"", format)
            self.assertEqual(self.proof_in_pieces(clauses, format), target.getvalue())
        self.assertRaises(ValueError, check_proof, text, b"", "lrat")
        with open("/dev/full", "wb", buffering=0) as target, Solver(proof=target) as solver:
            self.assertRaises(OSError, solver.append_formula, [[1], [2, 1, 2]])

    def proof_in_pieces(self, clauses, format):
        """The proof by a target that takes a few bytes at a time."""
        class Slow(io.BytesIO):
            def write(self, piece):
                return super().write(piece[:1000])

        with Solver(clauses, proof=(target := Slow()), format=format) as solver:
            solver.solve()
            solver.close_proof()
        return target.getvalue()

    def test_texts(self):
        with Solver(self_check=True) as solver:
            solver.read_dimacs(io.BytesIO(b"p cnf 4 2\n1 2 0 -1 0"))
            self.assertEqual(solver.nof_vars(), 4)
            self.assertTrue(solver.solve())
            self.assertEqual(solver.get_model()[:2], [-1, 2])

    def test_a_text_that_cannot_be_read_further(self):
        class Torn(io.BytesIO):
            def read(self, size=-1):
                if self.tell():
                    raise OSError
                return super().read(size)

        with Solver() as solver:
            self.assertRaises(OSError, solver.read_dimacs, Torn(b"4 2 0\n"))
            self.assertEqual(solver.nof_vars(), 4)
            self.assertRaises(OSError, solver.read_dimacs, Torn(b"1 2 0 3 "))
            solver.read_dimacs(io.BytesIO(b"-1 0"))
            self.assertTrue(solver.solve())
            self.assertEqual(solver.get_model()[:2], [-1, 2])

    def test_simplifier(self):
        clauses = [[-1, 2], [-2, 3], [-3, 4], [1, 5]]
        simplifier = Simplifier(clauses, frozen=[1, 4])
        left = simplifier.simplify()
        self.assertTrue({abs(literal) for clause in left for literal in clause} <= {1, 4})
        with Solver(left) as solver:
            for first in (1, -1):
                self.assertTrue(solver.solve([first]))
                model = simplifier.extend(solver.get_model())
                self.assertIn(first, model)
                self.assertTrue(all(any(literal in model for literal in clause) for clause in clauses))
            self.assertFalse(solver.solve([1, -4]))
        with self.assertRaises(VarisatError) as refused:
            simplifier.append_formula([[1]])
        self.assertEqual(refused.exception.number, -19)
        self.assertRaises(ValueError, Simplifier, [[1, 0]])
        self.assertRaises(ValueError, Simplifier, [[1]], frozen=[0])
        self.assertRaises(ValueError, simplifier.extend, [0])
        self.assertRaisesRegex(VarisatError, "not simplified yet", Simplifier([[1]]).extend, [1])
        with self.assertRaises(MemoryError):
            Simplifier(pigeons(20), heap_limit=10000)


class Formulas(unittest.TestCase):
    def test_cnf(self):
        text = "c first\np cnf 4 2\n1 -2\n 0 3 0\nc last\n"
        formula = CNF(from_string=text)
        self.assertEqual((formula.nv, formula.clauses, formula.comments), (4, [[1, -2], [3]], ["c first", "c last"]))
        self.assertEqual(list(formula), formula.clauses)
        self.assertEqual(formula.to_dimacs(), "c first\nc last\np cnf 4 2\n1 -2 0\n3 0\n")
        other = formula.copy()
        other.append({-6})
        other.clauses[0].append(5)
        self.assertEqual((other.nv, formula.nv, formula.clauses), (6, 4, [[1, -2], [3]]))
        other.from_clauses(iter([(1, 2), array("b", [-7])]))
        self.assertEqual((other.nv, other.clauses, other.comments), (7, [[1, 2], [-7]], []))
        self.assertEqual(eval(repr(formula), {"CNF": CNF}).clauses, formula.clauses)
        self.assertEqual(CNF(from_string="").clauses, [])
        self.assertEqual(CNF(from_string="% old\n1 0", comment_lead=["c", "%"]).clauses, [[1]])
        self.assertEqual(CNF(from_fp=io.StringIO("1 0\n0")).clauses, [[1], []])
        for clauses, refused in (([[1, 0]], ValueError), ([["1"]], TypeError), ([[1.5]], TypeError)):
            self.assertRaises(refused, CNF, from_clauses=clauses)

    def test_wrong_texts(self):
        for text, line in (("1 2", "line 1: no 0"), ("1 x 0", "line 1: 'x'"), ("p cnf 2 1\n1 3 0", "line 2: .* 2 variables"), ("\n%\n0", "line 2: '%'"),
                           ("p cnf 2 2\n1 0\n\n", "line 3: .* 2 clauses"), ("1 0\np cnf 2 2", "line 2: a header"), ("p cnf 1", "line 1: a header"),
                           ("p cnf 1 0\np cnf 1 0", "line 2: a header"), ("1_0 0", "'1_0'"), ("+1 0", "'\\+1'"), ("01 0", "'01'"), ("p wcnf 1 1\n", "header"),
                           ("p cnf 1 0 0", "header"), ("p cnf 1 x", "'x'"), ("-0", "'-0'"), ("\u0661 0", "is no number")):
            formula = CNF(from_clauses=[[9]])
            with self.assertRaisesRegex(ValueError, line, msg=text):
                formula.from_string(text)
            self.assertEqual((formula.nv, formula.clauses), (0, []))
            # The solver takes none of these either.
            if "%" not in text:
                with Solver() as solver:
                    self.assertRaises(VarisatError, solver.read_dimacs, io.BytesIO(text.encode()))
        for text, line in (("h 1 2", "line 1: a clause ends"), ("h 1 0\n0 1 0", "line 2: 0 is no weight"), ("-3 1 0", "-3 is no weight"), ("h", "ends with 0"),
                           ("1.5 1 0", "'1.5'"), ("h 1 0 2 0", "0 is no literal"), ("p wcnf 1", "header"), ("1 1 0\np wcnf 1 1", "line 2: a header"),
                           ("p cnf 1 1\n1 0", "header"), ("x 1 0", "'x'")):
            formula = WCNF(from_string="h 1 0")
            with self.assertRaisesRegex(ValueError, line, msg=text):
                formula.from_string(text)
            self.assertEqual((formula.nv, formula.hard), (0, []))

    def test_texts_as_the_solver_reads_them(self):
        rng, taken = random.Random(7), 0
        words = ["p cnf ", "1", "2", "0", " ", "\n", "-1", "-2", " 0\n", "c x\n", "c", "p", "cnf", "p cnf 2 2\n", "p cnf 2 1\n", "\t", "\r\n", " c\n", " p cnf 2 1\n"]
        for _ in range(3000):
            text = "".join(rng.choice(words) for _ in range(rng.randint(0, 9)))
            with Solver() as solver:
                try:
                    formula = CNF(from_string=text)
                except ValueError:
                    self.assertRaises(VarisatError, solver.read_dimacs, io.BytesIO(text.encode()))
                    continue
                taken += 1
                solver.read_dimacs(io.BytesIO(text.encode()))
                self.assertEqual((solver.nof_vars(), solver.solve()), (formula.nv, Solver(formula).solve()), text)
        self.assertGreater(taken, 500)

    def test_wcnf(self):
        formula = WCNF(from_string="c here\np wcnf 5 4 10\n10 1 2 0\n3 -1 0\n11 0\n9 -2 1 0\n")
        self.assertEqual((formula.nv, formula.hard, formula.soft, formula.wght), (5, [[1, 2], []], [[-1], [-2, 1]], [3, 9]))
        self.assertEqual((formula.topw, formula.comments), (13, ["c here"]))
        again = WCNF(from_string=formula.to_dimacs())
        self.assertEqual(vars(again), vars(formula))
        other = formula.copy()
        other.append([7], weight=1 << 70)
        self.assertEqual((other.nv, other.topw, formula.nv, len(formula.soft)), (7, 13 + (1 << 70), 5, 2))
        # Without a top each clause is soft.
        self.assertEqual(WCNF(from_string="p wcnf 1 1\n9 1 0").wght, [9])
        self.assertEqual(CNF(from_clauses=[[1], [2, 3]]).weighted().to_dimacs(), "p wcnf 3 2 3\n1 1 0\n1 2 3 0\n")
        self.assertRaises(ValueError, formula.append, [1], 0)
        self.assertRaises(TypeError, formula.append, [1], 1.5)
        self.assertRaises(ValueError, formula.extend, [[1]], [1, 2])
        # A refused clause leaves the lists of one length.
        self.assertRaises(ValueError, formula.append, [1, 0], 3)
        self.assertEqual((len(formula.soft), len(formula.wght), formula.topw), (2, 2, 13))
        self.assertRaisesRegex(TypeError, "unweighted", Solver, bootstrap_with=formula)
        self.assertEqual(Solver("g3", formula.unweighted()).nof_clauses(), 4)

    def test_files(self):
        formula, weighted = CNF(from_clauses=pigeons(5)), WCNF(from_string="h 1 2 0\n7 -1 0")
        formula.comments = ["c \udce9t\udce9"]
        with tempfile.TemporaryDirectory() as folder:
            sizes = []
            for end in ("", ".gz", ".bz2", ".xz", ".lzma"):
                for it in (formula, weighted):
                    it.to_file(name := os.path.join(folder, "it.cnf" + end), comments=["c made here"])
                    again = type(it)(from_file=name)
                    self.assertEqual(again.comments, ["c made here", *it.comments])
                    again.comments = it.comments
                    self.assertEqual(vars(again), vars(it))
                    sizes.append(os.path.getsize(name))
            self.assertLess(sizes[2], sizes[0])
            formula.to_file(name, compress_with="gzip")
            self.assertRaises(Exception, formula.from_file, name)
            formula.from_file(name, compressed_with="gzip")
            self.assertEqual(formula.nv, 20)
            formula.to_file(name, compress_with=None)
            formula.from_file(name, compressed_with=None)
            self.assertRaises(ValueError, formula.from_file, name, compressed_with="zip")
            # What a solver reads is what was written.
            with open(name, "rb") as file, Solver() as solver:
                solver.read_dimacs(file)
                self.assertFalse(solver.solve())
        self.assertRaises(FileNotFoundError, CNF, from_file="/nowhere.cnf")


@unittest.skipUnless(importlib.util.find_spec("sympy"), "sympy is not there")
class Sympy(unittest.TestCase):
    """What SymPy calls of pycosat."""

    def setUp(self):
        sys.modules["pycosat"] = importlib.import_module("varisat.pycosat")
        self.addCleanup(sys.modules.pop, "pycosat")

    def test_satisfiable(self):
        from sympy import symbols
        from sympy.logic.inference import satisfiable
        a, b, c = symbols("a b c")
        formula = (a | b) & (~a | c) & (~b | ~c)
        model = satisfiable(formula, algorithm="pycosat")
        self.assertTrue(formula.subs(model))
        self.assertIs(satisfiable(a & ~a, algorithm="pycosat"), False)
        models = list(satisfiable(a | b | c, algorithm="pycosat", all_models=True))
        self.assertEqual(len({tuple(sorted(model.items(), key=str)) for model in models}), 7)
        self.assertEqual(list(satisfiable(a & ~a, algorithm="pycosat", all_models=True)), [False])


if __name__ == "__main__":
    unittest.main(verbosity=0)
