"""The proved SAT solver varisat, with the calls of PySAT's solvers.

Literals are the numbers v and -v of variables v from 1 on. Each variable up to the highest one takes memory.

>>> from varisat import Solver
>>> with Solver(bootstrap_with=[[-1, 2], [-2, -3], [1, 3]]) as solver:
...     solver.solve(assumptions=[1, 2]), solver.get_model()
...     solver.solve(assumptions=[1, 3]), sorted(solver.get_core())
(True, [1, 2, -3])
(False, [1, 3])

`Solver` searches, `Simplifier` makes clauses shorter before that, `check_proof` checks a proof of any solver, and `CNF` and `WCNF` read and
write formulas. A refusal is a `VarisatError`, whose `number` is one of `ErrorNumber`, or a `MemoryError`.

The package needs libvarisat.so, which `make install` puts where it is found. The environment variable VARISAT_SO names it elsewhere.
"""
from varisat._library import ErrorNumber, VarisatError, check_proof, version
from varisat._simplifier import Simplifier
from varisat._solver import COUNTERS, SETTINGS, Solver
from varisat.formula import CNF, WCNF

__all__ = ["CNF", "COUNTERS", "ErrorNumber", "SETTINGS", "Simplifier", "Solver", "Varisat", "VarisatError", "WCNF", "check_proof", "version"]
__version__ = "2.0.0"

Varisat = Solver
