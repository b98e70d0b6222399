"""The two functions of pycosat over the proved solver. Programs that import pycosat take this module if it has that name:

    import sys, varisat.pycosat
    sys.modules["pycosat"] = varisat.pycosat

>>> solve([[1, -5, 4], [-1, 5, 3, 4], [-3, -4]]) != "UNSAT"
True
>>> solve([[1], [-1]])
'UNSAT'
>>> sorted(itersolve([[1, 2]], vars=2))
[[-1, 2], [1, -2], [1, 2]]

A limit of propagations counts propagations up to the end of a step. `verbose` means nothing.
"""
from __future__ import annotations

from typing import Iterable, Iterator, List, Optional, Union

from varisat import Solver

__all__ = ["itersolve", "solve"]
# The version of pycosat whose functions these are.
__version__ = "0.6.6"

_Clauses = Iterable[Iterable[int]]


def _solver(clauses: _Clauses, vars: Optional[int], for_file: bool) -> Solver:
    if vars is not None and not isinstance(vars, int):
        raise TypeError("integer expected")
    if isinstance(clauses, (int, float)):
        raise TypeError("iterable expected")
    taken = []
    for clause in clauses:
        clause = list(clause)
        for literal in clause:
            if not isinstance(literal, int):
                raise TypeError("interger expected")
            if literal == 0:
                raise ValueError("non-zero integer expected")
        taken.append(clause)
    solver = Solver(bootstrap_with=taken, for_file=for_file)
    while vars is not None and solver.nof_vars() < vars:
        solver.new_var()
    return solver


def _search(solver: Solver, limit: int) -> Optional[bool]:
    while limit:
        if solver.solve(steps=1) is not None:
            return solver.get_status() if solver.accum_stats()["propagations"] < limit else None
        if solver.accum_stats()["propagations"] >= limit:
            return None
    return solver.solve()


def solve(clauses: _Clauses, vars: Optional[int] = None, verbose: int = 0, prop_limit: int = 0) -> Union[List[int], str, None]:
    """A model of the clauses, "UNSAT", or "UNKNOWN" if so many propagations were made first."""
    with _solver(clauses, vars, True) as solver:
        answer = _search(solver, prop_limit)
        return solver.get_model() if answer else "UNSAT" if answer is False else "UNKNOWN"


def _models(solver: Solver, limit: int) -> Iterator[List[int]]:
    with solver:
        while _search(solver, limit):
            model = solver.get_model() or []
            yield model
            solver.add_clause([-literal for literal in model])


def itersolve(clauses: _Clauses, vars: Optional[int] = None, verbose: int = 0, prop_limit: int = 0) -> Iterator[List[int]]:
    """The models of the clauses, one after the other."""
    return _models(_solver(clauses, vars, False), prop_limit)
