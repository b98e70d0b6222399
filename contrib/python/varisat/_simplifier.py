"""The class Simplifier."""
from __future__ import annotations

import ctypes
from typing import Any, Callable, Iterable, List

from varisat._library import error_of, fit, library, literals_of, numbers_of, refuse_copy, variable_of


class Simplifier:
    """Makes clauses shorter before a solver takes them: variables that are not frozen may be eliminated. Freeze those that later clauses or
    assumptions name. A MemoryError or a VarisatError is a refusal, which changes nothing.

    >>> from varisat import Solver
    >>> simplifier = Simplifier([[-1, 2], [-2, 3], [-3, 4]], frozen=[1, 4])
    >>> left = simplifier.simplify()
    >>> sorted({abs(literal) for clause in left for literal in clause})
    [1, 4]
    >>> with Solver(left) as solver:
    ...     solver.solve(assumptions=[1]), simplifier.extend(solver.get_model())
    (True, [1, 2, 3, 4])
    """

    def __init__(self, clauses: Iterable[Iterable[int]] = (), frozen: Iterable[int] = (), heap_limit: int = 0):
        """clauses: as append_formula takes them. frozen: variables. heap_limit: bytes of memory that it may take, 0 for any number."""
        self._simplifier = library.varisat_simplifier_new(fit("Q", heap_limit))
        if not self._simplifier:
            raise MemoryError("too little memory for a simplifier")
        self.append_formula(clauses)
        for variable in frozen:
            self.freeze(variable)

    def _done(self, answer: int) -> int:
        if answer < 0:
            raise error_of(answer)
        return answer

    def _listed(self, call: Callable[..., int], *given: Any) -> List[int]:
        count = self._done(call(self._simplifier, *given, None, 0))
        numbers = (ctypes.c_int32 * count)()
        self._done(call(self._simplifier, *given, numbers, count))
        return list(numbers)

    def append_formula(self, formula: Iterable[Iterable[int]]) -> None:
        """Takes the clauses of a list of lists or of a CNF, up to the first that is refused."""
        address, size = (numbers := numbers_of(formula)[0]).buffer_info()
        self._done(library.varisat_simplifier_add_clauses(self._simplifier, address, size))

    def freeze(self, variable: int) -> None:
        """Has the variable stay."""
        self._done(library.varisat_simplifier_freeze(self._simplifier, variable_of(variable)))

    def simplify(self) -> List[List[int]]:
        """Simplifies all clauses, once, and returns those that are left."""
        self._done(library.varisat_simplifier_simplify(self._simplifier))
        clauses: List[List[int]] = [[]]
        for number in self._listed(library.varisat_simplifier_clauses):
            if number:
                clauses[-1].append(number)
            else:
                clauses.append([])
        return clauses[:-1]

    def extend(self, model: Iterable[int]) -> List[int]:
        """Makes a model of all clauses from a model of the clauses that are left."""
        address, size = (numbers := literals_of(model)).buffer_info()
        return self._listed(library.varisat_simplifier_extend, address, size)

    def __del__(self) -> None:
        if getattr(self, "_simplifier", None):
            library.varisat_simplifier_free(self._simplifier)

    __reduce__ = refuse_copy
