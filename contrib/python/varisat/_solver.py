"""The class Solver."""
from __future__ import annotations

import ctypes
import functools
import io
import os
import tempfile
import time
from array import array
from typing import Any, BinaryIO, Callable, Dict, Iterable, Iterator, List, NoReturn, Optional, Sequence, Tuple, TypeVar, Union, cast

from varisat._library import (
    HIGHEST_VARIABLE, SATISFIABLE, UNKNOWN, UNSATISFIABLE, ErrorNumber, VarisatError, Writer, bytes_of, error_of, fit, format_number, library,
    literal_of, literals_of, numbers_of, refuse_copy, variable_of
)

# Between so many steps of a search Python looks at signals, interrupts and the function of set_terminate.
_ROUND = 1000
SETTINGS = (
    "vsids_decay", "clause_activity_decay", "reduce_locals_interval", "reduce_mids_interval", "luby_restart_interval_scale", "restart_glue"
)
COUNTERS = ("conflicts", "decisions", "propagations", "restarts", "learned_literals", "deleted_clauses", "collections", "steps", "bytes")

_Formula = Iterable[Iterable[int]]
_Call = TypeVar("_Call", bound=Callable[..., Any])


def _alone(call: _Call) -> _Call:
    """Has a second call of the same solver refused until this one has ended: a search is many calls of the library, between which it could
    change, and a proof is passed on after each."""
    @functools.wraps(call)
    def alone(self: Solver, *words: Any, **options: Any) -> Any:
        this = object()
        try:
            # Of two threads one sets the default.
            if self._calls.setdefault("this", this) is not this:
                self._refuse_second()
            return call(self, *words, **options)
        finally:
            if self._calls.get("this") is this:
                self._calls.clear()

    return cast(_Call, alone)


class Solver:
    """A solver of growing formulas, with the calls of PySAT's solvers. A MemoryError or a VarisatError is a refusal.

    >>> solver = Solver(bootstrap_with=[[-1, 2], [-2, -3]])
    >>> solver.solve(), solver.solve(assumptions=[1, 3]), sorted(solver.get_core())
    (True, False, [1, 3])
    >>> solver.delete()

    As in PySAT, a name of a solver may come first. It means nothing here: each name makes the solver varisat.

    >>> with Solver("g4", bootstrap_with=[[1], [-1, 2]], use_timer=True) as solver:
    ...     solver.solve(), solver.get_model(), solver.time() >= 0
    (True, [1, 2], True)

    The arguments, of which the first three may be given without their names:

    name             a text, which means nothing, or the formula of bootstrap_with
    bootstrap_with   a list of lists, or a CNF, whose clauses are accepted
    use_timer        whether time and time_accum measure searches
    heap_limit       bytes of memory that the solver may take; 0 is any number
    for_file         whether the settings are those for one long search
    proof            what has a method write gets a proof
    format           the proof's: drat, binary or marked
    with_proof       whether the proof is kept for get_proof
    self_check       whether a checker runs inside
    incr, warm_start taken as PySAT's solvers take them; they mean nothing

    and the settings, which are numbers:

    vsids_decay                  500 to 999  950    decay of the activities of variables, in thousandths
    clause_activity_decay        500 to 999  999    the same of clauses
    reduce_locals_interval       from 1      15000  steps between reductions of the Local clauses
    reduce_mids_interval         from 1      10000  steps between reductions of the Mid clauses
    luby_restart_interval_scale  from 1      128    steps between restarts, times the Luby sequence
    restart_glue                 0 to 1000   0      restart above so many hundredths of the usual glue
    """

    def __init__(self, name: Union[str, _Formula, None] = "varisat", bootstrap_with: Optional[_Formula] = None, use_timer: bool = False, *,
                 heap_limit: int = 0, for_file: bool = False, proof: Optional[Writer] = None, format: str = "drat", with_proof: bool = False,
                 self_check: bool = False, incr: bool = False, warm_start: bool = False, **settings: int):
        if not isinstance(name, str) and bootstrap_with is not None:
            raise TypeError("a name comes before bootstrap_with, or one formula alone")
        # It would be a solver without clauses.
        if isinstance(name, str) and ("." in name or "/" in name):
            raise ValueError(f"{name!r} is no name of a solver: Solver(CNF(from_file=..)) takes the clauses of a file")
        number = format_number(format)
        if proof is not None and not hasattr(proof, "write"):
            raise TypeError("the proof goes to what has a method write, as a file that is open in binary")
        if with_proof and (proof is not None or format == "binary"):
            raise ValueError("get_proof returns lines of text: with_proof takes neither another target nor the format binary")
        for setting in settings:
            if setting not in SETTINGS:
                raise TypeError(f"there is no setting {setting}")
        self._solver = library.varisat_new(fit("Q", heap_limit))
        if not self._solver:
            raise MemoryError("too little memory for a solver")
        # The call that is under way, if one is.
        self._calls: Dict[str, object] = {}
        self._kept = io.BytesIO() if with_proof else None
        self._target: Optional[Writer] = self._kept if with_proof else proof
        self._written: Any = None
        # How many of the bytes that are written the target took.
        self._handed = 0
        self._status: Optional[bool] = None
        self._clauses = self._top = 0
        self._budgets: Dict[str, int] = {}
        self._is_interrupted = False
        self._terminate: Optional[Callable[[], Any]] = None
        self._use_timer, self._time, self._time_accum = use_timer, 0.0, 0.0
        try:
            self._begin(number, for_file, self_check, settings)
            formula = bootstrap_with if isinstance(name, str) else name
            if formula is not None:
                self.append_formula(formula)
        except BaseException:
            self.delete()
            raise

    def new(self, name: Union[str, _Formula, None] = "varisat", bootstrap_with: Optional[_Formula] = None, use_timer: bool = False,
            **options: Any) -> None:
        """Deletes what was there, and begins anew with the arguments of the class.

        >>> solver = Solver([[1], [-1]])
        >>> solver.new("g4", [[1]])
        >>> solver.solve(), solver.nof_clauses()
        (True, 1)
        """
        self.delete()
        Solver.__init__(self, name, bootstrap_with, use_timer, **options)

    def _begin(self, format: int, for_file: bool, self_check: bool, settings: Dict[str, int]) -> None:
        if for_file:
            self._done(library.varisat_set_for_file(self._solver))
        for name, value in settings.items():
            self._done(library.varisat_set_named(self._solver, name.encode(), fit("Q", value)))
        if self._target is not None:
            # The library writes here, and after each call what is here is passed on: Python code that it called could be interrupted.
            self._written = tempfile.TemporaryFile(buffering=0)
            self._done(library.varisat_write_proof_fd(self._solver, format, self._written.fileno()))
        if self_check:
            self._done(library.varisat_self_check(self._solver))

    def _hand_on(self) -> None:
        size = self._written.tell()
        # A file without a buffer may take a part.
        while self._handed < size:
            piece = os.pread(self._written.fileno(), size - self._handed, self._handed)
            taken = cast(Writer, self._target).write(piece)
            self._handed += len(piece) if taken is None else taken
        if size:
            self._written.seek(0)
            self._written.truncate()
            self._handed = 0

    def _done(self, answer: int) -> int:
        # The call of another thread is under way, and writes to the file.
        if answer == ErrorNumber.BUSY:
            self._refuse_second()
        if self._written:
            self._hand_on()
        if answer >= 0:
            return answer
        raise error_of(answer, library.varisat_error_text(self._solver).decode() if self._solver else "The solver was deleted")

    def _refuse_second(self) -> NoReturn:
        raise VarisatError(ErrorNumber.BUSY, "Another call of this solver is under way")

    @_alone
    def close_proof(self) -> None:
        """Ends the proof."""
        self._done(library.varisat_close_proof(self._solver))
        if self._written:
            self._written.close()
            self._written = None

    def _use(self, numbers: Sequence[int]) -> None:
        """Has nof_vars count these variables, before the call that brings them into use: some may be in use if it is refused."""
        top = max(max(numbers), -min(numbers)) if numbers else 0
        # Refused here, as the library looks at no clause once there is no model.
        if top > HIGHEST_VARIABLE:
            raise VarisatError(ErrorNumber.VARIABLE_LIMIT, "The variable limit is passed")
        self._top = max(self._top, top)

    def add_clause(self, clause: Iterable[int], no_return: bool = True) -> Optional[bool]:
        """Accepts a clause. If no_return is False it returns True, which says nothing about models.

        >>> with Solver() as solver:
        ...     solver.add_clause([1, -2])
        ...     solver.nof_clauses(), solver.nof_vars()
        (1, 2)
        """
        return self.append_formula([clause], no_return)

    def append_formula(self, formula: _Formula, no_return: bool = True) -> Optional[bool]:
        """Accepts the clauses of a list of lists or of a CNF, PySAT's too, and returns as add_clause does.

        >>> from varisat import CNF
        >>> with Solver() as solver:
        ...     solver.append_formula(CNF(from_string="p cnf 2 1\\n1 -2 0\\n"))
        ...     solver.nof_clauses()
        1
        """
        # Before the call, as what is iterated over may call new_var.
        self._add(*numbers_of(formula))
        return None if no_return else True

    @_alone
    def _add(self, numbers: array[int], count: int) -> None:
        self._use(numbers)
        address, size = numbers.buffer_info()
        self._status = None
        self._done(library.varisat_add_clauses(self._solver, address, size))
        self._clauses += count

    @_alone
    def read_dimacs(self, file: BinaryIO) -> None:
        """Accepts the clauses of a DIMACS CNF text, of a file that is open in binary; after a fault, those before it.

        >>> with Solver() as solver:
        ...     solver.read_dimacs(io.BytesIO(b"p cnf 2 2\\n-1 0 1 2 0"))
        ...     solver.solve(), solver.get_model()
        (True, [-1, 2])
        """
        self._status = None
        try:
            while piece := bytes_of(file.read(1 << 16)):
                self._done(library.varisat_read_dimacs(self._solver, piece, len(piece)))
        except BaseException:
            # Otherwise the next text would go on where this one ends.
            self._top = max(self._top, library.varisat_end_dimacs(self._solver))
            raise
        self._top = max(self._top, self._done(library.varisat_end_dimacs(self._solver)))

    def solve(self, assumptions: Iterable[int] = (), steps: Optional[int] = None) -> Optional[bool]:
        """Whether the clauses are satisfiable under the assumptions. None if so many steps were made first, interrupt() was called, or the
        function of set_terminate said so: the next call goes on. Ctrl-C ends it too, and the solver stays as it is.

        >>> with Solver([[1, 2], [-1]]) as solver:
        ...     solver.solve(), solver.solve(assumptions=[-2]), solver.solve(steps=0)
        (True, False, None)
        """
        return self._solve(literals_of(assumptions), None if steps is None else fit("Q", steps), {})

    @_alone
    def _solve(self, numbers: array[int], steps: Optional[int], budgets: Dict[str, int]) -> Optional[bool]:
        begun = time.process_time() if self._use_timer else 0.0
        self._use(numbers)
        address, size = numbers.buffer_info()
        self._status = None
        try:
            self._done(library.varisat_assume(self._solver, address, size))
            answer = self._search(steps, {name: self._count(name) + budget for name, budget in budgets.items()})
        finally:
            if self._use_timer:
                self._time = time.process_time() - begun
                self._time_accum += self._time
        self._is_interrupted = False
        self._status = {SATISFIABLE: True, UNSATISFIABLE: False}.get(answer)
        return self._status

    def _search(self, steps: Optional[int], limits: Dict[str, int]) -> int:
        """Searches until a counter comes to its limit. The counters are read between steps."""
        while True:
            is_spent = any(self._count(name) >= limit for name, limit in limits.items())
            round = 0 if is_spent else 1 if limits else _ROUND
            round = round if steps is None else min(steps, round)
            answer = self._done(library.varisat_solve_steps(self._solver, round))
            steps = None if steps is None else steps - round
            if answer != UNKNOWN or steps == 0 or is_spent or self._is_interrupted or (self._terminate and self._terminate()):
                return answer

    def _count(self, name: str) -> int:
        return int(library.varisat_count(self._solver, COUNTERS.index(name)))

    def _set_budget(self, name: str, budget: int) -> None:
        self._budgets.pop(name, None)
        if budget >= 0:
            self._budgets[name] = fit("Q", budget)

    def conf_budget(self, budget: int = -1) -> None:
        """How many conflicts each solve_limited from now on may have, -1 for any number. It makes at most so many steps, of which each ends
        with a conflict or the answer.

        >>> with Solver([[1, 2], [1, -2], [-1, 2], [-1, -2]]) as solver:
        ...     solver.conf_budget(0)
        ...     solver.solve_limited(), solver.solve()
        (None, False)
        """
        self._set_budget("conflicts", budget)

    def prop_budget(self, budget: int = -1) -> None:
        """How many propagations each solve_limited from now on may make, -1 for any number. It ends after the first step in which they came
        to so many, and not within a step, which ends with a conflict or the answer: an answer of that step is returned."""
        self._set_budget("propagations", budget)

    def dec_budget(self, budget: int = -1) -> None:
        """How many decisions each solve_limited from now on may make, -1 for any number. It ends as prop_budget says."""
        self._set_budget("decisions", budget)

    def solve_limited(self, assumptions: Iterable[int] = (), expect_interrupt: bool = False) -> Optional[bool]:
        """`solve` within the budgets, of which each call has the whole. It can be interrupted, whatever expect_interrupt is."""
        budgets = dict(self._budgets)
        return self._solve(literals_of(assumptions), budgets.pop("conflicts", None), budgets)

    def set_terminate(self, function: Optional[Callable[[], Any]] = None) -> None:
        """Interrupts searches once the function returns true, which they ask at least each 1000 steps. What it raises ends the search too."""
        self._terminate = function

    def interrupt(self) -> None:
        """Ends the search that another thread makes, or the next one. That search then forgets it."""
        self._is_interrupted = True

    def clear_interrupt(self) -> None:
        """Forgets an interrupt() that no search saw."""
        self._is_interrupted = False

    def get_status(self) -> Optional[bool]:
        """The last answer, unless something was given since."""
        return self._status

    def _listed(self, call: Callable[..., int]) -> List[int]:
        count = self._done(call(self._solver, None, 0))
        literals = (ctypes.c_int32 * count)()
        self._done(library.varisat_last_list(self._solver, literals, count))
        return list(literals)

    @_alone
    def get_model(self) -> Optional[List[int]]:
        """After True: the variables in use with their values. Otherwise None."""
        return self._listed(library.varisat_model) if self._status else None

    @_alone
    def get_core(self) -> Optional[List[int]]:
        """After False: some of the assumptions which fail with the clauses, none if those have no model. Otherwise None."""
        return self._listed(library.varisat_failed_core) if self._status is False else None

    @_alone
    def is_fixed(self, literal: int) -> bool:
        """Whether the literal is fixed: the clauses entail it. False if no search and no clause of one literal has fixed it yet.

        >>> with Solver([[1], [-1, 2], [3, 4]]) as solver:
        ...     solver.solve(), [literal for literal in (1, 2, 3, -1) if solver.is_fixed(literal)]
        (True, [1, 2])
        """
        return self._done(library.varisat_fixed(self._solver, literal_of(literal))) == 1

    def get_proof(self) -> Optional[List[str]]:
        """The lines of the proof so far, if the solver was made with with_proof. Otherwise None. Under a DRAT proof nothing can be assumed.

        >>> with Solver([[1, 2], [1, -2], [-1, 2], [-1, -2]], with_proof=True) as solver:
        ...     solver.solve(), solver.get_proof()[-1]
        (False, '0')
        """
        return None if self._kept is None else self._kept.getvalue().decode("ascii").splitlines()

    def enum_models(self, assumptions: Iterable[int] = ()) -> Iterator[List[int]]:
        """Each model, which a clause then bars: so no variable of it may be a witness.

        >>> with Solver([[1, 2]]) as solver:
        ...     sorted(solver.enum_models(assumptions=[2]))
        [[-1, 2], [1, 2]]
        """
        assumptions = list(assumptions)
        while self.solve(assumptions):
            model = cast(List[int], self.get_model())
            yield model
            self.add_clause([-literal for literal in model])

    def time(self) -> float:
        """The CPU time in seconds of the last search, if the solver was made with use_timer. Otherwise 0.0."""
        return self._time

    def time_accum(self) -> float:
        """The CPU time in seconds of all searches, if the solver was made with use_timer. Otherwise 0.0."""
        return self._time_accum

    def supports_atmost(self) -> bool:
        """False: cardinality constraints have to be given as clauses.

        >>> Solver().supports_atmost()
        False
        """
        return False

    def add_atmost(self, lits: Iterable[int], k: int, weights: Iterable[int] = (), no_return: bool = True) -> NoReturn:
        """Raises NotImplementedError, as PySAT's solvers do that take clauses alone."""
        raise NotImplementedError("varisat takes no cardinality constraints: give clauses that encode them")

    def propagate(self, assumptions: Iterable[int] = (), phase_saving: int = 0) -> Tuple[bool, List[int]]:
        """Raises NotImplementedError, as PySAT's solvers do that have no such call: the library has none."""
        raise NotImplementedError("varisat does not return what unit propagation finds")

    @_alone
    def set_phases(self, literals: Iterable[int] = ()) -> None:
        """Has searches decide the variables of these literals first so that the literals are true. No answer depends on it, except which
        model is found.

        >>> with Solver([[1, 2, 3]]) as solver:
        ...     solver.set_phases([2, -3])
        ...     solver.solve(), solver.get_model()[1:]
        (True, [2, -3])
        """
        for literal in literals_of(literals):
            self._done(library.varisat_set_phase(self._solver, literal))

    @_alone
    def unset_phase(self, variable: int) -> None:
        """Ends what set_phases did for the variable."""
        self._done(library.varisat_unset_phase(self._solver, variable_of(variable)))

    @_alone
    def new_var(self) -> int:
        """The least free variable, which comes into use."""
        self._status = None
        variable = self._done(library.varisat_new_var(self._solver))
        self._top = max(self._top, variable)
        return variable

    @_alone
    def _set_mode(self, call: Callable[..., int], variable: int) -> None:
        self._use([variable := variable_of(variable)])
        self._done(call(self._solver, variable))

    def witness_var(self, variable: int) -> None:
        """Makes it a witness, which no clause and no assumption names."""
        self._set_mode(library.varisat_witness_var, variable)

    def sample_var(self, variable: int) -> None:
        """Lets clauses and assumptions name it again."""
        self._set_mode(library.varisat_sample_var, variable)

    def hide_var(self, variable: int) -> None:
        """Frees its name; the variable lives on in the clauses."""
        self._set_mode(library.varisat_hide_var, variable)

    @_alone
    def observe_internal_vars(self) -> List[int]:
        """Brings hidden variables back as witnesses, and returns their new names; which variable has which is not promised. Those whose
        value is forced, or that no clause of several literals names, may stay hidden."""
        self._use(variables := self._listed(library.varisat_observe_internal_vars))
        return variables

    @_alone
    def is_valid(self) -> bool:
        """Whether the solver can go on. After a MemoryError, or if what takes a proof failed, it may not: then all changes are refused."""
        return self._done(library.varisat_is_valid(self._solver)) == 1

    def nof_vars(self) -> int:
        """The highest variable that a call named or returned. Of a text with a fault none counts."""
        return self._top

    def nof_clauses(self) -> int:
        """How many clauses were given, except those of texts."""
        return self._clauses

    def accum_stats(self) -> Dict[str, int]:
        """The COUNTERS, among them the bytes of memory in use. All are 0 while another thread's call is under way.

        >>> with Solver([[1], [-1, 2]]) as solver:
        ...     solver.solve(), solver.accum_stats()["conflicts"]
        (True, 0)
        """
        return {name: self._count(name) for name in COUNTERS}

    @_alone
    def delete(self) -> None:
        """Frees the memory, as the end of a `with` does."""
        solver, self._solver = self._solver, None
        # While another thread's call is under way it writes to the file.
        if solver and library.varisat_free(solver) == ErrorNumber.BUSY:
            self._solver = solver
            self._refuse_second()
        if self._written:
            self._written.close()
            self._written = None

    def __del__(self) -> None:
        # What was not begun has no solver.
        if hasattr(self, "_written"):
            self.delete()

    def __enter__(self) -> Solver:
        return self

    def __exit__(self, *_: object) -> None:
        self.delete()

    __reduce__ = refuse_copy
