"""The library for C, libvarisat.so: its calls, its errors, and what Python passes to it and takes from it."""
from __future__ import annotations

import ctypes
import ctypes.util
import os
from array import array
from enum import IntEnum
from typing import Any, Dict, Iterable, List, NoReturn, Optional, Protocol, Tuple

_int, _size, _pointer, _text, _long = ctypes.c_int, ctypes.c_size_t, ctypes.c_void_p, ctypes.c_char_p, ctypes.c_uint64
_list = [_pointer, _pointer, _size]

# What each call of varisat.h that is used here returns and takes.
SIGNATURES: Dict[str, Tuple[Any, List[Any]]] = {
    "new": (_pointer, [_size]), "free": (_int, [_pointer]), "error_text": (_text, [_pointer]), "version": (_text, []),
    "strerror": (_text, [_int]), "add_clauses": (_int, _list), "assume": (_int, _list),
    "read_dimacs": (_int, [_pointer, _text, _size]), "end_dimacs": (_int, [_pointer]),
    "solve_steps": (_int, [_pointer, _long]), "is_valid": (_int, [_pointer]),
    "fixed": (_int, [_pointer, ctypes.c_int32]),
    "set_phase": (_int, [_pointer, ctypes.c_int32]), "unset_phase": (_int, [_pointer, ctypes.c_int32]),
    "model": (_int, _list), "failed_core": (_int, _list), "observe_internal_vars": (_int, _list), "last_list": (_int, _list),
    "new_var": (_int, [_pointer]), "witness_var": (_int, [_pointer, ctypes.c_int32]),
    "sample_var": (_int, [_pointer, ctypes.c_int32]), "hide_var": (_int, [_pointer, ctypes.c_int32]),
    "set_named": (_int, [_pointer, _text, _long]), "set_for_file": (_int, [_pointer]), "setting_name": (_text, [_int]),
    "count": (_long, [_pointer, _int]),
    "write_proof_fd": (_int, [_pointer, _int, _int]), "close_proof": (_int, [_pointer]), "self_check": (_int, [_pointer]),
    "check_proof": (_int, [_int, _text, _size, _text, _size, ctypes.POINTER(_long)]),
    "simplifier_new": (_pointer, [_size]), "simplifier_free": (_int, [_pointer]), "simplifier_add_clauses": (_int, _list),
    "simplifier_freeze": (_int, [_pointer, ctypes.c_int32]), "simplifier_simplify": (_int, [_pointer]),
    "simplifier_clauses": (_int, _list), "simplifier_extend": (_int, [_pointer, _pointer, _size, _pointer, _size]),
}
FORMATS = {"drat": 0, "binary": 1, "marked": 2}
UNKNOWN, SATISFIABLE, UNSATISFIABLE = 0, 10, 20
HIGHEST_VARIABLE = 1 << 28


class Writer(Protocol):
    """What a proof goes to."""
    def write(self, piece: bytes, /) -> Any: ...


class ErrorNumber(IntEnum):
    """The errors of varisat.h, by their numbers.

    >>> ErrorNumber(-6).name, ErrorNumber.WITNESS_VAR == -6
    ('WITNESS_VAR', True)
    """
    __module__ = "varisat"
    PROOF_IO = -2
    OUT_OF_MEMORY = -3
    INVALID = -4
    STORE_FULL = -5
    WITNESS_VAR = -6
    VARIABLE_LIMIT = -7
    ASSUMED_VAR = -8
    CLAUSE_AFTER_SOLVE = -9
    PROOF_OPEN = -10
    PROOF_TOO_LATE = -11
    OUT_OF_RANGE = -12
    DIMACS = -13
    BAD_ARGUMENT = -14
    NOTHING = -15
    WRONG_PROOF = -16
    OTHER_CLAUSE = -17
    BUSY = -18
    SIMPLIFIED = -19
    READ_FAILED = -20


class VarisatError(Exception):
    """A refusal. `number` says which, as in varisat.h. `place` is set by check_proof: what of the text or the proof is wrong.

    >>> from varisat import Solver
    >>> try:
    ...     Solver(vsids_decay=3)
    ... except VarisatError as error:
    ...     error.number == ErrorNumber.OUT_OF_RANGE, str(error)
    (True, 'Configuration value out of range: vsids_decay')
    """
    __module__ = "varisat"
    number: int
    place: Optional[int]

    def __init__(self, number: int, text: str, place: Optional[int] = None):
        super().__init__(text)
        self.number = ErrorNumber(number) if number in _NUMBERS else number
        self.place = place

    def __reduce__(self) -> Any:
        return type(self), (int(self.number), str(self), self.place)


_NUMBERS = frozenset(map(int, ErrorNumber))


def _load() -> ctypes.CDLL:
    here = os.path.dirname(os.path.abspath(__file__))
    installed = [os.path.join(here, up, "libvarisat.so.1") for up in (".", "..", "../../..")]
    found = [place for place in installed if os.path.exists(place)]
    place = os.environ.get("VARISAT_SO") or (found or [ctypes.util.find_library("varisat") or "libvarisat.so.1"])[0]
    try:
        library = ctypes.CDLL(place)
    except OSError as error:
        raise ImportError(f"the library of varisat is not there ({error}): make install puts it, and VARISAT_SO names it elsewhere") from error
    for name, (result, arguments) in SIGNATURES.items():
        function = getattr(library, "varisat_" + name)
        function.restype, function.argtypes = result, arguments
    return library


library = _load()


def version() -> str:
    """The name and the version of the library, which say whether it was built without proofs.

    >>> version().split(",")[0].startswith("varisat ")
    True
    """
    return str(library.varisat_version().decode())


def error_of(number: int, text: str = "", place: Optional[int] = None) -> Exception:
    """The exception for a refusal. Without a text it has the library's for this number."""
    text = text or library.varisat_strerror(number).decode()
    return MemoryError(text) if number == ErrorNumber.OUT_OF_MEMORY else VarisatError(number, text, place)


def check_proof(text: bytes, proof: bytes, format: str = "drat") -> bool:
    """Whether the proof, of whatever solver, refutes the clauses of the DIMACS text. False: its lines are right, and refute nothing.

    Raises a VarisatError whose `place` is the step or the byte of the proof, or the line of the text, that is wrong.

    >>> check_proof(b"1 2 0 -1 2 0 1 -2 0 -1 -2 0", b"2 0 0")
    True
    >>> check_proof(b"1 2 0", b"")
    False
    >>> check_proof(b"1 2 0", b"0")
    Traceback (most recent call last):
    varisat.VarisatError: step or byte 1 of the proof is wrong
    """
    number, text, proof, place = format_number(format), bytes_of(text), bytes_of(proof), ctypes.c_uint64()
    answer = library.varisat_check_proof(number, text, len(text), proof, len(proof), ctypes.byref(place))
    if answer >= 0:
        return bool(answer == UNSATISFIABLE)
    places = {
        ErrorNumber.DIMACS: f"line {place.value} of the text is wrong",
        ErrorNumber.WRONG_PROOF: f"step or byte {place.value} of the proof is wrong",
    }
    raise error_of(answer, places.get(answer, ""), place.value)


def format_number(name: str) -> int:
    """The number of the format of proofs, or ValueError."""
    if name not in FORMATS:
        raise ValueError(f"there is no format {name}: there are {', '.join(FORMATS)}")
    return FORMATS[name]


def bytes_of(piece: Any) -> bytes:
    """The bytes of what has some, or TypeError."""
    return piece if isinstance(piece, bytes) else bytes(memoryview(piece))


def fit(kind: str, value: int) -> int:
    """The number, if C's type holds it, or OverflowError: ctypes would cut it."""
    return array(kind, [value])[0]


def variable_of(value: int) -> int:
    """The variable, or ValueError."""
    if (variable := fit("i", value)) < 1:
        raise ValueError(f"{variable} is no variable")
    return variable


def literal_of(value: int) -> int:
    """The literal, or ValueError."""
    if not (literal := fit("i", value)):
        raise ValueError("0 is no literal")
    return literal


def literals_of(numbers: Iterable[int]) -> array[int]:
    """The literals as C takes them."""
    literals = array("i")
    # By its iterator, as an array takes no other array of wider numbers.
    literals.extend(iter(numbers))
    if 0 in literals:
        raise ValueError("0 is no literal")
    return literals


def numbers_of(formula: Iterable[Iterable[int]]) -> Tuple[array[int], int]:
    """The literals of the clauses, each ended by a 0, and how many clauses there are."""
    if getattr(formula, "atmosts", None):
        raise NotImplementedError("varisat takes no cardinality constraints: give clauses that encode them")
    if all(hasattr(formula, name) for name in ("hard", "soft", "wght")):
        raise TypeError("a formula with weights is no list of clauses: give its attribute hard, or its unweighted()")
    numbers, count = array("i"), 0
    # A PySAT formula makes its clauses once it is iterated over.
    for clause in formula if hasattr(formula, "__iter__") else getattr(formula, "clauses", formula):
        numbers.extend(iter(clause))
        numbers.append(0)
        count += 1
    if numbers.count(0) != count:
        raise ValueError("0 is no literal")
    return numbers, count


def refuse_copy(self: Any) -> NoReturn:
    """Two owners of one solver of the library would both free it."""
    raise TypeError(f"a {type(self).__name__} can be neither copied nor pickled")
