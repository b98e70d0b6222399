"""Formulas, as texts in the formats DIMACS CNF and WCNF and as lists, with the names of PySAT's classes."""
from __future__ import annotations

import bz2
import gzip
import io
import lzma
import operator
import re
from typing import Any, Callable, Dict, Iterable, Iterator, List, Optional, Sequence, TextIO, Tuple, cast

__all__ = ["CNF", "WCNF"]

# Each opens a file by its name, a mode and the words of a text.
_COMPRESSIONS: Dict[Optional[str], Callable[..., Any]] = {"gzip": gzip.open, "bzip2": bz2.open, "lzma": lzma.open, None: open}
_ENDS = {".gz": "gzip", ".bz2": "bzip2", ".xz": "lzma", ".lzma": "lzma"}


def _open(name: str, mode: str, compression: Optional[str]) -> TextIO:
    """Opens a text, compressed by its name's end for "use_ext", and otherwise by gzip, bzip2, lzma or None."""
    if compression == "use_ext":
        compression = next((it for end, it in _ENDS.items() if name.endswith(end)), None)
    elif compression not in _COMPRESSIONS:
        raise ValueError(f"there is no compression {compression}: there are use_ext, gzip, bzip2, lzma and None")
    # Comments may be in any encoding.
    file = _COMPRESSIONS[compression](name, mode + "t", encoding="utf-8", errors="surrogateescape", newline=None if mode == "r" else "\n")
    return cast(TextIO, file)


def _clause(literals: Iterable[int]) -> List[int]:
    clause = [operator.index(literal) for literal in literals]
    if 0 in clause:
        raise ValueError("0 is no literal")
    return clause


def _weight(weight: int) -> int:
    if (weight := operator.index(weight)) < 1:
        raise ValueError(f"{weight} is no weight: weights are numbers from 1 on")
    return weight


# As the solver reads numbers: int takes words such as 1_000 as well.
_NUMBER = re.compile("0|-?[1-9][0-9]*")


def _numbers(words: Iterable[str]) -> List[int]:
    for word in words:
        if not _NUMBER.fullmatch(word):
            raise ValueError(f"{word!r} is no number")
    return [int(word) for word in words]


class _Text:
    """What the two formats share: a text of lines, of which some are comments."""
    nv: int
    comments: List[str]
    # Whether blanks may come before a comment or a header.
    _indented = False

    def _clear(self) -> None:
        self.nv, self.comments = 0, []

    def _read_header(self, words: List[str]) -> None:
        raise NotImplementedError

    def _read_line(self, words: List[str]) -> None:
        raise NotImplementedError

    def _end(self) -> None:
        """Ends a text, or raises ValueError."""

    def _lines(self) -> Iterator[str]:
        raise NotImplementedError

    def _start(self, from_file: Optional[str], from_fp: Optional[TextIO], from_string: Optional[str], comment_lead: Sequence[str]) -> None:
        self._clear()
        if from_file:
            self.from_file(from_file, comment_lead)
        elif from_fp:
            self.from_fp(from_fp, comment_lead)
        elif from_string:
            self.from_string(from_string, comment_lead)

    def from_fp(self, file_pointer: TextIO, comment_lead: Sequence[str] = ("c",)) -> None:
        """Replaces the formula by that of a file that is open as text. A ValueError names the line that is wrong, and leaves no clause."""
        self._clear()
        number = 0
        try:
            for number, line in enumerate(file_pointer, 1):
                begin = line.lstrip() if self._indented else line
                if begin and begin[0] in comment_lead:
                    self.comments.append(line.strip())
                elif begin.startswith("p"):
                    self._read_header(line.split())
                elif words := line.split():
                    self._read_line(words)
            self._end()
        except ValueError as error:
            self._clear()
            raise ValueError(f"line {number}: {error}") from None

    def from_file(self, fname: str, comment_lead: Sequence[str] = ("c",), compressed_with: Optional[str] = "use_ext") -> None:
        """Replaces the formula by that of a file, which may be compressed: .gz, .bz2, .xz or .lzma."""
        with _open(fname, "r", compressed_with) as file:
            self.from_fp(file, comment_lead)

    def from_string(self, string: str, comment_lead: Sequence[str] = ("c",)) -> None:
        """Replaces the formula by that of a text."""
        self.from_fp(io.StringIO(string), comment_lead)

    def to_fp(self, file_pointer: TextIO, comments: Optional[Iterable[str]] = None) -> None:
        """Writes the formula to a file that is open as text, after these comments and its own."""
        for line in [*(comments or ()), *self.comments]:
            print(line, file=file_pointer)
        for line in self._lines():
            print(line, file=file_pointer)

    def to_file(self, fname: str, comments: Optional[Iterable[str]] = None, compress_with: Optional[str] = "use_ext") -> None:
        """Writes the formula to a file, compressed if its name ends with .gz, .bz2, .xz or .lzma."""
        with _open(fname, "w", compress_with) as file:
            self.to_fp(file, comments)

    def to_dimacs(self) -> str:
        """The formula as a text."""
        return "".join(line + "\n" for line in [*self.comments, *self._lines()])

    def _count(self, clause: List[int]) -> List[int]:
        self.nv = max(self.nv, *clause, *(-literal for literal in clause), 0)
        return clause

    def __repr__(self) -> str:
        return f"{type(self).__name__}(from_string={self.to_dimacs()!r})"


def _header(words: List[str], kind: str, begun: bool, most: int) -> List[int]:
    """The numbers of a header, which comes once, before the clauses."""
    if begun or words[:2] != ["p", kind] or not 4 <= len(words) <= most or any(word.startswith("-") for word in words):
        raise ValueError(f"a header 'p {kind} VARIABLES CLAUSES{' TOP' if most > 4 else ''}' comes once, before the clauses")
    return _numbers(words[2:])


class CNF(_Text):
    """A list of clauses, `clauses`, with the highest variable, `nv`, and the comments of its text, `comments`.

    >>> formula = CNF(from_string="p cnf 3 2\\n-1 2 0\\n3 0\\n")
    >>> formula.nv, formula.clauses, len(formula)
    (3, [[-1, 2], [3]], 2)
    >>> formula.append([-3, 4])
    >>> print(formula.to_dimacs(), end="")
    p cnf 4 3
    -1 2 0
    3 0
    -3 4 0
    >>> from varisat import Solver
    >>> with Solver(bootstrap_with=formula) as solver:
    ...     solver.solve(assumptions=[1]), solver.get_model()
    (True, [1, 2, 3, 4])
    """

    def __init__(self, from_file: Optional[str] = None, from_fp: Optional[TextIO] = None, from_string: Optional[str] = None,
                 from_clauses: Iterable[Iterable[int]] = (), comment_lead: Sequence[str] = ("c",)):
        self._start(from_file, from_fp, from_string, comment_lead)
        self.extend(from_clauses)

    def _clear(self) -> None:
        super()._clear()
        self.clauses: List[List[int]] = []
        self._header: Optional[List[int]] = None
        # The clause of a text that no 0 ended yet.
        self._open: List[int] = []

    def _read_header(self, words: List[str]) -> None:
        self._header = _header(words, "cnf", bool(self._header or self.clauses or self._open), 4)

    def _read_line(self, words: List[str]) -> None:
        for number in _numbers(words):
            if self._header and abs(number) > self._header[0]:
                raise ValueError(f"the header names {self._header[0]} variables, and {number} is another one")
            if number:
                self._open.append(number)
            else:
                self.append(self._open)
                self._open = []

    def _end(self) -> None:
        if self._open:
            raise ValueError("no 0 ends the last clause")
        variables, clauses = self._header or (0, len(self.clauses))
        if clauses != len(self.clauses):
            raise ValueError(f"the header names {clauses} clauses, and there are {len(self.clauses)}")
        self.nv, self._header = max(self.nv, variables), None

    def _lines(self) -> Iterator[str]:
        yield f"p cnf {self.nv} {len(self.clauses)}"
        for clause in self.clauses:
            yield " ".join(map(str, [*clause, 0]))

    def from_clauses(self, clauses: Iterable[Iterable[int]]) -> None:
        """Replaces the formula by these clauses."""
        self._clear()
        self.extend(clauses)

    def append(self, clause: Iterable[int]) -> None:
        """Adds a clause at the end."""
        self.clauses.append(self._count(_clause(clause)))

    def extend(self, clauses: Iterable[Iterable[int]]) -> None:
        """Adds clauses at the end."""
        for clause in clauses:
            self.append(clause)

    def copy(self) -> CNF:
        """The same clauses, in lists of their own."""
        formula = CNF(from_clauses=self.clauses)
        formula.nv, formula.comments = self.nv, self.comments[:]
        return formula

    def weighted(self) -> WCNF:
        """The formula whose clauses are all soft, with the weight 1.

        >>> CNF(from_clauses=[[1], [-1]]).weighted().wght
        [1, 1]
        """
        formula = WCNF()
        formula.extend(self.clauses, [1] * len(self.clauses))
        formula.nv, formula.comments = self.nv, self.comments[:]
        return formula

    def __iter__(self) -> Iterator[List[int]]:
        return iter(self.clauses)

    def __len__(self) -> int:
        return len(self.clauses)


class WCNF(_Text):
    """Hard clauses, `hard`, and soft clauses, `soft`, of which each has a weight in `wght`: numbers from 1 on. `nv` is the highest variable,
    and `topw` is above the sum of the weights. The program maxsat reads what it writes.

    >>> formula = WCNF()
    >>> formula.append([1, 2])
    >>> formula.append([-1], weight=3)
    >>> formula.extend([[-2], [-1, -2]], weights=[5, 1])
    >>> print(formula.to_dimacs(), end="")
    p wcnf 2 4 10
    10 1 2 0
    3 -1 0
    5 -2 0
    1 -1 -2 0
    >>> formula.from_string("h 1 2 0\\n7 -3 0\\n")
    >>> formula.hard, formula.soft, formula.wght, formula.nv
    ([[1, 2]], [[-3]], [7], 3)
    """

    _indented = True

    def __init__(self, from_file: Optional[str] = None, from_fp: Optional[TextIO] = None, from_string: Optional[str] = None,
                 comment_lead: Sequence[str] = ("c",)):
        self._start(from_file, from_fp, from_string, comment_lead)

    def _clear(self) -> None:
        super()._clear()
        self.hard: List[List[int]] = []
        self.soft: List[List[int]] = []
        self.wght: List[int] = []
        self.topw = 1
        # Of a text in the old format: the weight from which on a clause is hard.
        self._header: Optional[Tuple[int, Optional[int]]] = None

    def _read_header(self, words: List[str]) -> None:
        numbers = _header(words, "wcnf", bool(self._header or self.hard or self.soft), 5)
        self._header = numbers[0], numbers[2] if len(numbers) > 2 else None

    def _read_line(self, words: List[str]) -> None:
        *clause, end = _numbers(words[1:]) or [1]
        if end:
            raise ValueError("a clause ends with 0, and so does its line")
        if words[0] == "h":
            self.append(clause)
            return
        weight, = _numbers(words[:1])
        top = self._header[1] if self._header else None
        self.append(clause, None if top is not None and weight >= top else weight)

    def _end(self) -> None:
        if self._header:
            self.nv = max(self.nv, self._header[0])
        self._header = None

    def _lines(self) -> Iterator[str]:
        yield f"p wcnf {self.nv} {len(self.hard) + len(self.soft)} {self.topw}"
        for weight, clause in [*((self.topw, clause) for clause in self.hard), *zip(self.wght, self.soft)]:
            yield " ".join(map(str, [weight, *clause, 0]))

    def append(self, clause: Iterable[int], weight: Optional[int] = None) -> None:
        """Adds a soft clause of this weight, or a hard one if there is none."""
        taken = _clause(clause)
        if weight is None:
            self.hard.append(self._count(taken))
            return
        self.wght.append(_weight(weight))
        self.soft.append(self._count(taken))
        self.topw += self.wght[-1]

    def extend(self, clauses: Iterable[Iterable[int]], weights: Optional[Iterable[int]] = None) -> None:
        """Adds soft clauses of these weights, or hard ones if there are none."""
        if weights is None:
            for clause in clauses:
                self.append(clause)
            return
        clauses, weights = list(clauses), list(weights)
        if len(clauses) != len(weights):
            raise ValueError(f"there are {len(clauses)} clauses and {len(weights)} weights")
        for clause, weight in zip(clauses, weights):
            self.append(clause, weight)

    def copy(self) -> WCNF:
        """The same clauses, in lists of their own."""
        formula = WCNF()
        formula.extend(self.hard)
        formula.extend(self.soft, self.wght)
        formula.nv, formula.comments = self.nv, self.comments[:]
        return formula

    def unweighted(self) -> CNF:
        """All clauses, the hard ones first, without weights.

        >>> WCNF(from_string="h 1 2 0\\n7 -3 0\\n").unweighted().clauses
        [[1, 2], [-3]]
        """
        formula = CNF(from_clauses=self.hard + self.soft)
        formula.nv, formula.comments = self.nv, self.comments[:]
        return formula
