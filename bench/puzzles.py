"""Formulas of puzzles, which take a search long: the same arguments give the same bytes on each machine."""
import itertools

import formulas


def just_one(variables):
    """The clauses that just one of the variables is true."""
    return [list(variables), *formulas.not_both(variables)]


def dominoes(size):
    """Do dominoes cover a square board without two opposite corners? Unsatisfiable."""
    squares = set(itertools.product(range(size), repeat=2)) - {(0, 0), (size - 1, size - 1)}
    formula, covering = formulas.Formula(), {square: [] for square in sorted(squares)}
    for row, column in sorted(squares):
        for other in (row, column + 1), (row + 1, column):
            if other in squares:
                name = formula.new_variable()
                covering[row, column].append(name)
                covering[other].append(name)
    for names in covering.values():
        formula.clauses += just_one(names)
    return formula


def many_kinds(largest, lengths):
    """Are the numbers from 1 on of kinds, with no progression of the kind's length in any of them?"""
    every = [formulas.choices(number, len(lengths)) for number in range(largest)]
    formula = formulas.Formula(largest * len(lengths), every)
    for kind, length in enumerate(lengths):
        formula.clauses += [[-every[number - 1][kind] for number in numbers] for numbers in formulas.progressions(largest, length)]
    return formula


def neighbours(size, row, column):
    """The squares of a board around this one."""
    around = itertools.product(range(row - 1, row + 2), range(column - 1, column + 2))
    return [cell for cell in around if cell != (row, column) and 0 <= min(cell) and max(cell) < size]


def add_life(formula, board, size):
    """Adds a step of the game of life, where all is dead outside of the board, and gives the board after it."""
    after = {}
    for cell in board:
        around = [board[other] for other in neighbours(size, *cell)]
        ones, twos, *more = formulas.add_count(formula, around, formulas.first)
        alive = formula.new_variable()
        # It lives with three neighbours, or with two if it lived: their count has a two, no more, and the one or itself.
        formula.clauses += [[-alive, twos], [-alive, ones, board[cell]], *([-alive, -digit] for digit in more)]
        formula.clauses += [[alive, -twos, -one, *more] for one in (ones, board[cell])]
        after[cell] = alive
    return after


def lives(board, cell, size):
    """Whether the square lives after a step."""
    count = sum(board[other] for other in neighbours(size, *cell))
    return count == 3 or count == 2 and board[cell]


def life(size, steps, tenths, seed):
    """Which board is so many steps of the game of life before the one that a board comes to of which so many tenths live?"""
    numbers, formula = formulas.Numbers(seed), formulas.Formula()
    cells = list(itertools.product(range(size), repeat=2))
    board, names = {cell: numbers.below(10) < tenths for cell in cells}, {cell: formula.new_variable() for cell in cells}
    for _ in range(steps):
        board = {cell: lives(board, cell, size) for cell in cells}
        names = add_life(formula, names, size)
    formula.clauses += [[names[cell] if board[cell] else -names[cell]] for cell in cells]
    return formula
