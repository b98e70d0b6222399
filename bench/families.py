"""Formulas of kinds on which it matters how a search decides: the same arguments give the same bytes on each machine."""
import itertools

import formulas
import puzzles

# The 24 ways from a place of a square of nine to one beside it.
BESIDE = [
    (here, there) for here in range(9) for there in range(9) if abs(here // 3 - there // 3) + abs(here % 3 - there % 3) == 1
]
# What a quarter turn of three faces of a cube of eight corners does, one corner of which stays: the places that the corners go
# through in turn, and by how many thirds each of them twists as it comes to the next one.
TURNS = [((0, 1, 2, 3), (0, 0, 0, 0)), ((0, 4, 5, 1), (1, 2, 1, 2)), ((1, 5, 6, 2), (1, 2, 1, 2))]


def ordering(count):
    """Is there a total order of so many things without a least one? Unsatisfiable."""
    formula = formulas.Formula()
    names = {pair: formula.new_variable() for pair in itertools.combinations(range(count), 2)}

    def less(one, other):
        return names[one, other] if one < other else -names[other, one]

    for one, other, third in itertools.combinations(range(count), 3):
        formula.clauses.append([-less(one, other), -less(other, third), less(one, third)])
        formula.clauses.append([less(one, other), less(other, third), -less(one, third)])
    formula.clauses += [[less(other, thing) for other in range(count) if other != thing] for thing in range(count)]
    return formula


def queens(size):
    """Do so many queens have room on a board of that size, so that none attacks another?"""
    squares = list(itertools.product(range(size), repeat=2))
    name = {square: place for place, square in enumerate(squares, 1)}
    formula = formulas.Formula(len(squares))
    for line in range(size):
        formula.clauses += puzzles.just_one([name[line, other] for other in range(size)])
        formula.clauses += puzzles.just_one([name[other, line] for other in range(size)])
    for total in range(2 * size - 1):
        formula.clauses += formulas.not_both([name[square] for square in squares if sum(square) == total])
        formula.clauses += formulas.not_both([name[row, column] for row, column in squares if row - column == total - size + 1])
    return formula


def add_one(formula, digits):
    """Adds the digits of the number after this one, which is 0 after the largest. Digits are binary, the lowest first."""
    carry, after = digits[0], [-digits[0]]
    for digit in digits[1:]:
        after.append(formula.differ(digit, carry))
        if digit != digits[-1]:
            carry = formula.both(digit, carry)
    return after


def knights(rows, columns):
    """Is there a closed tour of a knight? Each move from a square to another one that is not the first makes its number one more."""
    formula = formulas.Formula()
    squares = list(itertools.product(range(rows), range(columns)))
    bits = (len(squares) - 1).bit_length()
    numbers = {square: [formula.new_variable() for _ in range(bits)] for square in squares}
    after = {square: add_one(formula, numbers[square]) for square in squares}
    formula.clauses += [[-digit] for digit in numbers[squares[0]]]
    moves = {}
    for one, other in itertools.permutations(squares, 2):
        if {abs(one[0] - other[0]), abs(one[1] - other[1])} == {1, 2}:
            move = moves[one, other] = formula.new_variable()
            if other != squares[0]:
                for here, there in zip(after[one], numbers[other]):
                    formula.clauses += [[-move, here, -there], [-move, -here, there]]
    for square in squares:
        formula.clauses += puzzles.just_one([move for (one, _), move in moves.items() if one == square])
        formula.clauses += puzzles.just_one([move for (_, other), move in moves.items() if other == square])
    return formula


def turned(places, thirds, face):
    """The corners of a cube, and the thirds by which they are twisted, after a quarter turn of the face."""
    circle, twists = TURNS[face]
    places, thirds, before = list(places), list(thirds), (places, thirds)
    for here, there, twist in zip(circle, [*circle[1:], circle[0]], twists):
        places[there] = before[0][here]
        thirds[there] = (before[1][here] + twist) % 3
    return places, thirds


def cube_turns():
    """For each face and each turn of it, by one, two or three quarters: the place that each corner comes to, and its twist there."""
    every = {}
    for face, quarters in itertools.product(range(len(TURNS)), (1, 2, 3)):
        places, thirds = list(range(7)), [0] * 7
        for _ in range(quarters):
            places, thirds = turned(places, thirds, face)
        every[face, quarters] = [(places.index(place), thirds[places.index(place)]) for place in range(7)]
    return every


def cube(turns, moves, seed):
    """Does a cube of eight corners, after so many random turns, come into order in so many moves?"""
    numbers, every, formula = formulas.Numbers(seed), cube_turns(), formulas.Formula()
    places, thirds = list(range(7)), [0] * 7
    for _ in range(turns):
        places, thirds = turned(places, thirds, numbers.below(len(TURNS)))
    # Whether the corner is at the place, and whether the corner that is at the place is twisted by so many thirds.
    at = [{pair: formula.new_variable() for pair in itertools.product(range(7), repeat=2)} for _ in range(moves + 1)]
    twisted = [{pair: formula.new_variable() for pair in itertools.product(range(7), range(3))} for _ in range(moves + 1)]
    made = [{turn: formula.new_variable() for turn in every} for _ in range(moves)]
    for before, twists in zip(at, twisted):
        for one in range(7):
            formula.clauses += puzzles.just_one([before[one, place] for place in range(7)])
            formula.clauses += puzzles.just_one([before[corner, one] for corner in range(7)])
            formula.clauses += puzzles.just_one([twists[one, third] for third in range(3)])
    for step, move in enumerate(made):
        formula.clauses += puzzles.just_one(list(move.values()))
        for (turn, name), place in itertools.product(move.items(), range(7)):
            there, twist = every[turn][place]
            pairs = [(at[step][corner, place], at[step + 1][corner, there]) for corner in range(7)]
            pairs += [(twisted[step][place, third], twisted[step + 1][there, (third + twist) % 3]) for third in range(3)]
            for here, after in pairs:
                formula.clauses += [[-name, -here, after], [-name, here, -after]]
    # Two turns of a face are one.
    for one, other in zip(made, made[1:]):
        formula.clauses += [[-one[turn], -other[next_turn]] for turn, next_turn in itertools.product(every, repeat=2) if turn[0] == next_turn[0]]
    for (begins, twists), (corners, third) in (((at[0], twisted[0]), (places, thirds)), ((at[-1], twisted[-1]), (range(7), [0] * 7))):
        formula.clauses += [[name if corners[place] == corner else -name] for (corner, place), name in begins.items()]
        formula.clauses += [[name if third[place] == count else -name] for (place, count), name in twists.items()]
    return formula


def choose(formula, condition, one, other):
    """A literal that is equal to the one if the condition is true, and else to the other."""
    return -formula.both(-formula.both(condition, one), -formula.both(-condition, other))


def is_odd(formula, literals):
    """A new variable that is true if an odd number of the literals is."""
    result = formula.new_variable()
    formula.clauses += formulas.odd([-result, *literals])
    return result


def add_sum(formula, one, other, carry):
    """Adds two numbers of equally many digits and a carry, and gives the digits of the sum, and what is carried out of them."""
    total = []
    for here, there in zip(one, other):
        total.append(is_odd(formula, [here, there, carry]))
        carry = formula.most(here, there, carry)
    return total, carry


def constant(value, bits, false):
    """The digits of a value, by the variable that is false."""
    return [-false if value >> place & 1 else false for place in range(bits)]


def divide_by_trying(formula, number, divisor, false):
    """The digits of the quotient and of the rest, by a divider that subtracts the divisor at each place at which it fits."""
    rest, quotient = [false] * (len(divisor) + 1), []
    taken = [-digit for digit in [*divisor, false]]
    for digit in reversed(number):
        rest = [digit, *rest[:-1]]
        less, fits = add_sum(formula, rest, taken, -false)
        rest = [choose(formula, fits, one, other) for one, other in zip(less, rest)]
        quotient.append(fits)
    return quotient[::-1], rest[:-1]


def divide_by_signs(formula, number, divisor, false):
    """The digits of the quotient and of the rest, by a divider that lets the rest become negative, and then adds the divisor at the next
    place."""
    wide = [*divisor, false, false]
    rest, quotient, negative = [false] * len(wide), [], false
    for digit in reversed(number):
        rest = [digit, *rest[:-1]]
        added = [formula.differ(each, -negative) for each in wide]
        rest, _ = add_sum(formula, rest, added, -negative)
        negative = rest[-1]
        quotient.append(-negative)
    rest, _ = add_sum(formula, rest, [formula.both(negative, each) for each in wide], false)
    return quotient[::-1], rest[: len(divisor)]


def dividers(bits, by):
    """Do two dividers of numbers of so many bits by numbers of fewer bits differ in quotient or rest? Unsatisfiable."""
    formula = formulas.Formula()
    false = formula.new_variable()
    number, divisor = ([formula.new_variable() for _ in range(count)] for count in (bits, by))
    formula.clauses += [[-false], list(divisor)]
    results = [divide(formula, number, divisor, false) for divide in (divide_by_trying, divide_by_signs)]
    formula.clauses.append([formula.differ(*pair) for pair in zip(*(quotient + rest for quotient, rest in results))])
    return formula


def golomb(marks, length):
    """Has a ruler of the length so many marks, of which no two pairs are equally far apart?"""
    formula = formulas.Formula()
    places = range(length + 1)
    at = [[formula.new_variable() for _ in places] for _ in range(marks)]
    # Whether the mark is at the place or before it. It is before the end.
    by = [[formula.new_variable() for _ in places[:-1]] for _ in range(marks)]
    for mark, names in enumerate(at):
        formula.clauses.append(list(names))
        formula.clauses += [[-one, other] for one, other in zip(by[mark], by[mark][1:])]
        for place, name in enumerate(names):
            here, before = by[mark][place : place + 1], by[mark][place - 1 : place] if place else []
            formula.clauses += [[-name, *here]] if here else []
            formula.clauses += [[-name, -before[0]]] if before else []
            formula.clauses.append([name, *(-each for each in here), *before])
    for one, other in zip(by, by[1:]):
        formula.clauses.append([-other[0]])
        formula.clauses += [[-there, here] for here, there in zip(one, other[1:])]
        formula.clauses.append([one[-1]])
    users = {distance: [] for distance in places[1:]}
    for one, other in itertools.combinations(range(marks), 2):
        apart = {distance: formula.new_variable() for distance in users}
        for here, there in itertools.combinations(places, 2):
            formula.clauses.append([-at[one][here], -at[other][there], apart[there - here]])
        for distance, name in apart.items():
            users[distance].append(name)
    for names in users.values():
        add_at_most_one(formula, names)
    return formula


def add_at_most_one(formula, names):
    """Adds that at most one of the variables is true, by new ones that say whether one was."""
    was = names[0]
    for name in names[1:]:
        formula.clauses.append([-was, -name])
        if name != names[-1]:
            new = formula.new_variable()
            formula.clauses += [[-was, new], [-name, new]]
            was = new


def permuted(one, other):
    """The permutation that comes of two, the second one first."""
    return tuple(one[place] for place in other)


def table_of(generators):
    """The table of the group of permutations that these generate, as the product's number for each pair of numbers."""
    every = [tuple(range(len(generators[0])))]
    for one in every:
        for generator in generators:
            new = permuted(generator, one)
            if new not in every:
                every.append(new)
    return [[every.index(permuted(one, other)) for other in every] for one in every]


def joined(table):
    """The cells of a table, each with those of its row, its column, or its entry."""
    cells = list(itertools.product(range(len(table)), repeat=2))

    def touch(one, other):
        return one[0] == other[0] or one[1] == other[1] or table[one[0]][one[1]] == table[other[0]][other[1]]

    return [[place for place, other in enumerate(cells) if other != one and touch(one, other)] for one in cells]


def not_isotopic():
    """Is there a map of the cells of the cyclic group's table of six to those of the table of the permutations of three, by which cells of
    a row, of a column or with the same entry stay such? Unsatisfiable."""
    one, other = (joined(table_of(generators)) for generators in ([(1, 2, 3, 4, 5, 0)], [(1, 2, 0), (1, 0, 2)]))
    every = [formulas.choices(cell, len(other)) for cell in range(len(one))]
    formula = formulas.Formula(len(one) * len(other))
    for names in (*every, *zip(*every)):
        formula.clauses += puzzles.just_one(names)
    for cell, beside in enumerate(one):
        for near, there in itertools.product(beside, range(len(other))):
            formula.clauses.append([-every[cell][there], *(every[near][place] for place in other[there])])
    return formula


def is_equal(formula, one, other):
    """A literal that is true if the numbers are equal."""
    equal = None
    for here, there in zip(one, other):
        same = -formula.differ(here, there)
        equal = same if equal is None else formula.both(equal, same)
    return equal


def any_of(formula, literals):
    """A literal that is true if one of these is."""
    found = literals[0]
    for literal in literals[1:]:
        found = -formula.both(-found, -literal)
    return found


def ask_listed(formula, lines, word):
    """Asks a cache that keeps its words in the order of their use, and gives whether it has the word, and its words after that."""
    found, after, moving = [is_equal(formula, line, word) for line in lines], [list(word)], None
    for place, line in enumerate(lines[:-1]):
        # A word goes one place on unless the word that is asked for was before it.
        moving = found[place] if moving is None else any_of(formula, [moving, found[place]])
        after.append([choose(formula, moving, stays, comes) for stays, comes in zip(lines[place + 1], line)])
    return any_of(formula, found), after


def ask_matrix(formula, lines, later, word):
    """Asks a cache that knows, for each two of its lines, which was used later. Gives whether it has the word, and its lines and that
    knowledge after the request."""
    found = [is_equal(formula, line, word) for line in lines]
    has = any_of(formula, found)
    count = range(len(lines))
    oldest = [-any_of(formula, [later[one, other] if one < other else -later[other, one] for other in count if other != one]) for one in count]
    used = [choose(formula, has, here, there) for here, there in zip(found, oldest)]
    lines = [[choose(formula, use, new, old) for new, old in zip(word, line)] for use, line in zip(used, lines)]
    later = {(one, other): any_of(formula, [used[one], formula.both(later[one, other], -used[other])]) for one, other in later}
    return has, lines, later


def least_used(count, steps, bits):
    """Do two caches of so many words of so many bits ever differ in whether they have a word? Both throw out the word that was used least
    recently. Unsatisfiable."""
    formula = formulas.Formula()
    false = formula.new_variable()
    formula.clauses.append([-false])
    listed = [constant(place, bits, false) for place in range(count)]
    lines = [list(line) for line in listed]
    later = {pair: -false for pair in itertools.combinations(range(count), 2)}
    differing = []
    for _ in range(steps):
        word = [formula.new_variable() for _ in range(bits)]
        one, listed = ask_listed(formula, listed, word)
        other, lines, later = ask_matrix(formula, lines, later, word)
        differing.append(formula.differ(one, other))
    formula.clauses.append(differing)
    return formula


def reduced(formula, number, modulus, false):
    """The number, which is less than twice the modulus, or the number less the modulus if it is not below that; without its last digit."""
    less, fits = add_sum(formula, number, constant(~modulus, len(number), false), -false)
    return [choose(formula, fits, one, other) for one, other in zip(less, number)][:-1]


def add_modular(formula, one, other, modulus, false):
    """The product of two numbers below the modulus, digit by digit from the highest."""
    total = [false] * len(one)
    for digit in reversed(other):
        total = reduced(formula, [false, *total], modulus, false)
        more, carry = add_sum(formula, total, [formula.both(digit, each) for each in one], false)
        total = reduced(formula, [*more, carry], modulus, false)
    return total


def modular(bits, modulus):
    """Is there a pair of numbers whose product by the modulus depends on their order? Unsatisfiable."""
    formula = formulas.Formula()
    false = formula.new_variable()
    formula.clauses.append([-false])
    one, other = formulas.two_numbers(formula, bits)
    for number in one, other:
        _, fits = add_sum(formula, number, constant(~modulus, bits, false), -false)
        formula.clauses.append([-fits])
    products = zip(add_modular(formula, one, other, modulus, false), add_modular(formula, other, one, modulus, false))
    formula.clauses.append([formula.differ(here, there) for here, there in products])
    return formula


def read(formula, registers, address):
    """The register of the address, chosen digit by digit."""
    for digit in address:
        registers = [[choose(formula, digit, one, other) for one, other in zip(high, low)] for low, high in zip(registers[::2], registers[1::2])]
    return registers[0]


def decoded(formula, address, writes):
    """For each address whether this one is it, and something is written."""
    chosen = [writes]
    for digit in reversed(address):
        chosen = [formula.both(each, sign * digit) for each in chosen for sign in (-1, 1)]
    return chosen


def register_file(address_bits, bits, steps):
    """Does a register file of which a register is read and another one written at each step ever differ from a list of what was written,
    whose last word of the address counts? Unsatisfiable."""
    formula = formulas.Formula()
    false = formula.new_variable()
    formula.clauses.append([-false])
    registers, written, differing = [[false] * bits for _ in range(1 << address_bits)], [], []
    for _ in range(steps):
        address, target = formulas.two_numbers(formula, address_bits)
        word, writes = [formula.new_variable() for _ in range(bits)], formula.new_variable()
        last = [false] * bits
        for other, old, was_written in written:
            hit = formula.both(was_written, is_equal(formula, address, other))
            last = [choose(formula, hit, one, before) for one, before in zip(old, last)]
        differing += [formula.differ(one, other) for one, other in zip(read(formula, registers, address), last)]
        chosen = decoded(formula, target, writes)
        registers = [[choose(formula, here, new, old) for new, old in zip(word, register)] for here, register in zip(chosen, registers)]
        written.append((target, word, writes))
    formula.clauses.append(differing)
    return formula


def eight(tiles, moves):
    """Do eight tiles in nine places come into order in exactly so many moves? 0 is the gap, and no move takes the last one back."""
    formula = formulas.Formula()
    at = [{pair: formula.new_variable() for pair in itertools.product(range(9), repeat=2)} for _ in range(moves + 1)]
    for state in at:
        for one in range(9):
            formula.clauses += puzzles.just_one([state[one, tile] for tile in range(9)])
            formula.clauses += puzzles.just_one([state[place, one] for place in range(9)])
    for before, after in zip(at, at[1:]):
        for one, other in (before, after), (after, before):
            formula.clauses += [[-one[place, 0], *(other[there, 0] for here, there in BESIDE if here == place)] for place in range(9)]
            # A tile stays unless the gap comes to its place.
            formula.clauses += [[-one[place, tile], other[place, tile], other[place, 0]] for place in range(9) for tile in range(1, 9)]
        formula.clauses += [[-before[here, 0], -after[there, 0], -before[there, tile], after[here, tile]] for here, there in BESIDE for tile in range(1, 9)]
    formula.clauses += [[-before[place, 0], -after[place, 0]] for before, after in zip(at, at[2:]) for place in range(9)]
    for state, order in (at[0], tiles), (at[-1], range(9)):
        formula.clauses += [[name if order[place] == tile else -name] for (place, tile), name in state.items()]
    return formula


FORMULAS = {
    "ordering-60-unsat": lambda: ordering(60),
    "caches-4-10-unsat": lambda: least_used(4, 10, 4),
    "queens-80-sat": lambda: queens(80),
    "knights-10-sat": lambda: knights(10, 10),
    "knights-8-14-sat": lambda: knights(8, 14),
    "cube-9-unsat": lambda: cube(20, 9, 11),
    "dividers-12-6-unsat": lambda: dividers(12, 6),
    "registers-12-unsat": lambda: register_file(5, 4, 12),
    "isotopic-6-unsat": not_isotopic,
    "eight-29-unsat": lambda: eight((8, 0, 6, 5, 4, 7, 2, 3, 1), 29),
    "ruler-8-33-unsat": lambda: golomb(8, 33),
    "modular-7-unsat": lambda: modular(7, 113),
}
