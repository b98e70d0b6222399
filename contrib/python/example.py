"""Which pairs of guests can come? Prints each that can, and for one that cannot why."""
from itertools import combinations

from varisat import Solver

# Ann comes only with Ben, Ben and Cleo are not both there, and Cleo comes if Ann does not.
RULES = [[-1, 2], [-2, -3], [1, 3]]

with Solver(bootstrap_with=RULES) as solver:
    for a, b in combinations([1, 2, 3], 2):
        if solver.solve(assumptions=[a, b]):
            print(f"{a} and {b}: with", *solver.get_model())
        else:
            print(f"{a} and {b}: no, because of", *solver.get_core())
