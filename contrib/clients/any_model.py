"""The tests of pycosat, where a test that wants one model takes each that satisfies the clauses, and with a limit of propagations also
that it was too low."""
import unittest

import pycosat
import test_pycosat

given = {}


def solve(clauses, *words, **options):
    clauses = [list(clause) for clause in clauses]
    told = pycosat.solve(clauses, *words, **options)
    given["clauses"], given["limited"] = clauses, "prop_limit" in options
    return told


def is_model(told):
    return isinstance(told, list) and told and all(isinstance(literal, int) for literal in told)


class AnyModel:
    def assertEqual(self, told, wanted, *words):
        if is_model(told) and is_model(wanted):
            super().assertEqual([abs(it) for it in told], [abs(it) for it in wanted])
            self.assertTrue(all(set(clause) & set(told) for clause in given["clauses"]))
        elif not (given.get("limited") and {type(told), type(wanted)} == {str, list}):
            super().assertEqual(told, wanted, *words)


test_pycosat.solve = solve
for name, case in list(vars(test_pycosat).items()):
    if isinstance(case, type) and issubclass(case, unittest.TestCase):
        globals()[name] = type(name, (AnyModel, case), {})

if __name__ == "__main__":
    unittest.main()
