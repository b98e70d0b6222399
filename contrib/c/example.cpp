// Which pairs of guests can come? Prints each that can, and for one that cannot why.
#include <iostream>
#include <varisat.hpp>

int main() {
    varisat_cpp::Solver solver;
    // Ann comes only with Ben, Ben and Cleo are not both there, and Cleo comes if Ann does not.
    solver.add_clause({-1, 2});
    solver.add_clause({-2, -3});
    solver.add_clause({1, 3});
    for (int a = 1; a <= 3; a++)
        for (int b = a + 1; b <= 3; b++) {
            solver.assume({a, b});
            bool can = solver.solve() == varisat_cpp::Verdict::satisfiable;
            std::cout << a << " and " << b << (can ? ": with" : ": no, because of");
            for (int literal : can ? solver.model() : solver.failed_core()) std::cout << ' ' << literal;
            std::cout << '\n';
        }
}
