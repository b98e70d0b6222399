//! Which pairs of guests can come? Prints each that can, and for one that cannot why.
use varisat::{ExtendFormula, Lit, Solver};

fn main() {
    // Ann comes only with Ben, Ben and Cleo are not both there, and Cleo comes if Ann does not.
    let mut solver = Solver::new();
    for rule in [[-1, 2], [-2, -3], [1, 3]] {
        solver.add_clause(&rule.map(Lit::from_dimacs));
    }
    for (a, b) in [(1, 2), (1, 3), (2, 3)] {
        solver.assume(&[a, b].map(Lit::from_dimacs));
        let (said, list) = if solver.solve().unwrap() {
            ("with", solver.model().unwrap())
        } else {
            ("no, because of", solver.failed_core().unwrap().to_vec())
        };
        let numbers: Vec<String> = list.iter().map(|l| l.to_dimacs().to_string()).collect();
        println!("{a} and {b}: {said} {}", numbers.join(" "));
    }
}
