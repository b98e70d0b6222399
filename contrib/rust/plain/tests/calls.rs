//! The tests of the crate beside this package, and those of what this package has of its own.
#[path = "../../tests/calls.rs"]
mod original;

use std::io::{self, Read};

use varisat::config::{SolverConfig, SolverConfigUpdate};
use varisat::{CnfFormula, ExtendFormula, Lit, Solver, Var};

fn lits(numbers: &[isize]) -> Vec<Lit> {
    numbers.iter().map(|&number| Lit::from_dimacs(number)).collect()
}

#[test]
fn literals() {
    for number in [1, -1, 7, -(1 << 28), 1 << 28] {
        let lit = Lit::from_dimacs(number);
        assert_eq!((lit.to_dimacs(), (!lit).to_dimacs(), lit.var().to_dimacs()), (number, -number, number.abs()));
        assert_eq!((lit.is_negative(), lit.is_positive(), lit.index()), (number < 0, number > 0, number.unsigned_abs() - 1));
        assert_eq!((lit ^ false, lit ^ true, Lit::from_code(lit.code())), (lit, !lit, lit));
        assert_eq!((lit.var().lit(number > 0), Lit::from_index(lit.index(), number > 0)), (lit, lit));
        assert_eq!((format!("{lit}"), format!("{lit:?} {:?}", lit.var())), (number.to_string(), format!("{number} {}", number.abs())));
    }
    let x = Var::from_index(4);
    assert_eq!((x.to_dimacs(), x.positive(), x.negative(), Lit::from(x)), (5, !x.negative(), Lit::from_dimacs(-5), Lit::positive(x)));
    assert_eq!(Var::max_count(), 1 << 28);
    for number in [0, isize::MIN, isize::MAX, (1 << 28) + 1, -(1 << 28) - 1] {
        assert!(std::panic::catch_unwind(|| Lit::from_dimacs(number)).is_err(), "{number}");
    }
    for number in [0, -1, (1 << 28) + 1] {
        assert!(std::panic::catch_unwind(|| Var::from_dimacs(number)).is_err(), "{number}");
    }
}

#[test]
fn formulas() {
    let mut formula = CnfFormula::new();
    assert!(formula.is_empty() && formula.iter().next().is_none());
    formula.add_clause(&lits(&[1, -3]));
    formula.add_clause(&[]);
    assert_eq!((formula.new_var().to_dimacs(), formula.new_lit(), formula.var_count()), (4, Lit::from_dimacs(5), 5));
    formula.set_var_count(2);
    assert_eq!((formula.var_count(), formula.len()), (5, 2));
    assert_eq!(formula.iter().collect::<Vec<_>>(), [&lits(&[1, -3])[..], &[]]);
    let again = CnfFormula::from([lits(&[1, -3]), vec![]]);
    assert_eq!((again.var_count(), again.iter().count(), again == formula), (3, 2, false));
    let (x, y): (Var, Var) = formula.new_vars();
    let more: Vec<Lit> = formula.new_lit_iter(2).chain(formula.new_var_iter(1).map(Var::positive)).collect();
    assert_eq!((x.to_dimacs(), y.to_dimacs(), more), (6, 7, lits(&[8, 9, 10])));
    let mut solver = Solver::new();
    let (x, y, z) = solver.new_lits();
    solver.add_formula(&CnfFormula::from([[x, y], [!x, z]]));
    assert!(solver.solve().unwrap() && solver.model().unwrap().len() == 3);
}

/// What fails once its bytes are read.
struct Torn<'a>(&'a [u8]);

impl Read for Torn<'_> {
    fn read(&mut self, to: &mut [u8]) -> io::Result<usize> {
        match self.0.read(to)? {
            0 => Err(io::Error::new(io::ErrorKind::Other, "torn")),
            size => Ok(size),
        }
    }
}

#[test]
fn texts() {
    let mut solver = Solver::new();
    assert_eq!(solver.add_dimacs_cnf(Torn(b"-2 0 1 ")).unwrap_err().to_string(), "torn");
    assert!(solver.add_dimacs_cnf(&b"1 2 0 3 x"[..]).unwrap_err().to_string().contains("line 1"));
    assert!(solver.add_dimacs_cnf(&b"1 2 0 3"[..]).unwrap_err().to_string().contains("line 1"));
    solver.add_dimacs_cnf(&b"p cnf 4 1\n3 0\n"[..]).unwrap();
    assert!(solver.solve().unwrap());
    assert_eq!(solver.model().unwrap()[..3], lits(&[1, -2, 3]));
    // Longer than a piece.
    let text: String = (1..5000).map(|number| format!("-{number} {} 0\n", number + 1)).collect();
    let mut solver = Solver::new();
    solver.add_dimacs_cnf(text.as_bytes()).unwrap();
    solver.assume(&lits(&[1, -5000]));
    assert!(!solver.solve().unwrap());
}

#[test]
fn settings() {
    let (mut update, mut config) = (SolverConfigUpdate::new(), SolverConfig::default());
    assert!(update.is_empty());
    update.merge(SolverConfigUpdate { vsids_decay: Some(0.9), reduce_mids_interval: Some(7), ..Default::default() });
    update.merge(SolverConfigUpdate { vsids_decay: Some(0.8), ..Default::default() });
    update.apply(&mut config).unwrap();
    assert_eq!((config.vsids_decay, config.reduce_mids_interval, config.reduce_locals_interval), (0.8, 7, 15000));
    for wrong in [
        SolverConfigUpdate { vsids_decay: Some(0.4), ..Default::default() },
        SolverConfigUpdate { clause_activity_decay: Some(1.0), ..Default::default() },
        SolverConfigUpdate { clause_activity_decay: Some(f32::NAN), ..Default::default() },
        SolverConfigUpdate { luby_restart_interval_scale: Some(0), ..Default::default() },
    ] {
        let before = config.clone();
        assert!(wrong.apply(&mut config).unwrap_err().to_string().contains("range"));
        assert!(config == before && Solver::new().config(&wrong).is_err());
    }
}
