//! Each call over the proved library, and what it refuses.
use std::io::{self, Write};

use varisat::config::SolverConfigUpdate;
use varisat::solver::SolverError;
use varisat::{CnfFormula, ExtendFormula, Lit, ProofFormat, Solver, Var};

fn lits(numbers: &[isize]) -> Vec<Lit> {
    numbers.iter().map(|&number| Lit::from_dimacs(number)).collect()
}

fn formula(clauses: &[&[isize]]) -> CnfFormula {
    CnfFormula::from(clauses.iter().map(|clause| lits(clause)))
}

/// Four clauses over two variables, which no assignment satisfies.
fn square() -> CnfFormula {
    formula(&[&[1, 2], &[-1, 2], &[1, -2], &[-1, -2]])
}

#[test]
fn models_and_cores() {
    let mut solver = Solver::new();
    assert!(solver.model().is_none() && solver.failed_core().is_none());
    solver.add_formula(&formula(&[&[-1, 2], &[-2, -3], &[1, 3]]));
    solver.assume(&lits(&[1, 2]));
    assert!(solver.solve().unwrap());
    assert_eq!(solver.model(), Some(lits(&[1, 2, -3])));
    solver.assume(&lits(&[1, 3]));
    assert!(!solver.solve().unwrap());
    assert_eq!(solver.failed_core(), Some(&lits(&[3, 1])[..]));
    solver.assume(&[]);
    assert!(solver.solve().unwrap() && solver.failed_core().is_none());
    let z = solver.new_var();
    assert_eq!((z, solver.model().unwrap().len()), (Var::from_dimacs(4), 4));
    solver.add_clause(&[]);
    assert!(!solver.solve().unwrap() && solver.failed_core() == Some(&[]));
}

#[test]
fn hidden_variables() {
    let mut solver = Solver::new();
    solver.add_clause(&lits(&[1, 2]));
    solver.hide_var(Var::from_dimacs(2));
    solver.add_clause(&lits(&[-2]));
    assert!(solver.solve().unwrap());
    assert_eq!(solver.observe_internal_vars(), [Var::from_dimacs(3)]);
    solver.sample_var(Var::from_dimacs(3));
    solver.add_clause(&lits(&[-3]));
    assert!(solver.solve().unwrap() && solver.model().unwrap()[0] == Lit::from_dimacs(1));
}

#[test]
fn fixed_literals_and_phases() {
    let mut solver = Solver::new();
    solver.add_formula(&formula(&[&[-1, 2], &[3, 4, 5], &[-3, -4, -5]]));
    assert!(!solver.is_fixed(Lit::from_dimacs(1)));
    solver.add_clause(&lits(&[1]));
    for phases in [[3, 4, -5], [-3, -4, 5]] {
        for phase in lits(&phases) {
            solver.set_phase(phase);
        }
        solver.assume(&[!Lit::from_dimacs(phases[0])]);
        assert!(solver.solve().unwrap());
        solver.assume(&[]);
        assert!(solver.solve().unwrap());
        assert_eq!(solver.model().unwrap()[2..], lits(&phases));
    }
    assert!(solver.is_fixed(Lit::from_dimacs(2)) && !solver.is_fixed(Lit::from_dimacs(-2)) && !solver.is_fixed(Lit::from_dimacs(5)));
    for variable in 3..6 {
        solver.unset_phase(Var::from_dimacs(variable));
    }
    solver.assume(&lits(&[3, -4, 5]));
    assert!(solver.solve().unwrap());
    solver.assume(&[]);
    assert!(solver.solve().unwrap() && solver.model().unwrap()[2..] == lits(&[3, -4, 5]));
}

#[test]
fn texts_and_settings() {
    let mut solver = Solver::new();
    let mut update = SolverConfigUpdate::new();
    update.vsids_decay = Some(0.8);
    solver.config(&update).unwrap();
    update.vsids_decay = Some(2.0);
    assert!(solver.config(&update).is_err());
    solver.add_dimacs_cnf(&b"p cnf 2 2\n1 2 0 -1 0"[..]).unwrap();
    assert!(solver.add_dimacs_cnf(&b"1 x"[..]).is_err());
    assert!(solver.solve().unwrap());
}

#[test]
fn proofs() {
    for format in [ProofFormat::Drat, ProofFormat::BinaryDrat] {
        let mut proof = vec![];
        let mut solver = Solver::new();
        solver.write_proof(&mut proof, format);
        solver.add_formula(&square());
        assert!(!solver.solve().unwrap());
        solver.close_proof().unwrap();
        drop(solver);
        assert!(!proof.is_empty());
    }
    let mut solver = Solver::new();
    solver.enable_self_checking();
    solver.add_formula(&square());
    assert!(!solver.solve().unwrap());
}

struct Full;

impl Write for Full {
    fn write(&mut self, _: &[u8]) -> io::Result<usize> {
        Err(io::Error::new(io::ErrorKind::Other, "full"))
    }

    fn flush(&mut self) -> io::Result<()> {
        Ok(())
    }
}

#[test]
fn a_writer_that_fails() {
    let mut solver = Solver::new();
    solver.write_proof(Full, ProofFormat::Drat);
    // A clause that is true makes a line of the proof, and what comes behind meets a solver that is invalid.
    solver.add_formula(&formula(&[&[3], &[4, 3, 4]]));
    solver.add_formula(&square());
    match solver.solve() {
        Err(SolverError::ProofIoError { cause }) => assert_eq!(cause.to_string(), "full"),
        other => panic!("{other:?}"),
    }
    assert!(solver.close_proof().is_ok());
    // What was told once is no reason to panic before the next `solve`.
    solver.add_formula(&square());
    solver.assume(&lits(&[1]));
    assert!(solver.model().is_none() && solver.failed_core().is_none() && solver.observe_internal_vars().is_empty());
}

#[test]
#[should_panic(expected = "Error writing proof file")]
fn a_variable_behind_a_writer_that_fails() {
    let mut solver = Solver::new();
    solver.write_proof(Full, ProofFormat::Drat);
    solver.add_formula(&formula(&[&[3], &[4, 3, 4]]));
    solver.new_var();
}

#[test]
#[should_panic(expected = "witness variables cannot be constrained")]
fn a_witness() {
    let mut solver = Solver::new();
    let x = solver.new_var();
    solver.witness_var(x);
    solver.add_clause(&[x.positive()]);
}

#[test]
#[should_panic(expected = "assumptions not supported by DRAT proofs")]
fn assumptions_under_a_proof() {
    let mut solver = Solver::new();
    solver.write_proof(io::sink(), ProofFormat::Drat);
    solver.assume(&[]);
    solver.assume(&lits(&[1]));
}

#[test]
#[should_panic(expected = "called after clauses were added, or a variable or assumption")]
fn a_proof_behind_a_variable() {
    let mut solver = Solver::new();
    solver.new_var();
    solver.write_proof(io::sink(), ProofFormat::Drat);
}

#[test]
#[should_panic(expected = "a proof is open")]
fn two_proofs() {
    let mut solver = Solver::new();
    assert!(solver.solve().unwrap());
    solver.write_proof(io::sink(), ProofFormat::Drat);
    solver.write_proof(io::sink(), ProofFormat::BinaryDrat);
}

#[test]
#[should_panic(expected = "is not written by this solver")]
fn the_format_of_the_original() {
    Solver::new().write_proof(io::sink(), ProofFormat::Varisat);
}
