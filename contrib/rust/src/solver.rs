//! Boolean satisfiability solver.
// The package in plain/ has this file too, over types of its own.
use std::cell::OnceCell;
use std::ffi::c_int;
use std::{error, fmt, io};

use crate::config::{SolverConfig, SolverConfigUpdate};
use crate::library::*;
use crate::{CnfFormula, Error, ExtendFormula, Lit, Var};

/// Proof formats that can be generated during solving.
#[derive(Copy, Clone, Eq, PartialEq, Debug)]
pub enum ProofFormat {
    /// The original's own format, which this solver does not write.
    Varisat,
    Drat,
    BinaryDrat,
}

/// Possible errors while solving a formula.
#[derive(Debug)]
#[non_exhaustive]
pub enum SolverError {
    Interrupted,
    ProofProcessorError { cause: Error },
    ProofIoError { cause: io::Error },
}

impl fmt::Display for SolverError {
    fn fmt(&self, out: &mut fmt::Formatter<'_>) -> fmt::Result {
        match self {
            SolverError::Interrupted => write!(out, "The solver was interrupted"),
            SolverError::ProofProcessorError { cause } => write!(out, "Error in proof processor: {cause}"),
            SolverError::ProofIoError { cause } => write!(out, "Error writing proof file: {cause}"),
        }
    }
}

impl error::Error for SolverError {
    fn source(&self) -> Option<&(dyn error::Error + 'static)> {
        match self {
            SolverError::Interrupted => None,
            SolverError::ProofProcessorError { cause } => Some(&**cause),
            SolverError::ProofIoError { cause } => Some(cause),
        }
    }
}

impl SolverError {
    /// Whether a Solver instance can be used after producing such an error.
    pub fn is_recoverable(&self) -> bool {
        matches!(self, SolverError::Interrupted)
    }
}

/// A boolean satisfiability solver.
pub struct Solver<'a> {
    pub(crate) library: Library<'a>,
    config: SolverConfig,
    numbers: Vec<i32>,
    // What `failed_core` lends, until the solver changes.
    core: OnceCell<Option<Vec<Lit>>>,
    is_invalid: bool,
}

impl<'a> Default for Solver<'a> {
    fn default() -> Self {
        Solver {
            library: Library::new().expect("out of memory"),
            config: SolverConfig::default(),
            numbers: vec![],
            core: OnceCell::new(),
            is_invalid: false,
        }
    }
}

impl<'a> Solver<'a> {
    /// Create a new solver.
    pub fn new() -> Solver<'a> {
        Solver::default()
    }

    /// Change the solver configuration.
    pub fn config(&mut self, config_update: &SolverConfigUpdate) -> Result<(), Error> {
        config_update.apply(&mut self.config)?;
        // Decays are kept in thousandths, up to 999.
        let thousandths = |value: f32| ((value * 1000.0).round() as u64).min(999);
        let values = [
            config_update.vsids_decay.map(thousandths),
            config_update.clause_activity_decay.map(thousandths),
            config_update.reduce_locals_interval,
            config_update.reduce_mids_interval,
            config_update.luby_restart_interval_scale,
        ];
        for (setting, value) in values.into_iter().enumerate() {
            if let Some(value) = value {
                if self.library.set(setting as c_int, value) != 0 {
                    return Err(crate::error(self.library.error_text()));
                }
            }
        }
        Ok(())
    }

    /// Add a formula to the solver.
    pub fn add_formula(&mut self, formula: &CnfFormula) {
        for clause in formula.iter() {
            self.add_clause(clause);
        }
    }

    /// Sets the "witness" sampling mode for a variable.
    pub fn witness_var(&mut self, var: Var) {
        let answer = self.library.witness_var(var.to_dimacs() as i32);
        self.changed(answer);
    }

    /// Sets the "sample" sampling mode for a variable.
    pub fn sample_var(&mut self, var: Var) {
        let answer = self.library.sample_var(var.to_dimacs() as i32);
        self.changed(answer);
    }

    /// Hide a variable.
    pub fn hide_var(&mut self, var: Var) {
        let answer = self.library.hide_var(var.to_dimacs() as i32);
        self.changed(answer);
    }

    /// Observe solver internal variables.
    pub fn observe_internal_vars(&mut self) -> Vec<Var> {
        self.core = OnceCell::new();
        let listed = self.library.observe_internal_vars();
        self.list(listed).unwrap_or_default().into_iter().map(Lit::var).collect()
    }

    /// Whether the literal is fixed: the clauses entail it. False if no search and no clause of one literal has fixed it yet. The original
    /// has no such call.
    pub fn is_fixed(&self, lit: Lit) -> bool {
        self.library.fixed(lit.to_dimacs() as i32) == 1
    }

    /// Has searches decide the literal's variable first so that the literal is true, until `unset_phase`. No verdict depends on it. The
    /// original has no such call.
    pub fn set_phase(&mut self, lit: Lit) {
        let answer = self.library.set_phase(lit.to_dimacs() as i32);
        self.changed(answer);
    }

    /// Ends what `set_phase` did for the variable. The original has no such call.
    pub fn unset_phase(&mut self, var: Var) {
        let answer = self.library.unset_phase(var.to_dimacs() as i32);
        self.changed(answer);
    }

    /// Check the satisfiability of the current formula.
    pub fn solve(&mut self) -> Result<bool, SolverError> {
        self.core = OnceCell::new();
        assert!(
            !self.is_invalid,
            "solve() called after encountering an unrecoverable error"
        );
        match self.library.solve() {
            SATISFIABLE => Ok(true),
            UNSATISFIABLE => Ok(false),
            0 => Err(SolverError::Interrupted),
            answer => Err(self.error(answer)),
        }
    }

    /// Assume given literals for future calls to solve.
    pub fn assume(&mut self, assumptions: &[Lit]) {
        self.give(assumptions);
        let answer = self.library.assume(&self.numbers);
        self.changed(answer);
    }

    /// Set of literals that satisfy the formula.
    pub fn model(&self) -> Option<Vec<Lit>> {
        self.list(self.library.model())
    }

    /// Subset of the assumptions that made the formula unsatisfiable.
    pub fn failed_core(&self) -> Option<&[Lit]> {
        self.core.get_or_init(|| self.list(self.library.failed_core())).as_deref()
    }

    /// Generate a proof of unsatisfiability during solving.
    pub fn write_proof(&mut self, target: impl io::Write + 'a, format: ProofFormat) {
        let format = match format {
            ProofFormat::Drat => 0,
            ProofFormat::BinaryDrat => 1,
            ProofFormat::Varisat => panic!("ProofFormat::Varisat is not written by this solver"),
        };
        match self.library.write_proof(format, Box::new(target)) {
            PROOF_OPEN => panic!("a proof is open"),
            answer => self.changed(answer),
        }
    }

    /// Stop generating a proof of unsatisfiability.
    pub fn close_proof(&mut self) -> Result<(), SolverError> {
        if self.is_invalid || !self.library.has_proof() {
            return Ok(());
        }
        match self.library.close_proof() {
            0 => self.library.flush().map_err(|cause| {
                self.is_invalid = true;
                SolverError::ProofIoError { cause }
            }),
            answer => Err(self.error(answer)),
        }
    }

    /// Generate and check a proof on the fly.
    pub fn enable_self_checking(&mut self) {
        let answer = self.library.self_check();
        self.changed(answer);
    }

    /// Ends a call that changes the solver. Wrong calls panic, as in the original; so do memory and limits that are spent.
    pub(crate) fn changed(&mut self, answer: c_int) {
        self.core = OnceCell::new();
        match answer {
            PROOF_IO | 0.. => {}
            INVALID if self.is_told() => {}
            PROOF_TOO_LATE => panic!("called after clauses were added, or a variable or assumption"),
            WITNESS_VAR => panic!("witness variables cannot be constrained"),
            ASSUMED_VAR => panic!("cannot change sampling mode of assumption variable"),
            CLAUSE_AFTER_SOLVE => panic!("incremental clause additions not supported by DRAT proofs"),
            PROOF_OPEN => panic!("assumptions not supported by DRAT proofs"),
            _ => panic!("{}", self.library.error_text()),
        }
    }

    /// The literals of a list, and None where there is none.
    fn list(&self, listed: Result<Vec<i32>, c_int>) -> Option<Vec<Lit>> {
        match listed {
            Ok(numbers) => Some(numbers.into_iter().map(|it| Lit::from_dimacs(it as isize)).collect()),
            Err(NOTHING) => None,
            Err(INVALID) if self.is_told() => None,
            Err(_) => panic!("{}", self.library.error_text()),
        }
    }

    /// Whether `solve` tells or has told why the solver is invalid.
    fn is_told(&self) -> bool {
        self.is_invalid || self.library.has_error()
    }

    /// An error from which there is no way back.
    fn error(&mut self, answer: c_int) -> SolverError {
        self.is_invalid = true;
        let cause = self.library.take_error().unwrap_or_else(|| {
            let kind = if answer == PROOF_IO { io::ErrorKind::Other } else { io::ErrorKind::OutOfMemory };
            io::Error::new(kind, self.library.error_text())
        });
        SolverError::ProofIoError { cause }
    }

    fn give(&mut self, lits: &[Lit]) {
        self.numbers.clear();
        self.numbers.extend(lits.iter().map(|lit| lit.to_dimacs() as i32));
    }
}

impl<'a> Drop for Solver<'a> {
    fn drop(&mut self) {
        let _ = self.close_proof();
    }
}

impl<'a> ExtendFormula for Solver<'a> {
    /// Add a clause to the solver.
    fn add_clause(&mut self, clause: &[Lit]) {
        self.give(clause);
        let answer = self.library.add_clause(&self.numbers);
        self.changed(answer);
    }

    /// Add a new variable to the solver.
    fn new_var(&mut self) -> Var {
        let answer = self.library.new_var();
        self.changed(answer);
        // What waits for `solve` has no variable to return.
        assert!(answer > 0, "{}", self.library.error_text());
        Var::from_dimacs(answer as isize)
    }
}
