//! The solver of `varisat` 0.2.2 over the proved solver, with literals and formulas of its own, so that no other crate is needed.
//!
//! What is here has the names and arguments of the original, so that a program may take either by one line of its `Cargo.toml`.
//!
//! ```
//! use varisat::{ExtendFormula, Solver};
//!
//! let mut solver = Solver::new();
//! let (x, y, z) = solver.new_lits();
//! solver.add_clause(&[x, y, z]);
//! solver.add_clause(&[!x, !y]);
//! solver.add_clause(&[!z]);
//! solver.assume(&[!x]);
//! assert!(solver.solve()?);
//! assert_eq!(solver.model().unwrap(), [!x, y, !z]);
//! solver.assume(&[x, y]);
//! assert!(!solver.solve()?);
//! assert_eq!(solver.failed_core().unwrap().len(), 2);
//! # Ok::<(), varisat::Error>(())
//! ```

#![deny(unsafe_code)]

pub mod config;
mod formula;
#[path = "../../src/library.rs"]
mod library;
#[path = "../../src/solver.rs"]
pub mod solver;

pub use formula::{CnfFormula, ExtendFormula, Lit, UniformTuple, Var};
pub use solver::{ProofFormat, Solver};

use std::io::{self, Read};

/// An error of settings and texts, of which only the text is to be read.
pub type Error = Box<dyn std::error::Error + Send + Sync>;

/// An error of this text.
fn error(text: String) -> Error {
    text.into()
}

impl Solver<'_> {
    /// Reads and adds a formula in DIMACS CNF format. After an error the clauses before it are added.
    pub fn add_dimacs_cnf(&mut self, mut input: impl Read) -> Result<(), Error> {
        let mut piece = vec![0; 1 << 14];
        loop {
            let size = match input.read(&mut piece) {
                Err(error) if error.kind() == io::ErrorKind::Interrupted => continue,
                Err(error) => {
                    // The next text is not to go on where this one ends.
                    self.library.end_dimacs();
                    return Err(error.into());
                }
                Ok(size) => size,
            };
            let answer = if size == 0 { self.library.end_dimacs() } else { self.library.read_dimacs(&piece[..size]) };
            if answer == library::DIMACS {
                return Err(error(self.library.error_text()));
            }
            self.changed(answer);
            if size == 0 {
                return Ok(());
            }
        }
    }
}
