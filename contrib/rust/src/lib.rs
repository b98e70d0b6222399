//! The public API of `varisat` 0.2.2 over the proved solver.
//!
//! The types of formulas are those of the crates `varisat-formula`, `varisat-dimacs` and `varisat-checker`, on which the original
//! stands as well, so other crates that use them go on working. Only the solver is another one.

#![deny(unsafe_code)]

pub mod config;
mod library;
pub mod solver;

pub use solver::{ProofFormat, Solver};
pub use varisat_formula::{cnf, lit, CnfFormula, ExtendFormula, Lit, Var};

use anyhow::Error;

/// An error of this text.
fn error(text: String) -> Error {
    Error::msg(text)
}

// What the original has besides, and the package in plain/ has not.
impl<'a> Solver<'a> {
    /// Reads and adds a formula in DIMACS CNF format.
    pub fn add_dimacs_cnf(&mut self, input: impl std::io::Read) -> Result<(), Error> {
        varisat_dimacs::DimacsParser::parse_incremental(input, |parser| {
            self.add_formula(&parser.take_formula());
            Ok(())
        })?;
        Ok(())
    }

    /// Generate a proof and process it using a [`checker::ProofProcessor`]: this solver has no such call, and panics.
    pub fn add_proof_processor(&mut self, _processor: &'a mut dyn varisat_checker::ProofProcessor) {
        panic!("proof processors are not offered by this solver");
    }
}

pub mod dimacs {
    //! DIMACS CNF parser and writer.
    pub use varisat_dimacs::*;
}

pub mod checker {
    //! Checker of proofs in the format of the original, which this solver does not write.
    pub use varisat_checker::{
        CheckedProofStep, Checker, CheckerData, CheckerError, ProofProcessor,
        ProofTranscriptProcessor, ProofTranscriptStep,
    };
}
