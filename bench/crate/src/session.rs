//! Calls one solver of the Rust crate varisat line by line, as `varisat session` does: varisat-in-rust-session
//!
//! Of its calls it has those that both have: add, new, witness, sample, hide, observe, assume, solve, model and core. A call at
//! which the crate panics is answered `panic`, and is the last one.
use std::error::Error;
use std::io::{self, BufRead, Write};
use std::panic::{self, AssertUnwindSafe};

use varisat::{ExtendFormula, Lit, Solver, Var};

fn literals(words: &[&str]) -> Result<Vec<Lit>, Box<dyn Error>> {
    words
        .iter()
        .map(|word| Ok(Lit::from_dimacs(word.parse()?)))
        .collect()
}

fn variable(words: &[&str]) -> Result<Var, Box<dyn Error>> {
    Ok(Var::from_dimacs(
        words.first().ok_or("a variable is missing")?.parse()?,
    ))
}

/// The numbers, ended by 0 as in a DIMACS text.
fn list(numbers: impl Iterator<Item = isize>) -> String {
    numbers
        .map(|number| format!("{number} "))
        .chain(["0".to_string()])
        .collect()
}

fn call(solver: &mut Solver, line: &str) -> Result<String, Box<dyn Error>> {
    let words: Vec<&str> = line.split(' ').collect();
    let rest = &words[1..];
    Ok(match words[0] {
        "add" => {
            solver.add_clause(&literals(rest)?);
            String::new()
        }
        "new" => solver.new_var().to_dimacs().to_string(),
        "witness" => {
            solver.witness_var(variable(rest)?);
            String::new()
        }
        "sample" => {
            solver.sample_var(variable(rest)?);
            String::new()
        }
        "hide" => {
            solver.hide_var(variable(rest)?);
            String::new()
        }
        "observe" => list(
            solver
                .observe_internal_vars()
                .iter()
                .map(|var| var.to_dimacs()),
        ),
        "assume" => {
            solver.assume(&literals(rest)?);
            String::new()
        }
        "solve" => solver.solve()?.to_string(),
        "model" => match solver.model() {
            Some(model) => list(model.iter().map(|lit| lit.to_dimacs())),
            None => "none".to_string(),
        },
        "core" => match solver.failed_core() {
            Some(core) => list(core.iter().map(|lit| lit.to_dimacs())),
            None => "none".to_string(),
        },
        word => return Err(format!("no call: {word}").into()),
    })
}

fn main() -> Result<(), Box<dyn Error>> {
    // What a panic says is not needed.
    panic::set_hook(Box::new(|_| ()));
    let mut solver = Solver::new();
    let mut out = io::stdout().lock();
    for line in io::stdin().lock().lines() {
        let line = line?;
        let Ok(answer) = panic::catch_unwind(AssertUnwindSafe(|| call(&mut solver, &line))) else {
            writeln!(out, "panic")?;
            return Ok(());
        };
        writeln!(out, "{}", format!("ok {}", answer?).trim_end())?;
        out.flush()?;
    }
    Ok(())
}
