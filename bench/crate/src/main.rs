//! Decides a formula with the Rust crate varisat, for the benchmarks: varisat-in-rust FILE [THOUSANDS]
//!
//! The status is 10 where the formula is satisfiable, and 20 where it is not. The crate has no limit for its conflicts, but tells
//! every five thousandth to its log: with THOUSANDS, a multiple of 5, the program ends there with status 0.
use std::env;
use std::error::Error;
use std::fs::File;
use std::process;

use log::{LevelFilter, Log, Metadata, Record};
use varisat::Solver;

/// Ends the program at a line of the log that begins so.
struct Stop {
    start: String,
}

impl Log for Stop {
    fn enabled(&self, _: &Metadata) -> bool {
        true
    }

    fn log(&self, record: &Record) {
        if record.args().to_string().starts_with(&self.start) {
            process::exit(0);
        }
    }

    fn flush(&self) {}
}

fn main() -> Result<(), Box<dyn Error>> {
    let mut arguments = env::args().skip(1);
    let path = arguments.next().ok_or("a file is missing")?;
    if let Some(thousands) = arguments.next() {
        let start = format!("confl: {thousands}k ");
        log::set_boxed_logger(Box::new(Stop { start }))?;
        log::set_max_level(LevelFilter::Info);
    }
    let mut solver = Solver::new();
    solver.add_dimacs_cnf(File::open(path)?)?;
    process::exit(if solver.solve()? { 10 } else { 20 });
}
