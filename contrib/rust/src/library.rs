//! The C library, `varisat.h`, as a type. All that is unsafe in this crate stands here: pointers to the solver are never null, a slice is
//! passed with its length, and a writer stays where it is while a proof is open.
#![allow(unsafe_code)]

use std::ffi::{c_char, c_int, c_void, CStr};
use std::io::{self, Write};
use std::panic::{catch_unwind, AssertUnwindSafe};
use std::ptr::{null_mut, NonNull};

pub const SATISFIABLE: c_int = 10;
pub const UNSATISFIABLE: c_int = 20;
pub const PROOF_IO: c_int = -2;
pub const INVALID: c_int = -4;
pub const WITNESS_VAR: c_int = -6;
pub const ASSUMED_VAR: c_int = -8;
pub const CLAUSE_AFTER_SOLVE: c_int = -9;
pub const PROOF_OPEN: c_int = -10;
pub const PROOF_TOO_LATE: c_int = -11;
#[allow(dead_code)]
pub const DIMACS: c_int = -13;
pub const NOTHING: c_int = -15;

#[repr(C)]
struct Opaque {
    _opaque: [u8; 0],
}

type Handle = *mut Opaque;
type Listing = unsafe extern "C" fn(Handle, *mut i32, usize) -> c_int;
type Take = unsafe extern "C" fn(*mut c_void, *const c_void, usize) -> c_int;

extern "C" {
    fn varisat_new(heap_limit: usize) -> Handle;
    fn varisat_free(solver: Handle) -> c_int;
    fn varisat_error_text(solver: Handle) -> *const c_char;
    fn varisat_add_clause(solver: Handle, literals: *const i32, count: usize) -> c_int;
    fn varisat_read_dimacs(solver: Handle, piece: *const c_char, size: usize) -> c_int;
    fn varisat_end_dimacs(solver: Handle) -> c_int;
    fn varisat_assume(solver: Handle, literals: *const i32, count: usize) -> c_int;
    fn varisat_solve(solver: Handle) -> c_int;
    fn varisat_model(solver: Handle, literals: *mut i32, room: usize) -> c_int;
    fn varisat_failed_core(solver: Handle, literals: *mut i32, room: usize) -> c_int;
    fn varisat_new_var(solver: Handle) -> c_int;
    fn varisat_witness_var(solver: Handle, variable: i32) -> c_int;
    fn varisat_sample_var(solver: Handle, variable: i32) -> c_int;
    fn varisat_hide_var(solver: Handle, variable: i32) -> c_int;
    fn varisat_fixed(solver: Handle, literal: i32) -> c_int;
    fn varisat_set_phase(solver: Handle, literal: i32) -> c_int;
    fn varisat_unset_phase(solver: Handle, variable: i32) -> c_int;
    fn varisat_observe_internal_vars(solver: Handle, variables: *mut i32, room: usize) -> c_int;
    fn varisat_last_list(solver: Handle, numbers: *mut i32, room: usize) -> c_int;
    fn varisat_set(solver: Handle, setting: c_int, value: u64) -> c_int;
    fn varisat_write_proof(solver: Handle, format: c_int, take: Option<Take>, data: *mut c_void) -> c_int;
    fn varisat_close_proof(solver: Handle) -> c_int;
    fn varisat_self_check(solver: Handle) -> c_int;
}

/// Where a proof goes, and why that failed.
struct Target<'a> {
    writer: Box<dyn Write + 'a>,
    error: Option<io::Error>,
}

unsafe extern "C" fn take(data: *mut c_void, bytes: *const c_void, size: usize) -> c_int {
    let target = unsafe { &mut *(data as *mut Target<'_>) };
    let bytes = unsafe { std::slice::from_raw_parts(bytes as *const u8, size) };
    let error = match catch_unwind(AssertUnwindSafe(|| target.writer.write_all(bytes))) {
        Ok(Ok(())) => return 0,
        Ok(Err(error)) => error,
        Err(_) => io::Error::new(io::ErrorKind::Other, "the writer panicked"),
    };
    target.error = Some(error);
    1
}

/// A solver of the library. Numbers of answers are those of `varisat.h`.
pub struct Library<'a> {
    at: NonNull<Opaque>,
    // A box, as the pointer that `take` is given.
    target: Option<NonNull<Target<'a>>>,
}

impl<'a> Library<'a> {
    /// A new one, where there is memory.
    pub fn new() -> Option<Library<'a>> {
        let at = NonNull::new(unsafe { varisat_new(0) })?;
        Some(Library { at, target: None })
    }

    /// The text of the last error.
    pub fn error_text(&self) -> String {
        unsafe { CStr::from_ptr(varisat_error_text(self.at.as_ptr())) }.to_string_lossy().into_owned()
    }

    pub fn add_clause(&mut self, literals: &[i32]) -> c_int {
        unsafe { varisat_add_clause(self.at.as_ptr(), literals.as_ptr(), literals.len()) }
    }

    /// Reads a piece of a text.
    // The package in plain/ calls it, and the next one; here texts are read by the crate varisat-dimacs.
    #[allow(dead_code)]
    pub fn read_dimacs(&mut self, piece: &[u8]) -> c_int {
        unsafe { varisat_read_dimacs(self.at.as_ptr(), piece.as_ptr() as *const c_char, piece.len()) }
    }

    #[allow(dead_code)]
    pub fn end_dimacs(&mut self) -> c_int {
        unsafe { varisat_end_dimacs(self.at.as_ptr()) }
    }

    pub fn assume(&mut self, literals: &[i32]) -> c_int {
        unsafe { varisat_assume(self.at.as_ptr(), literals.as_ptr(), literals.len()) }
    }

    pub fn solve(&mut self) -> c_int {
        unsafe { varisat_solve(self.at.as_ptr()) }
    }

    pub fn new_var(&mut self) -> c_int {
        unsafe { varisat_new_var(self.at.as_ptr()) }
    }

    pub fn witness_var(&mut self, variable: i32) -> c_int {
        unsafe { varisat_witness_var(self.at.as_ptr(), variable) }
    }

    pub fn sample_var(&mut self, variable: i32) -> c_int {
        unsafe { varisat_sample_var(self.at.as_ptr(), variable) }
    }

    pub fn hide_var(&mut self, variable: i32) -> c_int {
        unsafe { varisat_hide_var(self.at.as_ptr(), variable) }
    }

    pub fn fixed(&self, literal: i32) -> c_int {
        unsafe { varisat_fixed(self.at.as_ptr(), literal) }
    }

    pub fn set_phase(&mut self, literal: i32) -> c_int {
        unsafe { varisat_set_phase(self.at.as_ptr(), literal) }
    }

    pub fn unset_phase(&mut self, variable: i32) -> c_int {
        unsafe { varisat_unset_phase(self.at.as_ptr(), variable) }
    }

    pub fn set(&mut self, setting: c_int, value: u64) -> c_int {
        unsafe { varisat_set(self.at.as_ptr(), setting, value) }
    }

    pub fn self_check(&mut self) -> c_int {
        unsafe { varisat_self_check(self.at.as_ptr()) }
    }

    /// The list that a call returns, or why it returns none.
    fn list(&self, call: Listing) -> Result<Vec<i32>, c_int> {
        let count = unsafe { call(self.at.as_ptr(), null_mut(), 0) };
        let mut numbers = vec![0; usize::try_from(count).map_err(|_| count)?];
        match unsafe { varisat_last_list(self.at.as_ptr(), numbers.as_mut_ptr(), numbers.len()) } {
            0.. => Ok(numbers),
            answer => Err(answer),
        }
    }

    pub fn model(&self) -> Result<Vec<i32>, c_int> {
        self.list(varisat_model)
    }

    pub fn failed_core(&self) -> Result<Vec<i32>, c_int> {
        self.list(varisat_failed_core)
    }

    pub fn observe_internal_vars(&mut self) -> Result<Vec<i32>, c_int> {
        self.list(varisat_observe_internal_vars)
    }

    /// Opens a proof that goes to the writer.
    pub fn write_proof(&mut self, format: c_int, writer: Box<dyn Write + 'a>) -> c_int {
        let target = NonNull::from(Box::leak(Box::new(Target { writer, error: None })));
        let answer = unsafe { varisat_write_proof(self.at.as_ptr(), format, Some(take), target.as_ptr() as *mut c_void) };
        if answer == 0 {
            self.target = Some(target);
        } else {
            drop(unsafe { Box::from_raw(target.as_ptr()) });
        }
        answer
    }

    /// Whether a proof is open.
    pub fn has_proof(&self) -> bool {
        self.target.is_some()
    }

    /// Closes the proof. The writer stays until `flush`.
    pub fn close_proof(&mut self) -> c_int {
        unsafe { varisat_close_proof(self.at.as_ptr()) }
    }

    /// Flushes the writer of a closed proof, and lets go of it.
    pub fn flush(&mut self) -> io::Result<()> {
        match self.target.take() {
            Some(target) => unsafe { Box::from_raw(target.as_ptr()) }.writer.flush(),
            None => Ok(()),
        }
    }

    /// Whether the writer failed, which was not told yet.
    pub fn has_error(&self) -> bool {
        self.target.is_some_and(|target| unsafe { target.as_ref() }.error.is_some())
    }

    /// Why the writer failed, if it did.
    pub fn take_error(&mut self) -> Option<io::Error> {
        unsafe { self.target?.as_mut() }.error.take()
    }
}

impl Drop for Library<'_> {
    fn drop(&mut self) {
        unsafe { varisat_free(self.at.as_ptr()) };
        if let Some(target) = self.target {
            drop(unsafe { Box::from_raw(target.as_ptr()) });
        }
    }
}
