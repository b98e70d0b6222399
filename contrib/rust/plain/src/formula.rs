//! Variables, literals and formulas, with the names that the crate `varisat-formula` gives them.
use std::ops::{BitXor, Not};
use std::{fmt, vec};

/// How many variables there may be.
const MAX_COUNT: usize = 1 << 28;

/// A variable. It is printed as the number that it has in DIMACS texts: from 1 on.
#[derive(Clone, Copy, PartialEq, Eq, PartialOrd, Ord, Hash)]
pub struct Var {
    index: u32,
}

impl Var {
    /// The variable with this index, from 0 on. Panics from 2^28 on.
    pub fn from_index(index: usize) -> Var {
        assert!(index < MAX_COUNT, "there are at most 2^28 variables");
        Var { index: index as u32 }
    }

    /// The variable of a DIMACS text. Panics for 0, for numbers below it, and past 2^28.
    pub fn from_dimacs(number: isize) -> Var {
        assert!(number > 0, "the number of a variable is above 0");
        Var::from_index(number as usize - 1)
    }

    /// Its index, from 0 on.
    pub fn index(self) -> usize {
        self.index as usize
    }

    /// Its number in a DIMACS text.
    pub fn to_dimacs(self) -> isize {
        self.index as isize + 1
    }

    /// How many variables there may be.
    pub const fn max_count() -> usize {
        MAX_COUNT
    }

    /// The literal of this variable that has this value.
    pub fn lit(self, polarity: bool) -> Lit {
        Lit::from_var(self, polarity)
    }

    /// The literal that is true if the variable is.
    pub fn positive(self) -> Lit {
        Lit::positive(self)
    }

    /// The literal that is true if the variable is false.
    pub fn negative(self) -> Lit {
        Lit::negative(self)
    }
}

impl fmt::Display for Var {
    fn fmt(&self, out: &mut fmt::Formatter<'_>) -> fmt::Result {
        write!(out, "{}", self.to_dimacs())
    }
}

impl fmt::Debug for Var {
    fn fmt(&self, out: &mut fmt::Formatter<'_>) -> fmt::Result {
        fmt::Display::fmt(self, out)
    }
}

/// A variable or its negation. It is printed as the number that it has in DIMACS texts.
#[derive(Clone, Copy, PartialEq, Eq, PartialOrd, Ord, Hash)]
pub struct Lit {
    code: u32,
}

impl Lit {
    /// The literal of the variable that has this value.
    pub fn from_var(var: Var, polarity: bool) -> Lit {
        Lit { code: var.index << 1 | !polarity as u32 }
    }

    /// The literal that is true if the variable is.
    pub fn positive(var: Var) -> Lit {
        Lit::from_var(var, true)
    }

    /// The literal that is true if the variable is false.
    pub fn negative(var: Var) -> Lit {
        Lit::from_var(var, false)
    }

    /// The literal of the variable with this index, from 0 on. Panics from 2^28 on.
    pub fn from_index(index: usize, polarity: bool) -> Lit {
        Lit::from_var(Var::from_index(index), polarity)
    }

    /// The literal of this code. Panics from 2^29 on.
    pub fn from_code(code: usize) -> Lit {
        Lit::from_index(code >> 1, code & 1 == 0)
    }

    /// The literal of a DIMACS text. Panics for 0 and past 2^28.
    pub fn from_dimacs(number: isize) -> Lit {
        assert!(number != 0, "0 is no literal");
        assert!(number.unsigned_abs() <= MAX_COUNT, "there are at most 2^28 variables");
        Var::from_dimacs(number.abs()).lit(number > 0)
    }

    /// Its variable.
    pub fn var(self) -> Var {
        Var { index: self.code >> 1 }
    }

    /// The index of its variable.
    pub fn index(self) -> usize {
        self.var().index()
    }

    /// Twice the index of its variable, and one more if it is negative.
    pub fn code(self) -> usize {
        self.code as usize
    }

    /// Whether it is a negation.
    pub fn is_negative(self) -> bool {
        self.code & 1 != 0
    }

    /// Whether it is a variable as it is.
    pub fn is_positive(self) -> bool {
        !self.is_negative()
    }

    /// Its number in a DIMACS text.
    pub fn to_dimacs(self) -> isize {
        if self.is_negative() {
            -self.var().to_dimacs()
        } else {
            self.var().to_dimacs()
        }
    }
}

impl Not for Lit {
    type Output = Lit;

    fn not(self) -> Lit {
        Lit { code: self.code ^ 1 }
    }
}

/// The literal negated if the value is true.
impl BitXor<bool> for Lit {
    type Output = Lit;

    fn bitxor(self, value: bool) -> Lit {
        Lit { code: self.code ^ value as u32 }
    }
}

impl From<Var> for Lit {
    fn from(var: Var) -> Lit {
        Lit::positive(var)
    }
}

impl fmt::Display for Lit {
    fn fmt(&self, out: &mut fmt::Formatter<'_>) -> fmt::Result {
        write!(out, "{}", self.to_dimacs())
    }
}

impl fmt::Debug for Lit {
    fn fmt(&self, out: &mut fmt::Formatter<'_>) -> fmt::Result {
        fmt::Display::fmt(self, out)
    }
}

/// What takes clauses and makes variables: a formula, or a solver.
pub trait ExtendFormula {
    /// Appends a clause.
    fn add_clause(&mut self, clause: &[Lit]);

    /// A variable that no call named before.
    fn new_var(&mut self) -> Var;

    /// A new variable's positive literal.
    fn new_lit(&mut self) -> Lit {
        Lit::positive(self.new_var())
    }

    /// So many new variables.
    fn new_var_iter(&mut self, count: usize) -> vec::IntoIter<Var> {
        (0..count).map(|_| self.new_var()).collect::<Vec<_>>().into_iter()
    }

    /// The positive literals of so many new variables.
    fn new_lit_iter(&mut self, count: usize) -> vec::IntoIter<Lit> {
        (0..count).map(|_| self.new_lit()).collect::<Vec<_>>().into_iter()
    }

    /// A tuple of new variables: `let (x, y) = solver.new_vars();`
    fn new_vars<Vars: UniformTuple<Var>>(&mut self) -> Vars
    where
        Self: Sized,
    {
        Vars::tuple_from_fn(|| self.new_var())
    }

    /// A tuple of new variables' positive literals.
    fn new_lits<Lits: UniformTuple<Lit>>(&mut self) -> Lits
    where
        Self: Sized,
    {
        Lits::tuple_from_fn(|| self.new_lit())
    }
}

/// A tuple of up to ten values of one type.
pub trait UniformTuple<Item> {
    /// The tuple whose values come from these calls, in turn.
    fn tuple_from_fn(call: impl FnMut() -> Item) -> Self;
}

macro_rules! uniform_tuple {
    ($($item:ty)+) => {
        impl<T> UniformTuple<T> for ($($item,)+) {
            fn tuple_from_fn(mut call: impl FnMut() -> T) -> Self {
                ($(<$item>::from(call()),)+)
            }
        }
    };
}

uniform_tuple!(T);
uniform_tuple!(T T);
uniform_tuple!(T T T);
uniform_tuple!(T T T T);
uniform_tuple!(T T T T T);
uniform_tuple!(T T T T T T);
uniform_tuple!(T T T T T T T);
uniform_tuple!(T T T T T T T T);
uniform_tuple!(T T T T T T T T T);
uniform_tuple!(T T T T T T T T T T);

/// A formula in conjunctive normal form.
#[derive(Clone, Debug, Default, PartialEq, Eq)]
pub struct CnfFormula {
    var_count: usize,
    literals: Vec<Lit>,
    // Where each clause ends.
    ends: Vec<usize>,
}

impl CnfFormula {
    /// A formula without clauses and variables.
    pub fn new() -> CnfFormula {
        CnfFormula::default()
    }

    /// How many variables there are: one more than the highest index.
    pub fn var_count(&self) -> usize {
        self.var_count
    }

    /// Raises the number of variables to this one, if it is lower.
    pub fn set_var_count(&mut self, count: usize) {
        self.var_count = self.var_count.max(count);
    }

    /// How many clauses there are.
    pub fn len(&self) -> usize {
        self.ends.len()
    }

    /// Whether there are no clauses.
    pub fn is_empty(&self) -> bool {
        self.ends.is_empty()
    }

    /// The clauses, in their order.
    pub fn iter(&self) -> impl Iterator<Item = &[Lit]> {
        let begins = std::iter::once(0).chain(self.ends.iter().copied());
        begins.zip(&self.ends).map(|(begin, &end)| &self.literals[begin..end])
    }
}

/// The formula of these clauses.
impl<Clauses, Clause> From<Clauses> for CnfFormula
where
    Clauses: IntoIterator<Item = Clause>,
    Clause: IntoIterator<Item = Lit>,
{
    fn from(clauses: Clauses) -> CnfFormula {
        let mut formula = CnfFormula::new();
        for clause in clauses {
            formula.add_clause(&clause.into_iter().collect::<Vec<_>>());
        }
        formula
    }
}

impl ExtendFormula for CnfFormula {
    fn add_clause(&mut self, clause: &[Lit]) {
        self.literals.extend_from_slice(clause);
        self.ends.push(self.literals.len());
        let highest = clause.iter().map(|lit| lit.index() + 1).max();
        self.set_var_count(highest.unwrap_or(0));
    }

    fn new_var(&mut self) -> Var {
        let var = Var::from_index(self.var_count);
        self.var_count += 1;
        var
    }
}
