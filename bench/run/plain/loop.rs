//! Takes (n, total) to (0, total + n + .. + 1), one number at a time.

use crate::term::{Sym, Term, app, applied, int, integer};
use std::rc::Rc;

pub const NAMES: &[&str] = &[""];
const TUPLE: Sym = 0;

fn next(term: &Term) -> Option<Rc<Term>> {
    let (TUPLE, [number, total]) = applied(term)? else {
        return None;
    };
    let (number, total) = (integer(number)?, integer(total)?);
    if number <= 0 {
        return None;
    }
    Some(app(TUPLE, [int(number - 1), int(total.checked_add(number)?)]))
}

pub fn run(term: &Rc<Term>) -> Rc<Term> {
    let mut term = term.clone();
    while let Some(next) = next(&term) {
        term = next;
    }
    term
}
