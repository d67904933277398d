//! Simplifies sums and products, the parts first.

use crate::term::{Sym, Term, all, app, applied, int};
use std::rc::Rc;

pub const NAMES: &[&str] = &["Num", "Plus", "Times"];
const NUM: Sym = 0;
const PLUS: Sym = 1;
const TIMES: Sym = 2;

fn is_number(term: &Term, value: i64) -> bool {
    match applied(term) {
        Some((NUM, [number])) => matches!(**number, Term::Int(found) if found == value),
        _ => false,
    }
}

pub fn run(term: &Rc<Term>) -> Rc<Term> {
    let term = all(term, run);
    match applied(&term) {
        Some((PLUS, [x, y])) if is_number(x, 0) => y.clone(),
        Some((PLUS, [x, y])) if is_number(y, 0) => x.clone(),
        Some((TIMES, [x, y])) if is_number(x, 1) => y.clone(),
        Some((TIMES, [x, y])) if is_number(y, 1) => x.clone(),
        Some((TIMES, [x, y])) if is_number(x, 0) || is_number(y, 0) => app(NUM, [int(0)]),
        _ => term,
    }
}
