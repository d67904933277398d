//! Finds the first row of a tree whose numbers ascend.

use crate::term::{Sym, Term, app, applied, once_topdown};
use std::rc::Rc;

pub const NAMES: &[&str] = &["Row", "Found"];
const ROW: Sym = 0;
const FOUND: Sym = 1;

pub fn ascends(row: &[Rc<Term>]) -> bool {
    !row.is_empty()
        && row.windows(2).all(|pair| match (&*pair[0], &*pair[1]) {
            (Term::Int(one), Term::Int(other)) => one < other,
            _ => false,
        })
}

fn accepted(term: &Term) -> Option<Rc<Term>> {
    match applied(term) {
        Some((ROW, [row])) => match &**row {
            Term::List(elements) if ascends(elements) => Some(app(FOUND, [row.clone()])),
            _ => None,
        },
        _ => None,
    }
}

pub fn run(term: &Rc<Term>) -> Option<Rc<Term>> {
    once_topdown(term, accepted)
}
