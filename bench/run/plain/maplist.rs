//! Swaps the pairs in each of the lists of a list.

use crate::term::{Sym, Term, app, applied, map};
use std::rc::Rc;

pub const NAMES: &[&str] = &[""];
const TUPLE: Sym = 0;

fn swap(term: &Rc<Term>) -> Option<Rc<Term>> {
    match applied(term)? {
        (TUPLE, [x, y]) => Some(app(TUPLE, [y.clone(), x.clone()])),
        _ => None,
    }
}

pub fn run(term: &Rc<Term>) -> Option<Rc<Term>> {
    map(term, |pairs| map(pairs, swap))
}
