//! Finds the first row of a tree whose numbers ascend, by trying one part of a node and then the other.

use crate::backtrack::ascends;
use crate::term::{Sym, Term, app, applied, elements_of};
use std::rc::Rc;

pub const NAMES: &[&str] = &["Row", "Node", "Found"];
const ROW: Sym = 0;
const NODE: Sym = 1;
const FOUND: Sym = 2;

pub fn run(term: &Rc<Term>) -> Option<Rc<Term>> {
    match applied(term)? {
        (ROW, [numbers]) if ascends(elements_of(numbers)?) => Some(app(FOUND, [numbers.clone()])),
        (NODE, [left, right]) => run(left).or_else(|| run(right)),
        _ => None,
    }
}
