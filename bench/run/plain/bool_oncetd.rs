//! Brings a formula into disjunctive normal form: a rule is applied at the first place from the outside in, again and again.

use crate::bool_dnf::step;
use crate::term::{Term, once_topdown};
use std::rc::Rc;

pub use crate::bool_dnf::NAMES;

pub fn run(term: &Rc<Term>) -> Rc<Term> {
    let mut term = term.clone();
    while let Some(next) = once_topdown(&term, step) {
        term = next;
    }
    term
}
