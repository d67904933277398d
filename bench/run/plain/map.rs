//! Adds one to each number of a list.

use crate::term::{Term, int, map};
use std::rc::Rc;

fn next(term: &Rc<Term>) -> Option<Rc<Term>> {
    match &**term {
        Term::Int(value) => Some(int(value.checked_add(1)?)),
        _ => None,
    }
}

pub fn run(term: &Rc<Term>) -> Option<Rc<Term>> {
    map(term, next)
}
