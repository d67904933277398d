//! Takes (n, t) to a tree of 2^n times t, in which equal parts are shared, and brings equal parts together again, the parts first.

use crate::term::{Sym, Term, all, app, applied, integer};
use std::rc::Rc;

pub const NAMES: &[&str] = &["", "Node", "Twice"];
const TUPLE: Sym = 0;
const NODE: Sym = 1;
const TWICE: Sym = 2;

fn join(term: &Rc<Term>) -> Rc<Term> {
    let term = all(term, join);
    match applied(&term) {
        Some((NODE, [left, right])) if left == right => app(TWICE, [left.clone()]),
        _ => term,
    }
}

pub fn run(term: &Rc<Term>) -> Option<Rc<Term>> {
    let (TUPLE, [times, tree]) = applied(term)? else {
        return None;
    };
    let mut tree = tree.clone();
    for _ in 0..integer(times)? {
        tree = app(NODE, [tree.clone(), tree]);
    }
    Some(join(&tree))
}
