//! Brings a formula into negation normal form, innermost places first.

use crate::term::{Sym, Term, app, applied, innermost};
use std::rc::Rc;

pub const NAMES: &[&str] = &["Not", "And", "Or", "Implies"];
const NOT: Sym = 0;
const AND: Sym = 1;
const OR: Sym = 2;
const IMPLIES: Sym = 3;

fn not(term: &Rc<Term>) -> Rc<Term> {
    app(NOT, [term.clone()])
}

fn push(term: &Term) -> Option<Rc<Term>> {
    match applied(term)? {
        (NOT, [inner]) => match applied(inner)? {
            (NOT, [p]) => Some(p.clone()),
            (AND, [p, q]) => Some(app(OR, [not(p), not(q)])),
            (OR, [p, q]) => Some(app(AND, [not(p), not(q)])),
            _ => None,
        },
        (IMPLIES, [p, q]) => Some(app(OR, [not(p), q.clone()])),
        _ => None,
    }
}

pub fn run(term: &Rc<Term>) -> Rc<Term> {
    innermost(term, push)
}
