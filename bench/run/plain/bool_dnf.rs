//! Brings a formula into disjunctive normal form, innermost places first.

use crate::term::{Sym, Term, app, applied, innermost};
use std::rc::Rc;

pub const NAMES: &[&str] = &["Not", "And", "Or"];
const NOT: Sym = 0;
const AND: Sym = 1;
const OR: Sym = 2;

fn not(p: &Rc<Term>) -> Rc<Term> {
    app(NOT, [p.clone()])
}

fn and(p: &Rc<Term>, q: &Rc<Term>) -> Rc<Term> {
    app(AND, [p.clone(), q.clone()])
}

pub fn step(term: &Term) -> Option<Rc<Term>> {
    match applied(term)? {
        (NOT, [inner]) => match applied(inner)? {
            (NOT, [p]) => Some(p.clone()),
            (AND, [p, q]) => Some(app(OR, [not(p), not(q)])),
            (OR, [p, q]) => Some(app(AND, [not(p), not(q)])),
            _ => None,
        },
        (AND, [left, right]) => match (applied(left), applied(right)) {
            (Some((OR, [p, q])), _) => Some(app(OR, [and(p, right), and(q, right)])),
            (_, Some((OR, [q, r]))) => Some(app(OR, [and(left, q), and(left, r)])),
            _ => None,
        },
        _ => None,
    }
}

pub fn run(term: &Rc<Term>) -> Rc<Term> {
    innermost(term, step)
}
