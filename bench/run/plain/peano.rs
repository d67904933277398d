//! The Fibonacci numbers of a list, in unary.

use crate::term::{Sym, Term, app, applied, map};
use std::rc::Rc;

pub const NAMES: &[&str] = &["Zero", "Succ"];
const ZERO: Sym = 0;
const SUCC: Sym = 1;

fn plus(one: &Rc<Term>, other: &Rc<Term>) -> Option<Rc<Term>> {
    match applied(one)? {
        (ZERO, []) => Some(other.clone()),
        (SUCC, [less]) => Some(app(SUCC, [plus(less, other)?])),
        _ => None,
    }
}

fn fib(number: &Rc<Term>) -> Option<Rc<Term>> {
    match applied(number)? {
        (ZERO, []) => Some(number.clone()),
        (SUCC, [less]) => match applied(less)? {
            (ZERO, []) => Some(number.clone()),
            (SUCC, [least]) => plus(&fib(less)?, &fib(least)?),
            _ => None,
        },
        _ => None,
    }
}

pub fn run(term: &Rc<Term>) -> Option<Rc<Term>> {
    map(term, fib)
}
