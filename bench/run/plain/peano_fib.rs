//! The Fibonacci numbers of a list, in unary, innermost places first.

use crate::term::{Sym, Term, app, applied, innermost};
use std::rc::Rc;

pub const NAMES: &[&str] = &["Zero", "Succ", "Plus", "Fib"];
const ZERO: Sym = 0;
const SUCC: Sym = 1;
const PLUS: Sym = 2;
const FIB: Sym = 3;

fn fib(number: &Rc<Term>) -> Option<Rc<Term>> {
    match applied(number)? {
        (ZERO, []) => Some(number.clone()),
        (SUCC, [less]) => match applied(less)? {
            (ZERO, []) => Some(number.clone()),
            (SUCC, [least]) => Some(app(PLUS, [app(FIB, [less.clone()]), app(FIB, [least.clone()])])),
            _ => None,
        },
        _ => None,
    }
}

fn step(term: &Term) -> Option<Rc<Term>> {
    match applied(term)? {
        (PLUS, [one, other]) => match applied(one)? {
            (ZERO, []) => Some(other.clone()),
            (SUCC, [less]) => Some(app(SUCC, [app(PLUS, [less.clone(), other.clone()])])),
            _ => None,
        },
        (FIB, [number]) => fib(number),
        _ => None,
    }
}

pub fn run(term: &Rc<Term>) -> Rc<Term> {
    innermost(term, step)
}
