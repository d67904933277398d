//! Replaces each constructor C<i> of a tree by D<i>, with its parts in reverse order.

use crate::dispatch::RULES;
use crate::term::{Sym, Term, applied};
use std::rc::Rc;

/// How many parts the constructor C<i> has.
fn width(name: Sym) -> usize {
    name as usize % 4
}

pub fn run(term: &Rc<Term>) -> Option<Rc<Term>> {
    match applied(term)? {
        (name, parts) if name < RULES && parts.len() == width(name) => {
            let parts = parts.iter().rev().map(run).collect::<Option<_>>()?;
            Some(Rc::new(Term::App(name + RULES, parts)))
        }
        _ => None,
    }
}
