//! Replaces each constructor C<i> of a list by D<i>.

use crate::term::{Sym, Term, map};
use std::rc::Rc;

pub const RULES: Sym = 1000;

/// The constructors C<i>, and then the constructors D<i>.
pub fn names() -> Vec<String> {
    let named = |letter: char| (0..RULES).map(move |index| format!("{letter}{index}"));
    named('C').chain(named('D')).collect()
}

fn replace(term: &Rc<Term>) -> Option<Rc<Term>> {
    match &**term {
        Term::App(name, parts) if *name < RULES && parts.len() == 1 => {
            Some(Rc::new(Term::App(*name + RULES, parts.clone())))
        }
        _ => None,
    }
}

pub fn run(term: &Rc<Term>) -> Option<Rc<Term>> {
    map(term, replace)
}
