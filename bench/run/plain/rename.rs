//! Renames the free occurrences of a variable.

use crate::term::{Sym, Term, all, app, applied};
use std::rc::Rc;

pub const NAMES: &[&str] = &["Var", "Lam", "Let", "\"a\"", "\"fresh\""];
const VAR: Sym = 0;
const LAM: Sym = 1;
const LET: Sym = 2;
const OLD: Sym = 3;
const NEW: Sym = 4;

fn is_string(term: &Term, name: Sym) -> bool {
    matches!(applied(term), Some((found, [])) if found == name)
}

fn rename(term: &Rc<Term>, old: Sym, new: Sym) -> Rc<Term> {
    match applied(term) {
        Some((VAR, [x])) if is_string(x, old) => app(VAR, [app(new, [])]),
        Some((LAM, [x, _])) if is_string(x, old) => term.clone(),
        // What a Let binds is bound in its second expression, and not in its first.
        Some((LET, [x, bound, scope])) if is_string(x, old) => {
            app(LET, [x.clone(), rename(bound, old, new), scope.clone()])
        }
        _ => all(term, |part| rename(part, old, new)),
    }
}

pub fn run(term: &Rc<Term>) -> Rc<Term> {
    rename(term, OLD, NEW)
}
