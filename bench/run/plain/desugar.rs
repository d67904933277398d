//! Reduces statements to a core language, the parts first.

use crate::term::{Sym, Term, all, app, applied, int};
use std::rc::Rc;

pub const NAMES: &[&str] = &[
    "Skip", "Set", "Seq", "If", "While", "When", "Unless", "Until", "For", "Both", "Add", "Sub", "Inc", "Swap", "Var",
    "Num", "Not", "Plus", "Minus", "Leq", "Geq", "\"t\"",
];
const SKIP: Sym = 0;
const SET: Sym = 1;
const SEQ: Sym = 2;
const IF: Sym = 3;
const WHILE: Sym = 4;
const WHEN: Sym = 5;
const UNLESS: Sym = 6;
const UNTIL: Sym = 7;
const FOR: Sym = 8;
const BOTH: Sym = 9;
const ADD: Sym = 10;
const SUB: Sym = 11;
const INC: Sym = 12;
const SWAP: Sym = 13;
const VAR: Sym = 14;
const NUM: Sym = 15;
const NOT: Sym = 16;
const PLUS: Sym = 17;
const MINUS: Sym = 18;
const LEQ: Sym = 19;
const GEQ: Sym = 20;
const TEMPORARY: Sym = 21;

fn set(x: &Rc<Term>, value: Rc<Term>) -> Rc<Term> {
    app(SET, [x.clone(), value])
}

fn seq(one: Rc<Term>, other: Rc<Term>) -> Rc<Term> {
    app(SEQ, [one, other])
}

fn var(x: &Rc<Term>) -> Rc<Term> {
    app(VAR, [x.clone()])
}

fn incremented(x: &Rc<Term>) -> Rc<Term> {
    set(x, app(PLUS, [var(x), app(NUM, [int(1)])]))
}

fn desugar(term: &Term) -> Option<Rc<Term>> {
    let (name, parts) = applied(term)?;
    Some(match (name, parts) {
        (WHEN, [c, s]) => app(IF, [c.clone(), s.clone(), app(SKIP, [])]),
        (UNLESS, [c, s]) => app(IF, [app(NOT, [c.clone()]), s.clone(), app(SKIP, [])]),
        (UNTIL, [c, s]) => app(WHILE, [app(NOT, [c.clone()]), s.clone()]),
        (FOR, [x, a, b, s]) => {
            let body = seq(s.clone(), incremented(x));
            seq(set(x, a.clone()), app(WHILE, [app(LEQ, [var(x), b.clone()]), body]))
        }
        (BOTH, [r, s, t]) => seq(r.clone(), seq(s.clone(), t.clone())),
        (ADD, [x, e]) => set(x, app(PLUS, [var(x), e.clone()])),
        (SUB, [x, e]) => set(x, app(MINUS, [var(x), e.clone()])),
        (INC, [x]) => incremented(x),
        (SWAP, [x, y]) => {
            let temporary = app(TEMPORARY, []);
            seq(set(&temporary, var(x)), seq(set(x, var(y)), set(y, var(&temporary))))
        }
        (GEQ, [a, b]) => app(LEQ, [b.clone(), a.clone()]),
        _ => return None,
    })
}

pub fn run(term: &Rc<Term>) -> Rc<Term> {
    let term = all(term, run);
    desugar(&term).unwrap_or(term)
}
