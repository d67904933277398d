//! Takes an expression to the instructions of a machine with a stack.

use crate::term::{Sym, Term, app, applied, list};
use std::rc::Rc;

pub const NAMES: &[&str] = &["Var", "Num", "Plus", "Minus", "Leq", "Geq", "Load", "Push", "Add", "Subtract", "Compare"];
const VAR: Sym = 0;
const NUM: Sym = 1;
const PLUS: Sym = 2;
const MINUS: Sym = 3;
const LEQ: Sym = 4;
const GEQ: Sym = 5;
const LOAD: Sym = 6;
const PUSH: Sym = 7;
const ADD: Sym = 8;
const SUBTRACT: Sym = 9;
const COMPARE: Sym = 10;

type Instructions = Vec<Rc<Term>>;

/// Appends the instructions for both expressions, and then this one.
fn operate(operation: Sym, one: &Term, other: &Term, made: &mut Instructions) -> Option<()> {
    code(one, made)?;
    code(other, made)?;
    made.push(app(operation, []));
    Some(())
}

/// Appends the instructions for the expression.
fn code(expression: &Term, made: &mut Instructions) -> Option<()> {
    match applied(expression)? {
        (VAR, [x]) => made.push(app(LOAD, [x.clone()])),
        (NUM, [n]) => made.push(app(PUSH, [n.clone()])),
        (PLUS, [a, b]) => operate(ADD, a, b, made)?,
        (MINUS, [a, b]) => operate(SUBTRACT, a, b, made)?,
        (LEQ, [a, b]) => operate(COMPARE, a, b, made)?,
        (GEQ, [a, b]) => operate(COMPARE, b, a, made)?,
        _ => return None,
    }
    Some(())
}

pub fn run(term: &Rc<Term>) -> Option<Rc<Term>> {
    let mut made = Vec::new();
    code(term, &mut made)?;
    Some(list(made))
}
