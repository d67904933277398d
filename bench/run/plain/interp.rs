//! Runs a program in a small imperative language.

use crate::term::{Sym, Term, app, applied, elements_of, int, integer, list};
use std::rc::Rc;

pub const NAMES: &[&str] = &["", "Num", "Var", "Add", "Sub", "Mod", "Less", "Assign", "Seq", "If", "While"];
const TUPLE: Sym = 0;
const NUM: Sym = 1;
const VAR: Sym = 2;
const ADD: Sym = 3;
const SUB: Sym = 4;
const MOD: Sym = 5;
const LESS: Sym = 6;
const ASSIGN: Sym = 7;
const SEQ: Sym = 8;
const IF: Sym = 9;
const WHILE: Sym = 10;

/// The variables, which are strings, and their values.
struct Memory(Vec<(Sym, i64)>);

impl Memory {
    fn get(&self, variable: Sym) -> Option<i64> {
        Some(self.0.iter().find(|(known, _)| *known == variable)?.1)
    }

    fn set(&mut self, variable: Sym, value: i64) {
        match self.0.iter_mut().find(|(known, _)| *known == variable) {
            Some(entry) => entry.1 = value,
            None => self.0.push((variable, value)),
        }
    }
}

/// The value of an expression, if each variable in it has one.
fn value(expression: &Term, memory: &Memory) -> Option<i64> {
    match applied(expression)? {
        (NUM, [number]) => integer(number),
        (VAR, [variable]) => memory.get(applied(variable)?.0),
        (ADD, [a, b]) => value(a, memory)?.checked_add(value(b, memory)?),
        (SUB, [a, b]) => value(a, memory)?.checked_sub(value(b, memory)?),
        (MOD, [a, b]) => value(a, memory)?.checked_rem(value(b, memory)?),
        _ => None,
    }
}

fn holds(condition: &Term, memory: &Memory) -> bool {
    match applied(condition) {
        Some((LESS, [a, b])) => match (value(a, memory), value(b, memory)) {
            (Some(one), Some(other)) => one < other,
            _ => false,
        },
        _ => false,
    }
}

fn execute(statement: &Term, memory: &mut Memory) -> Option<()> {
    match applied(statement)? {
        (ASSIGN, [variable, expression]) => memory.set(applied(variable)?.0, value(expression, memory)?),
        (SEQ, [statements]) => {
            for statement in elements_of(statements)? {
                execute(statement, memory)?;
            }
        }
        (IF, [condition, one, other]) => execute(if holds(condition, memory) { one } else { other }, memory)?,
        (WHILE, [condition, body]) => {
            while holds(condition, memory) {
                execute(body, memory)?;
            }
        }
        _ => return None,
    }
    Some(())
}

pub fn run(term: &Rc<Term>) -> Option<Rc<Term>> {
    let (TUPLE, [program, given]) = applied(term)? else {
        return None;
    };
    if !elements_of(given)?.is_empty() {
        return None;
    }
    let mut memory = Memory(Vec::new());
    execute(program, &mut memory)?;
    let pairs = memory.0.into_iter().map(|(variable, value)| app(TUPLE, [app(variable, []), int(value)]));
    Some(list(pairs.collect()))
}
