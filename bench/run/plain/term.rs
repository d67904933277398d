//! Terms, and the symbols in them.

use std::collections::HashMap;
use std::rc::Rc;

pub type Sym = u32;

/// Two terms are equal if they have the same parts; those that are one in memory are not compared.
#[derive(PartialEq, Eq)]
pub enum Term {
    Int(i64),
    App(Sym, Vec<Rc<Term>>),
    List(Vec<Rc<Term>>),
}

use Term::{App, Int, List};

/// The symbols, by their numbers. A string is a symbol with its quotes.
pub struct Symbols {
    names: Vec<Rc<str>>,
    numbers: HashMap<Rc<str>, Sym>,
}

impl Symbols {
    pub fn new() -> Symbols {
        Symbols { names: Vec::new(), numbers: HashMap::new() }
    }

    pub fn number(&mut self, name: &str) -> Sym {
        if let Some(number) = self.numbers.get(name) {
            return *number;
        }
        let name: Rc<str> = name.into();
        let number = self.names.len() as Sym;
        self.names.push(name.clone());
        self.numbers.insert(name, number);
        number
    }

    pub fn name(&self, number: Sym) -> &str {
        &self.names[number as usize]
    }
}

pub fn int(value: i64) -> Rc<Term> {
    Rc::new(Int(value))
}

pub fn app<const N: usize>(name: Sym, parts: [Rc<Term>; N]) -> Rc<Term> {
    Rc::new(App(name, parts.into()))
}

pub fn list(elements: Vec<Rc<Term>>) -> Rc<Term> {
    Rc::new(List(elements))
}

/// The number, where the term is an integer.
pub fn integer(term: &Term) -> Option<i64> {
    match term {
        Int(value) => Some(*value),
        _ => None,
    }
}

/// The elements, where the term is a list.
pub fn elements_of(term: &Term) -> Option<&[Rc<Term>]> {
    match term {
        List(elements) => Some(elements),
        _ => None,
    }
}

/// The symbol and the parts, where the term is an application.
pub fn applied(term: &Term) -> Option<(Sym, &[Rc<Term>])> {
    match term {
        App(name, parts) => Some((*name, parts)),
        _ => None,
    }
}

/// The parts of an application, or the elements of a list.
pub fn parts_of(term: &Term) -> &[Rc<Term>] {
    match term {
        Int(_) => &[],
        App(_, parts) | List(parts) => parts,
    }
}

/// The term with other parts.
pub fn with_parts(term: &Term, parts: Vec<Rc<Term>>) -> Rc<Term> {
    match term {
        Int(value) => int(*value),
        App(name, _) => Rc::new(App(*name, parts)),
        List(_) => Rc::new(List(parts)),
    }
}

/// The term after a change of each part; the same term where no part becomes another one.
pub fn all(term: &Rc<Term>, mut change: impl FnMut(&Rc<Term>) -> Rc<Term>) -> Rc<Term> {
    let old = parts_of(term);
    let mut new: Option<Vec<Rc<Term>>> = None;
    for (index, part) in old.iter().enumerate() {
        let changed = change(part);
        if let Some(parts) = &mut new {
            parts.push(changed);
        } else if !Rc::ptr_eq(&changed, part) {
            let mut parts = Vec::with_capacity(old.len());
            parts.extend_from_slice(&old[..index]);
            parts.push(changed);
            new = Some(parts);
        }
    }
    match new {
        Some(parts) => with_parts(term, parts),
        None => term.clone(),
    }
}

/// The term after a step at each place, innermost places first, until there is no step. What a step gives is gone through again as a whole.
pub fn innermost(term: &Rc<Term>, step: impl Fn(&Term) -> Option<Rc<Term>> + Copy) -> Rc<Term> {
    let term = all(term, |part| innermost(part, step));
    match step(&term) {
        Some(next) => innermost(&next, step),
        None => term,
    }
}

/// The term after a step at the first place, from the outside in, at which there is one.
pub fn once_topdown(term: &Rc<Term>, step: impl Fn(&Term) -> Option<Rc<Term>> + Copy) -> Option<Rc<Term>> {
    if let Some(next) = step(term) {
        return Some(next);
    }
    for (index, part) in parts_of(term).iter().enumerate() {
        if let Some(changed) = once_topdown(part, step) {
            let mut parts = parts_of(term).to_vec();
            parts[index] = changed;
            return Some(with_parts(term, parts));
        }
    }
    None
}

/// The list after a change of each element, if each of them can be changed.
pub fn map(term: &Term, change: impl Fn(&Rc<Term>) -> Option<Rc<Term>>) -> Option<Rc<Term>> {
    Some(list(elements_of(term)?.iter().map(change).collect::<Option<_>>()?))
}
