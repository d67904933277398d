//! Terms as shared nodes, with the fields that term_model's have.
use std::rc::Rc;

pub const MAX_WEIGHT: u32 = 16_777_216;
pub const MAX_DEPTH: u32 = 1000;

/// A name of at most 14 bytes stands in place, others are shared.
#[derive(Clone, PartialEq, Eq)]
pub enum Symbol {
    Short(u8, [u8; 14]),
    Long(Rc<[u8]>),
}

impl Symbol {
    pub fn named(name: &[u8]) -> Symbol {
        if name.len() > 14 {
            return Symbol::Long(name.into());
        }
        let mut bytes = [0; 14];
        bytes[..name.len()].copy_from_slice(name);
        Symbol::Short(name.len() as u8, bytes)
    }

    pub fn bytes(&self) -> &[u8] {
        match self {
            Symbol::Short(length, bytes) => &bytes[..*length as usize],
            Symbol::Long(bytes) => bytes,
        }
    }
}

#[derive(Clone)]
pub enum TermHead {
    Int(i64),
    App(Symbol),
    List,
}

pub struct Term {
    pub head: TermHead,
    pub parts: Vec<Rc<Term>>,
    pub annos: Option<Rc<Vec<Rc<Term>>>>,
    pub weight: u32,
    pub depth: u32,
}

impl Term {
    pub fn int(value: i64) -> Rc<Term> {
        Rc::new(Term { head: TermHead::Int(value), parts: Vec::new(), annos: None, weight: 1, depth: 1 })
    }

    pub fn app(symbol: Symbol, parts: Vec<Rc<Term>>) -> Option<Rc<Term>> {
        Term::new(TermHead::App(symbol), parts, Vec::new())
    }

    pub fn annos(&self) -> &[Rc<Term>] {
        self.annos.as_ref().map_or(&[], |annos| annos)
    }

    /// The term, where it fits.
    pub fn new(head: TermHead, parts: Vec<Rc<Term>>, annos: Vec<Rc<Term>>) -> Option<Rc<Term>> {
        let (mut weight, mut depth) = (1, 0);
        if let TermHead::App(symbol) = &head {
            weight += symbol.bytes().len().min(MAX_WEIGHT as usize) as u32;
        }
        for part in parts.iter().chain(&annos) {
            weight += part.weight;
            depth = depth.max(part.depth);
            if weight > MAX_WEIGHT {
                return None;
            }
        }
        if weight > MAX_WEIGHT || depth >= MAX_DEPTH {
            return None;
        }
        let annos = (!annos.is_empty()).then(|| Rc::new(annos));
        Some(Rc::new(Term { head, parts, annos, weight, depth: depth + 1 }))
    }
}
