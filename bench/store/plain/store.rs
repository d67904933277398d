//! The store: shapes, chains and symbols, each held once, with sizes beside them.
use crate::table::{Key, Mixer, Table};
use crate::term::{MAX_DEPTH, MAX_WEIGHT, Symbol, Term, TermHead};
use std::rc::Rc;

#[derive(Clone, Copy, PartialEq, Eq)]
pub enum Front {
    Zero,
    One(u32),
    Two(u32, u32),
    Three(u32, u32, u32),
}

impl Front {
    fn len(self) -> usize {
        match self {
            Front::Zero => 0,
            Front::One(_) => 1,
            Front::Two(..) => 2,
            Front::Three(..) => 3,
        }
    }

    fn push_on(self, stack: &mut Vec<u32>) {
        match self {
            Front::Zero => {}
            Front::One(a) => stack.push(a),
            Front::Two(a, b) => stack.extend([a, b]),
            Front::Three(a, b, c) => stack.extend([a, b, c]),
        }
    }

    fn without(self, count: usize) -> Front {
        match (self, count) {
            (front, 0) => front,
            (Front::Two(_, b), 1) => Front::One(b),
            (Front::Three(_, b, c), 1) => Front::Two(b, c),
            (Front::Three(_, _, c), 2) => Front::One(c),
            _ => Front::Zero,
        }
    }
}

/// At most three places before a chain.
#[derive(Clone, Copy, PartialEq, Eq)]
pub struct Block {
    front: Front,
    rest: u32,
}

const EMPTY: Block = Block { front: Front::Zero, rest: 0 };

#[derive(Clone, Copy)]
pub enum Head {
    Int(i64),
    Symbol(u32),
    List,
}

/// An integer stands where others have their parts, so that a shape takes 32 bytes.
#[derive(Clone, Copy, PartialEq, Eq)]
pub enum Shape {
    Int { annos: u32, value: i64 },
    Applied { annos: u32, parts: Block, number: u32 },
    List { annos: u32, parts: Block },
}

impl Shape {
    fn new(head: Head, parts: Block, annos: u32) -> Shape {
        match head {
            Head::Int(value) => Shape::Int { annos, value },
            Head::Symbol(number) => Shape::Applied { annos, parts, number },
            Head::List => Shape::List { annos, parts },
        }
    }

    fn head(&self) -> Head {
        match *self {
            Shape::Int { value, .. } => Head::Int(value),
            Shape::Applied { number, .. } => Head::Symbol(number),
            Shape::List { .. } => Head::List,
        }
    }

    fn parts(&self) -> Block {
        match *self {
            Shape::Int { .. } => EMPTY,
            Shape::Applied { parts, .. } | Shape::List { parts, .. } => parts,
        }
    }

    fn is_small_integer(&self) -> bool {
        matches!(*self, Shape::Int { annos: 0, value } if (-1_073_741_824..1_073_741_824).contains(&value))
    }

    fn annos(&self) -> u32 {
        match *self {
            Shape::Int { annos, .. } | Shape::Applied { annos, .. } | Shape::List { annos, .. } => annos,
        }
    }
}

fn joined(high: u32, low: u32) -> u64 {
    (high as u64) << 32 | low as u64
}

impl Key for Block {
    fn mix(&self, mixer: &mut Mixer) {
        match self.front {
            Front::Zero => mixer.add(0),
            Front::One(a) => mixer.add(joined(1, a)),
            Front::Two(a, b) => mixer.add(joined(a, b)),
            Front::Three(a, b, c) => {
                mixer.add(joined(a, b));
                mixer.add(joined(3, c));
            }
        }
        if self.rest != 0 {
            mixer.add(self.rest as u64);
        }
    }
}

impl Key for Shape {
    fn mix(&self, mixer: &mut Mixer) {
        match *self {
            Shape::Int { annos, value } => {
                mixer.add(value as u64);
                if annos != 0 {
                    mixer.add(annos as u64);
                }
            }
            Shape::Applied { annos, parts, number } => {
                mixer.add(joined(number, annos));
                parts.mix(mixer);
            }
            Shape::List { annos, parts } => {
                mixer.add(annos as u64);
                parts.mix(mixer);
            }
        }
    }
}

impl Key for Symbol {
    fn mix(&self, mixer: &mut Mixer) {
        let bytes = self.bytes();
        mixer.add(bytes.len() as u64);
        for word in bytes.chunks(8) {
            let mut padded = [0; 8];
            padded[..word.len()].copy_from_slice(word);
            mixer.add(u64::from_le_bytes(padded));
        }
    }
}

/// The weight and depth of a term, and how many chains and symbols there were when its shape came.
#[derive(Clone, Copy)]
#[allow(dead_code)]
struct Extent {
    weight: u32,
    depth: u32,
    chains: u32,
    symbols: u32,
}

/// The weight and depth of a chain's terms together, and how many they are.
#[derive(Clone, Copy, Default)]
struct Span {
    weight: u32,
    depth: u32,
    length: u32,
}

#[derive(Default)]
pub struct Store {
    symbols: Table<Symbol>,
    chains: Table<Block>,
    shapes: Table<Shape>,
    extents: Vec<Extent>,
    spans: Vec<Span>,
}

impl Store {
    /// How many shapes there are, without those of small integers, which the other store does not hold.
    pub fn len(&self) -> usize {
        self.shapes.keys.iter().filter(|shape| !shape.is_small_integer()).count()
    }

    pub fn name(&mut self, symbol: &Symbol) -> u32 {
        self.symbols.insert(symbol.clone()).0
    }

    fn span(&self, chain: u32) -> Span {
        if chain == 0 { Span::default() } else { self.spans[chain as usize - 1] }
    }

    fn size_in(&self, block: Block) -> (u32, u32) {
        let span = self.span(block.rest);
        let with = |size: (u32, u32), place: u32| {
            let extent = self.extents[place as usize];
            (size.0 + extent.weight, size.1.max(extent.depth))
        };
        let size = (span.weight, span.depth);
        match block.front {
            Front::Zero => size,
            Front::One(a) => with(size, a),
            Front::Two(a, b) => with(with(size, a), b),
            Front::Three(a, b, c) => with(with(with(size, a), b), c),
        }
    }

    fn len_in(&self, block: Block) -> usize {
        block.front.len() + self.span(block.rest).length as usize
    }

    /// The place of the shape, where its term fits.
    fn intern(&mut self, shape: Shape) -> Option<u32> {
        let symbol = match shape {
            Shape::Applied { number, .. } => self.symbols.keys[number as usize].bytes().len().min(MAX_WEIGHT as usize) as u32,
            _ => 0,
        };
        let parts = self.size_in(shape.parts());
        let annos = self.span(shape.annos());
        let weight = 1 + symbol + parts.0 + annos.weight;
        let depth = 1 + parts.1.max(annos.depth);
        if weight > MAX_WEIGHT || depth > MAX_DEPTH {
            return None;
        }
        let (at, added) = self.shapes.insert(shape);
        if added {
            let (chains, symbols) = (self.chains.keys.len() as u32, self.symbols.keys.len() as u32);
            self.extents.push(Extent { weight, depth, chains, symbols });
        }
        Some(at)
    }

    fn link(&mut self, block: Block) -> Option<u32> {
        let (weight, depth) = self.size_in(block);
        if weight > MAX_WEIGHT {
            return None;
        }
        let length = self.len_in(block) as u32;
        let (at, added) = self.chains.insert(block);
        if added {
            self.spans.push(Span { weight, depth, length });
        }
        Some(at + 1)
    }

    fn before(&mut self, places: &[u32], mut block: Block) -> Option<Block> {
        for &place in places.iter().rev() {
            block.front = match block.front {
                Front::Zero => Front::One(place),
                Front::One(a) => Front::Two(place, a),
                Front::Two(a, b) => Front::Three(place, a, b),
                Front::Three(..) => {
                    block.rest = self.link(block)?;
                    Front::One(place)
                }
            };
        }
        Some(block)
    }

    fn make_over(&mut self, head: Head, parts: &[u32], annos: &[u32]) -> Option<u32> {
        let parts = self.before(parts, EMPTY)?;
        let annos = if annos.is_empty() {
            0
        } else {
            let block = self.before(annos, EMPTY)?;
            self.link(block)?
        };
        self.intern(Shape::new(head, parts, annos))
    }

    pub fn make(&mut self, head: Head, parts: &[u32]) -> Option<u32> {
        self.make_over(head, parts, &[])
    }

    pub fn count(&self, at: u32) -> usize {
        self.len_in(self.shapes.keys[at as usize].parts())
    }

    pub fn list_len(&self, at: u32) -> Option<usize> {
        match self.shapes.keys[at as usize] {
            Shape::List { parts, .. } => Some(self.len_in(parts)),
            _ => None,
        }
    }

    pub fn rest(&mut self, at: u32, count: usize) -> u32 {
        let (mut block, mut left) = (self.shapes.keys[at as usize].parts(), count);
        while block.rest != 0 && left >= block.front.len() {
            left -= block.front.len();
            block = self.chains.keys[block.rest as usize - 1];
        }
        let parts = Block { front: block.front.without(left), rest: block.rest };
        self.intern(Shape::List { annos: 0, parts }).unwrap()
    }

    pub fn prepend(&mut self, elements: &[u32], tail: u32) -> Option<u32> {
        let parts = self.before(elements, self.shapes.keys[tail as usize].parts())?;
        self.intern(Shape::List { annos: 0, parts })
    }

    /// The place of a term that is brought in.
    pub fn enter(&mut self, term: &Term) -> Option<u32> {
        self.enter_term(term, &mut Vec::new())
    }

    fn enter_term(&mut self, term: &Term, stack: &mut Vec<u32>) -> Option<u32> {
        let bottom = stack.len();
        self.enter_all(&term.parts, stack)?;
        let middle = stack.len();
        self.enter_all(term.annos(), stack)?;
        let head = match &term.head {
            TermHead::Int(value) => Head::Int(*value),
            TermHead::App(symbol) => Head::Symbol(self.name(symbol)),
            TermHead::List => Head::List,
        };
        let made = self.make_over(head, &stack[bottom..middle], &stack[middle..]);
        stack.truncate(bottom);
        made
    }

    fn enter_all(&mut self, terms: &[Rc<Term>], stack: &mut Vec<u32>) -> Option<()> {
        for term in terms {
            let place = self.enter_term(term, stack)?;
            stack.push(place);
        }
        Some(())
    }

    /// The term at a place. Terms that are one in the store are one outside it.
    pub fn leave(&self, at: u32) -> Rc<Term> {
        let mut terms = vec![None; at as usize + 1];
        self.leave_term(at, &mut terms, &mut Vec::new())
    }

    fn leave_term(&self, at: u32, terms: &mut [Option<Rc<Term>>], stack: &mut Vec<u32>) -> Rc<Term> {
        if let Some(term) = &terms[at as usize] {
            return term.clone();
        }
        let shape = self.shapes.keys[at as usize];
        let parts = self.leave_block(shape.parts(), terms, stack);
        let annos = match shape.annos() {
            0 => Vec::new(),
            chain => self.leave_block(self.chains.keys[chain as usize - 1], terms, stack),
        };
        let head = match shape.head() {
            Head::Int(value) => TermHead::Int(value),
            Head::Symbol(number) => TermHead::App(self.symbols.keys[number as usize].clone()),
            Head::List => TermHead::List,
        };
        let term = Term::new(head, parts, annos).unwrap();
        terms[at as usize] = Some(term.clone());
        term
    }

    fn leave_block(&self, block: Block, terms: &mut [Option<Rc<Term>>], stack: &mut Vec<u32>) -> Vec<Rc<Term>> {
        let bottom = stack.len();
        block.front.push_on(stack);
        let mut rest = block.rest;
        while rest != 0 {
            let next = self.chains.keys[rest as usize - 1];
            next.front.push_on(stack);
            rest = next.rest;
        }
        let end = stack.len();
        let mut made = Vec::with_capacity(end - bottom);
        for index in bottom..end {
            let place = stack[index];
            made.push(self.leave_term(place, terms, stack));
        }
        stack.truncate(bottom);
        made
    }
}
