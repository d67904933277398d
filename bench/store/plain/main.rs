//! Makes terms in a plain store: the layout and the jobs of the crate store_bench.

mod nodes;
mod store;
mod table;
mod term;

use nodes::{Node, random_nodes};
use std::io::Read;
use std::rc::Rc;
use std::time::Instant;
use store::{Head, Store};
use term::{Symbol, Term};

fn tell(task: &str, start: Instant) {
    eprintln!("{task} {}", start.elapsed().as_nanos());
}

fn tree_of(symbol: &Symbol, nodes: &[Node]) -> Option<Rc<Term>> {
    let mut stack: Vec<Rc<Term>> = Vec::new();
    for node in nodes {
        if node.count == 0 {
            stack.push(Term::int(node.value));
            continue;
        }
        let parts = stack.split_off(stack.len() - node.count);
        stack.push(Term::app(symbol.clone(), parts)?);
    }
    stack.pop()
}

fn make_all(store: &mut Store, symbol: &Symbol, nodes: &[Node]) {
    let name = store.name(symbol);
    let mut stack = Vec::new();
    for node in nodes {
        if node.count == 0 {
            stack.extend(store.make(Head::Int(node.value), &[]));
            continue;
        }
        let from = stack.len() - node.count;
        let made = store.make(Head::Symbol(name), &stack[from..]);
        stack.truncate(from);
        stack.extend(made);
    }
}

fn make(size: u32, times: u32) -> usize {
    let nodes = random_nodes(size);
    let symbol = Symbol::named(b"F");
    let mut store = Store::default();
    for index in 0..times {
        let start = Instant::now();
        make_all(&mut store, &symbol, &nodes);
        tell(if index == 0 { "make" } else { "again" }, start);
    }
    store.len()
}

fn tree(size: u32, times: u32) -> usize {
    let nodes = random_nodes(size);
    let symbol = Symbol::named(b"F");
    let Some(term) = tree_of(&symbol, &nodes) else {
        return 0;
    };
    let mut store = Store::default();
    let start = Instant::now();
    let root = store.enter(&term).unwrap();
    tell("enter", start);
    let start = Instant::now();
    let left = store.leave(root);
    tell("leave", start);
    println!("weight {}, depth {}", left.weight, left.depth);
    for _ in 0..times {
        let start = Instant::now();
        make_all(&mut store, &symbol, &nodes);
        tell("again", start);
    }
    store.len()
}

fn taken_apart(store: &mut Store, list: u32) -> usize {
    let mut tail = list;
    let count = store.count(tail);
    for index in 0..count {
        match store.list_len(tail) {
            Some(long) if long > 0 => tail = store.rest(tail, 1),
            _ => return index,
        }
    }
    count
}

fn built(store: &mut Store, size: u32) -> usize {
    let mut list = store.make(Head::List, &[]).unwrap();
    for value in 0..size {
        let first = store.make(Head::Int(value as i64), &[]).unwrap();
        if store.list_len(list).is_none() {
            break;
        }
        let Some(longer) = store.prepend(&[first], list) else {
            break;
        };
        list = longer;
    }
    store.count(list)
}

fn list(size: u32, times: u32) -> usize {
    let mut count = 0;
    for _ in 0..times {
        let mut store = Store::default();
        let elements: Vec<u32> = (0..size).map(|value| store.make(Head::Int(value as i64), &[]).unwrap()).collect();
        let numbers = store.make(Head::List, &elements).unwrap();
        let start = Instant::now();
        let tails = taken_apart(&mut store, numbers);
        tell("apart", start);
        let start = Instant::now();
        let elements = built(&mut store, size);
        tell("front", start);
        println!("{tails} tails, {elements} elements");
        count = store.len();
    }
    count
}

fn main() {
    let mut line = String::new();
    std::io::stdin().read_to_string(&mut line).unwrap();
    let words: Vec<&str> = line.split_whitespace().collect();
    let (size, times) = (words[1].parse().unwrap(), words[2].parse().unwrap());
    let count = match words[0] {
        "make" => make(size, times),
        "tree" => tree(size, times),
        _ => list(size, times),
    };
    println!("{count} shapes");
}
