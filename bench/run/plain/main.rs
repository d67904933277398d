//! The programs of bench/run in plain Rust: `plain PROGRAM TERM` prints the canonical text of what becomes of the term in the file TERM, or
//! `#failed` with status 1.

mod backtrack;
mod bool_dnf;
mod bool_oncetd;
mod codegen;
mod desugar;
mod dispatch;
mod interp;
mod r#loop;
mod map;
mod maplist;
mod normal;
mod peano;
mod peano_fib;
mod queens;
mod rbacktrack;
mod rdispatch;
mod rename;
mod sharing;
mod simplify;
mod term;
mod text;

use std::env;
use std::fs;
use std::io::{self, Write};
use std::process::ExitCode;
use std::rc::Rc;
use term::{Symbols, Term};

/// The symbols that a program knows, which get the first numbers.
fn names_of(program: &str) -> Vec<String> {
    let names = match program {
        "peano_fib" => peano_fib::NAMES,
        "peano" => peano::NAMES,
        "simplify" => simplify::NAMES,
        "rename" => rename::NAMES,
        "bool_dnf" => bool_dnf::NAMES,
        "bool_oncetd" => bool_oncetd::NAMES,
        "normal" => normal::NAMES,
        "desugar" => desugar::NAMES,
        "backtrack" => backtrack::NAMES,
        "rbacktrack" => rbacktrack::NAMES,
        "sharing" => sharing::NAMES,
        "codegen" => codegen::NAMES,
        "interp" => interp::NAMES,
        "loop" => r#loop::NAMES,
        "maplist" => maplist::NAMES,
        "dispatch" | "rdispatch" => return dispatch::names(),
        _ => &[],
    };
    names.iter().map(|name| name.to_string()).collect()
}

fn run(program: &str, term: &Rc<Term>) -> Option<Rc<Term>> {
    match program {
        "peano_fib" => Some(peano_fib::run(term)),
        "peano" => peano::run(term),
        "simplify" => Some(simplify::run(term)),
        "rename" => Some(rename::run(term)),
        "bool_dnf" => Some(bool_dnf::run(term)),
        "bool_oncetd" => Some(bool_oncetd::run(term)),
        "normal" => Some(normal::run(term)),
        "desugar" => Some(desugar::run(term)),
        "dispatch" => dispatch::run(term),
        "rdispatch" => rdispatch::run(term),
        "backtrack" => backtrack::run(term),
        "rbacktrack" => rbacktrack::run(term),
        "queens" => queens::run(term),
        "sharing" => sharing::run(term),
        "codegen" => codegen::run(term),
        "interp" => interp::run(term),
        "loop" => Some(r#loop::run(term)),
        "maplist" => maplist::run(term),
        "map" => map::run(term),
        _ => None,
    }
}

fn main() -> io::Result<ExitCode> {
    let words: Vec<String> = env::args().collect();
    let [_, program, path] = &words[..] else {
        return Ok(ExitCode::from(2));
    };
    let mut symbols = Symbols::new();
    for name in names_of(program) {
        symbols.number(&name);
    }
    let Some(term) = text::read(&fs::read(path)?, &mut symbols) else {
        return Ok(ExitCode::from(2));
    };
    let mut out = Vec::new();
    let status = match run(program, &term) {
        Some(made) => {
            text::write(&made, &symbols, &mut out);
            ExitCode::SUCCESS
        }
        None => {
            out.extend_from_slice(b"#failed");
            ExitCode::from(1)
        }
    };
    out.push(b'\n');
    io::stdout().write_all(&out)?;
    Ok(status)
}
