//! The plain program that `front_bench` is measured against: it reads a definition file from
//! standard input and writes to standard output how many tokens and sections it has, with the same
//! refusals, and tells on standard error how many nanoseconds lexing and parsing took.
mod lexer;
mod parser;
mod strategies;
#[allow(dead_code)]
mod tree;

use std::hint::black_box;
use std::io::Read;
use std::time::Instant;

#[derive(Debug)]
pub enum Refusal {
    Read,
    Lexical { at: usize },
    ReservedWord { at: usize },
    Syntax { at: usize },
    Nesting { at: usize },
}

fn main() -> Result<(), Refusal> {
    let mut text = Vec::new();
    std::io::stdin().read_to_end(&mut text).map_err(|_| Refusal::Read)?;
    let start = Instant::now();
    let tokens = lexer::lex(&text)?;
    let lexing = start.elapsed().as_nanos();
    let start = Instant::now();
    let file = black_box(parser::parse(&tokens, text.len())?);
    let parsing = start.elapsed().as_nanos();
    println!("{} tokens, {} sections", tokens.len(), file.sections.len());
    eprintln!("{lexing} {parsing}");
    Ok(())
}
