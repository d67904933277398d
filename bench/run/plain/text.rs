//! Term text without annotations and without escapes in quoted text.

use crate::term::{Symbols, Term};
use std::io::Write;
use std::rc::Rc;

struct Reader<'a> {
    text: &'a [u8],
    at: usize,
    symbols: &'a mut Symbols,
}

/// The term that a text spells, if it spells one.
pub fn read(text: &[u8], symbols: &mut Symbols) -> Option<Rc<Term>> {
    let mut reader = Reader { text, at: 0, symbols };
    let term = reader.term()?;
    reader.next().is_none().then_some(term)
}

fn in_name(byte: u8) -> bool {
    byte.is_ascii_alphanumeric() || b"_-+*$".contains(&byte)
}

impl<'a> Reader<'a> {
    /// The next byte that is no blank.
    fn next(&mut self) -> Option<u8> {
        while matches!(self.text.get(self.at), Some(b' ' | b'\t' | b'\n' | b'\r')) {
            self.at += 1;
        }
        self.text.get(self.at).copied()
    }

    /// What stands from here on, to this many bytes further.
    fn take(&mut self, length: usize) -> Option<&'a str> {
        let taken = str::from_utf8(self.text.get(self.at..self.at + length)?).ok()?;
        self.at += length;
        Some(taken)
    }

    /// The bytes from here on so long as they are of this kind.
    fn word(&mut self, is_in: impl Fn(u8) -> bool) -> Option<&'a str> {
        let rest = &self.text[self.at..];
        self.take(rest.iter().position(|byte| !is_in(*byte)).unwrap_or(rest.len()))
    }

    fn term(&mut self) -> Option<Rc<Term>> {
        let term = match self.next()? {
            b'[' => Term::List(self.parts(b']')?),
            b'(' => {
                let name = self.symbols.number("");
                Term::App(name, self.parts(b')')?)
            }
            b'-' | b'0'..=b'9' => {
                let digits = self.word(|byte| byte == b'-' || byte.is_ascii_digit())?;
                Term::Int(digits.parse().ok()?)
            }
            b'"' => {
                let length = self.text[self.at + 1..].iter().position(|byte| *byte == b'"')? + 2;
                let name = self.take(length)?;
                self.application(name)?
            }
            byte if byte.is_ascii_alphabetic() || byte == b'_' => {
                let name = self.word(in_name)?;
                self.application(name)?
            }
            _ => return None,
        };
        Some(Rc::new(term))
    }

    fn application(&mut self, name: &str) -> Option<Term> {
        let name = self.symbols.number(name);
        let parts = if self.next() == Some(b'(') { self.parts(b')')? } else { Vec::new() };
        Some(Term::App(name, parts))
    }

    /// The terms between brackets.
    fn parts(&mut self, end: u8) -> Option<Vec<Rc<Term>>> {
        let mut parts = Vec::new();
        self.at += 1;
        if self.next()? == end {
            self.at += 1;
            return Some(parts);
        }
        loop {
            parts.push(self.term()?);
            let byte = self.next()?;
            self.at += 1;
            if byte == end {
                return Some(parts);
            }
            if byte != b',' {
                return None;
            }
        }
    }
}

/// Appends the canonical text of the term.
pub fn write(term: &Term, symbols: &Symbols, out: &mut Vec<u8>) {
    match term {
        Term::Int(value) => write!(out, "{value}").expect("a vector takes all bytes"),
        Term::App(name, parts) => {
            let name = symbols.name(*name);
            out.extend_from_slice(name.as_bytes());
            if !parts.is_empty() || name.is_empty() {
                write_parts(b'(', parts, b')', symbols, out);
            }
        }
        Term::List(parts) => write_parts(b'[', parts, b']', symbols, out),
    }
}

fn write_parts(begin: u8, parts: &[Rc<Term>], end: u8, symbols: &Symbols, out: &mut Vec<u8>) {
    out.push(begin);
    for (index, part) in parts.iter().enumerate() {
        if index > 0 {
            out.push(b',');
        }
        write(part, symbols, out);
    }
    out.push(end);
}
