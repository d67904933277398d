//! The plain program that `text_bench` is measured against: it reads the text of a term from
//! standard input and writes its canonical text to standard output, with the same checks, and tells
//! on standard error how many nanoseconds the term's reading and its writing took.
use std::io::{Read, Write};
use std::process::ExitCode;
use std::rc::Rc;
use std::time::Instant;

const MAX_WEIGHT: u64 = 16_777_216;
const MAX_DEPTH: u32 = 1000;

enum Fault {
    Read,
    Write,
    Syntax { at: usize },
    Oversize { at: usize },
}

enum Head {
    Int(i64),
    Plain(Rc<[u8]>),
    Quoted(Rc<[u8]>),
    Tuple,
    List,
}

#[derive(Clone)]
struct Term(Rc<Node>);

struct Node {
    head: Head,
    parts: Vec<Term>,
    annos: Vec<Term>,
    weight: u32,
    depth: u32,
}

/// The term of these three, or nothing where it does not fit.
fn make(head: Head, parts: Vec<Term>, annos: Vec<Term>) -> Option<Term> {
    let bytes = match &head {
        Head::Plain(name) | Head::Quoted(name) => name.len() as u64,
        Head::Int(_) | Head::Tuple | Head::List => 0,
    };
    let mut weight = 1 + bytes;
    let mut depth = 0;
    for term in parts.iter().chain(&annos) {
        weight += u64::from(term.0.weight);
        depth = depth.max(term.0.depth);
    }
    if weight > MAX_WEIGHT || depth >= MAX_DEPTH {
        return None;
    }
    Some(Term(Rc::new(Node {
        head,
        parts,
        annos,
        weight: weight as u32,
        depth: depth + 1,
    })))
}

fn begins(byte: u8) -> bool {
    byte.is_ascii_alphabetic() || byte == b'_'
}

fn continues(byte: u8) -> bool {
    byte.is_ascii_alphanumeric() || matches!(byte, b'_' | b'-' | b'+' | b'*' | b'$')
}

/// A reader that goes down the text. A term that does not fit is `None`, and reading goes on.
struct Reader<'a> {
    text: &'a [u8],
    at: usize,
    depth: u32,
}

type Terms = Option<Vec<Term>>;

impl Reader<'_> {
    fn peek(&self) -> Option<u8> {
        self.text.get(self.at).copied()
    }

    fn fault<T>(&self) -> Result<T, Fault> {
        Err(Fault::Syntax { at: self.at })
    }

    fn skip_blanks(&mut self) {
        while let Some(b' ' | b'\t' | b'\n' | b'\r') = self.peek() {
            self.at += 1;
        }
    }

    fn text(&mut self) -> Result<Term, Fault> {
        self.skip_blanks();
        let term = self.term()?;
        if self.at < self.text.len() {
            return self.fault();
        }
        term.ok_or(Fault::Oversize { at: self.at })
    }

    /// A term and the blanks behind it.
    fn term(&mut self) -> Result<Option<Term>, Fault> {
        let Some(byte) = self.peek() else {
            return self.fault();
        };
        let is_first = begins(byte) || matches!(byte, b'0'..=b'9' | b'-' | b'"' | b'(' | b'[');
        if !is_first {
            return self.fault();
        }
        if self.depth == MAX_DEPTH {
            return Err(Fault::Oversize { at: self.at });
        }
        self.depth += 1;
        let (head, parts) = self.core(byte)?;
        let annos = if self.peek() == Some(b'{') {
            self.between(b'}')?
        } else {
            Some(Vec::new())
        };
        self.depth -= 1;
        Ok(match (parts, annos) {
            (Some(parts), Some(annos)) => make(head, parts, annos),
            _ => None,
        })
    }

    fn core(&mut self, byte: u8) -> Result<(Head, Terms), Fault> {
        match byte {
            b'0'..=b'9' | b'-' => Ok((self.integer(byte == b'-')?, Some(Vec::new()))),
            b'(' => Ok((Head::Tuple, self.between(b')')?)),
            b'[' => Ok((Head::List, self.between(b']')?)),
            b'"' => {
                let head = Head::Quoted(self.quoted()?);
                Ok((head, self.applied()?))
            }
            _ => {
                let from = self.at;
                while self.peek().is_some_and(continues) {
                    self.at += 1;
                }
                let head = Head::Plain(Rc::from(&self.text[from..self.at]));
                Ok((head, self.applied()?))
            }
        }
    }

    /// The blanks behind a symbol, and what it is applied to.
    fn applied(&mut self) -> Result<Terms, Fault> {
        self.skip_blanks();
        if self.peek() == Some(b'(') {
            self.between(b')')
        } else {
            Ok(Some(Vec::new()))
        }
    }

    /// The terms between brackets, of which the first is next, and the blanks behind them.
    fn between(&mut self, right: u8) -> Result<Terms, Fault> {
        self.at += 1;
        self.skip_blanks();
        let mut terms = Some(Vec::new());
        if self.peek() != Some(right) {
            loop {
                match (self.term()?, &mut terms) {
                    (Some(term), Some(terms)) => terms.push(term),
                    _ => terms = None,
                }
                match self.peek() {
                    Some(b',') => self.at += 1,
                    Some(byte) if byte == right => break,
                    _ => return self.fault(),
                }
                self.skip_blanks();
            }
        }
        self.at += 1;
        self.skip_blanks();
        Ok(terms)
    }

    fn integer(&mut self, negative: bool) -> Result<Head, Fault> {
        if negative {
            self.at += 1;
        }
        let most: i128 = if negative { 1 << 63 } else { (1 << 63) - 1 };
        let from = self.at;
        let mut value = 0;
        while let Some(byte @ b'0'..=b'9') = self.peek() {
            value = 10 * value + i128::from(byte - b'0');
            if value > most {
                return self.fault();
            }
            self.at += 1;
        }
        if self.at == from {
            return self.fault();
        }
        self.skip_blanks();
        Ok(Head::Int(if negative { -value } else { value } as i64))
    }

    /// The bytes of quoted text, whose opening quote is next.
    fn quoted(&mut self) -> Result<Rc<[u8]>, Fault> {
        self.at += 1;
        let mut copied = Vec::new();
        loop {
            let from = self.at;
            while self.peek().is_some_and(|byte| !matches!(byte, b'"' | b'\\' | b'\n')) {
                self.at += 1;
            }
            let raw = &self.text[from..self.at];
            match self.peek() {
                Some(b'"') => {
                    self.at += 1;
                    if copied.is_empty() {
                        return Ok(Rc::from(raw));
                    }
                    copied.extend_from_slice(raw);
                    return Ok(Rc::from(copied));
                }
                Some(b'\\') => {
                    copied.extend_from_slice(raw);
                    self.at += 1;
                    copied.push(self.escape()?);
                }
                _ => return self.fault(),
            }
        }
    }

    /// What stands behind a backslash.
    fn escape(&mut self) -> Result<u8, Fault> {
        let meant = match self.peek() {
            Some(byte @ (b'"' | b'\\')) => byte,
            Some(b'n') => b'\n',
            Some(b't') => b'\t',
            Some(b'r') => b'\r',
            Some(b'0'..=b'3') => return self.octal(),
            _ => return self.fault(),
        };
        self.at += 1;
        Ok(meant)
    }

    /// The byte of three octal digits, of which the first is next.
    fn octal(&mut self) -> Result<u8, Fault> {
        let mut value = 0;
        for _ in 0..3 {
            let Some(byte @ b'0'..=b'7') = self.peek() else {
                return self.fault();
            };
            value = 8 * value + (byte - b'0');
            self.at += 1;
        }
        Ok(value)
    }
}

fn write_term(term: &Term, out: &mut Vec<u8>) {
    let node = &*term.0;
    match &node.head {
        Head::Int(value) => write_integer(*value, out),
        Head::Tuple => write_between(&node.parts, b'(', b')', out),
        Head::List => write_between(&node.parts, b'[', b']', out),
        Head::Plain(name) => {
            out.extend_from_slice(name);
            write_some(&node.parts, b'(', b')', out);
        }
        Head::Quoted(bytes) => {
            write_quoted(bytes, out);
            write_some(&node.parts, b'(', b')', out);
        }
    }
    write_some(&node.annos, b'{', b'}', out);
}

fn write_some(terms: &[Term], left: u8, right: u8, out: &mut Vec<u8>) {
    if !terms.is_empty() {
        write_between(terms, left, right, out);
    }
}

fn write_between(terms: &[Term], left: u8, right: u8, out: &mut Vec<u8>) {
    out.push(left);
    for (index, term) in terms.iter().enumerate() {
        if index > 0 {
            out.push(b',');
        }
        write_term(term, out);
    }
    out.push(right);
}

fn write_integer(value: i64, out: &mut Vec<u8>) {
    let mut digits = [0; 19];
    let mut from = digits.len();
    let mut rest = value.unsigned_abs();
    loop {
        from -= 1;
        digits[from] = b'0' + (rest % 10) as u8;
        rest /= 10;
        if rest == 0 {
            break;
        }
    }
    if value < 0 {
        out.push(b'-');
    }
    out.extend_from_slice(&digits[from..]);
}

fn write_quoted(bytes: &[u8], out: &mut Vec<u8>) {
    out.push(b'"');
    let mut from = 0;
    for (index, &byte) in bytes.iter().enumerate() {
        if byte >= 32 && !matches!(byte, b'"' | b'\\' | 127) {
            continue;
        }
        out.extend_from_slice(&bytes[from..index]);
        from = index + 1;
        match byte {
            b'"' => out.extend_from_slice(b"\\\""),
            b'\\' => out.extend_from_slice(b"\\\\"),
            b'\n' => out.extend_from_slice(b"\\n"),
            b'\t' => out.extend_from_slice(b"\\t"),
            b'\r' => out.extend_from_slice(b"\\r"),
            _ => {
                let octal = [b'\\', b'0' + byte / 64, b'0' + byte / 8 % 8, b'0' + byte % 8];
                out.extend_from_slice(&octal);
            }
        }
    }
    out.extend_from_slice(&bytes[from..]);
    out.push(b'"');
}

fn run() -> Result<(), Fault> {
    let mut text = Vec::new();
    std::io::stdin().read_to_end(&mut text).map_err(|_| Fault::Read)?;
    let start = Instant::now();
    let mut reader = Reader {
        text: &text,
        at: 0,
        depth: 0,
    };
    let term = reader.text()?;
    let reading = start.elapsed().as_nanos();
    let start = Instant::now();
    let mut out = Vec::new();
    write_term(&term, &mut out);
    let writing = start.elapsed().as_nanos();
    std::io::stdout().write_all(&out).map_err(|_| Fault::Write)?;
    eprintln!("{reading} {writing}");
    Ok(())
}

fn main() -> ExitCode {
    match run() {
        Ok(()) => ExitCode::SUCCESS,
        Err(fault) => {
            match fault {
                Fault::Read => eprintln!("cannot read"),
                Fault::Write => eprintln!("cannot write"),
                Fault::Syntax { at } => eprintln!("no term, at byte {at}"),
                Fault::Oversize { at } => eprintln!("too heavy or too deep, at byte {at}"),
            }
            ExitCode::FAILURE
        }
    }
}
