//! The tokens of definition files.
use crate::Refusal;

#[derive(Clone, Copy, PartialEq, Eq)]
pub enum Mark {
    OpenParenthesis,
    CloseParenthesis,
    OpenBracket,
    CloseBracket,
    OpenBrace,
    CloseBrace,
    Bar,
    Comma,
    Colon,
    Semicolon,
    Equals,
    Question,
    Exclamation,
    At,
    Star,
    Plus,
    Backslash,
    Less,
    Greater,
    Arrow,
    DoubleArrow,
    LeftChoice,
}

#[derive(Clone, Copy, PartialEq, Eq)]
pub enum Keyword {
    Signature,
    Sorts,
    Constructors,
    Rules,
    Strategies,
    Id,
    Fail,
    Where,
    Not,
    If,
    Then,
    Else,
    End,
    All,
    One,
    Some,
    Rec,
    Let,
    In,
    Prim,
}

pub enum TokenKind<'a> {
    Name(&'a [u8]),
    Wildcard,
    Integer(i64),
    Quoted(Vec<u8>),
    Mark(Mark),
    Keyword(Keyword),
    LeftOut,
}

pub struct Token<'a> {
    pub kind: TokenKind<'a>,
    pub at: usize,
}

fn is_digit(byte: u8) -> bool {
    byte.is_ascii_digit()
}

fn begins_word(byte: u8) -> bool {
    byte.is_ascii_alphabetic() || byte == b'_'
}

fn continues_word(byte: u8) -> bool {
    byte.is_ascii_alphanumeric() || matches!(byte, b'_' | b'\'')
}

fn kind_of_word(word: &[u8]) -> TokenKind<'_> {
    let keyword = match word {
        b"_" => return TokenKind::Wildcard,
        b"module" | b"imports" | b"overlays" | b"with" => return TokenKind::LeftOut,
        b"switch" | b"case" | b"otherwise" | b"external" => return TokenKind::LeftOut,
        b"signature" => Keyword::Signature,
        b"sorts" => Keyword::Sorts,
        b"constructors" => Keyword::Constructors,
        b"rules" => Keyword::Rules,
        b"strategies" => Keyword::Strategies,
        b"id" => Keyword::Id,
        b"fail" => Keyword::Fail,
        b"where" => Keyword::Where,
        b"not" => Keyword::Not,
        b"if" => Keyword::If,
        b"then" => Keyword::Then,
        b"else" => Keyword::Else,
        b"end" => Keyword::End,
        b"all" => Keyword::All,
        b"one" => Keyword::One,
        b"some" => Keyword::Some,
        b"rec" => Keyword::Rec,
        b"let" => Keyword::Let,
        b"in" => Keyword::In,
        b"prim" => Keyword::Prim,
        _ => return TokenKind::Name(word),
    };
    TokenKind::Keyword(keyword)
}

struct Lexer<'a> {
    text: &'a [u8],
    at: usize,
}

impl<'a> Lexer<'a> {
    fn peek(&self) -> Option<u8> {
        self.text.get(self.at).copied()
    }

    fn peek_second(&self) -> Option<u8> {
        self.text.get(self.at + 1).copied()
    }

    /// Skips blanks and comments; nothing where a comment is not closed.
    fn skip_gaps(&mut self) -> Option<()> {
        loop {
            match self.peek() {
                Some(b' ' | b'\t' | b'\n' | b'\r') => self.at += 1,
                Some(b'/') if self.peek_second() == Some(b'/') => {
                    let rest = &self.text[self.at..];
                    self.at += rest.iter().position(|&byte| byte == b'\n').unwrap_or(rest.len());
                }
                Some(b'/') if self.peek_second() == Some(b'*') => {
                    let inner = &self.text[self.at + 2..];
                    self.at += 4 + inner.windows(2).position(|pair| pair == b"*/")?;
                }
                _ => return Some(()),
            }
        }
    }

    /// The token that is next; nothing where there is none.
    fn token(&mut self, first: u8) -> Option<TokenKind<'a>> {
        match first {
            b'"' => Some(TokenKind::Quoted(self.quoted()?)),
            b'-' if self.peek_second().is_some_and(is_digit) => self.integer(),
            _ if is_digit(first) => self.integer(),
            _ if begins_word(first) => Some(self.word()),
            _ => Some(TokenKind::Mark(self.mark(first)?)),
        }
    }

    fn word(&mut self) -> TokenKind<'a> {
        let from = self.at;
        self.at += 1;
        while let Some(byte) = self.peek() {
            let goes_on = continues_word(byte) || byte == b'-' && self.peek_second() != Some(b'>');
            if !goes_on {
                break;
            }
            self.at += 1;
        }
        kind_of_word(&self.text[from..self.at])
    }

    fn integer(&mut self) -> Option<TokenKind<'a>> {
        let negative = self.peek() == Some(b'-');
        if negative {
            self.at += 1;
        }
        let most: i128 = if negative { 1 << 63 } else { (1 << 63) - 1 };
        let mut value = 0;
        while let Some(byte @ b'0'..=b'9') = self.peek() {
            value = 10 * value + i128::from(byte - b'0');
            if value > most {
                return None;
            }
            self.at += 1;
        }
        Some(TokenKind::Integer(if negative { -value } else { value } as i64))
    }

    fn quoted(&mut self) -> Option<Vec<u8>> {
        self.at += 1;
        let mut bytes = Vec::new();
        loop {
            match self.peek()? {
                b'"' => {
                    self.at += 1;
                    return Some(bytes);
                }
                b'\\' => {
                    self.at += 1;
                    bytes.push(self.escape()?);
                }
                b'\n' => return None,
                byte => {
                    self.at += 1;
                    bytes.push(byte);
                }
            }
        }
    }

    /// What stands behind a backslash.
    fn escape(&mut self) -> Option<u8> {
        let meant = match self.peek()? {
            byte @ (b'"' | b'\\') => byte,
            b'n' => b'\n',
            b't' => b'\t',
            b'r' => b'\r',
            b'0'..=b'3' => return self.octal(),
            _ => return None,
        };
        self.at += 1;
        Some(meant)
    }

    /// The byte of three octal digits, of which the first is next.
    fn octal(&mut self) -> Option<u8> {
        let mut value = 0;
        for _ in 0..3 {
            let Some(byte @ b'0'..=b'7') = self.peek() else {
                return None;
            };
            value = 8 * value + (byte - b'0');
            self.at += 1;
        }
        Some(value)
    }

    fn mark(&mut self, first: u8) -> Option<Mark> {
        let mark = match (first, self.peek_second()) {
            (b'-', Some(b'>')) => Mark::Arrow,
            (b'=', Some(b'>')) => Mark::DoubleArrow,
            (b'<', Some(b'+')) => Mark::LeftChoice,
            (b'(', _) => Mark::OpenParenthesis,
            (b')', _) => Mark::CloseParenthesis,
            (b'[', _) => Mark::OpenBracket,
            (b']', _) => Mark::CloseBracket,
            (b'{', _) => Mark::OpenBrace,
            (b'}', _) => Mark::CloseBrace,
            (b'|', _) => Mark::Bar,
            (b',', _) => Mark::Comma,
            (b':', _) => Mark::Colon,
            (b';', _) => Mark::Semicolon,
            (b'=', _) => Mark::Equals,
            (b'?', _) => Mark::Question,
            (b'!', _) => Mark::Exclamation,
            (b'@', _) => Mark::At,
            (b'*', _) => Mark::Star,
            (b'+', _) => Mark::Plus,
            (b'\\', _) => Mark::Backslash,
            (b'<', _) => Mark::Less,
            (b'>', _) => Mark::Greater,
            _ => return None,
        };
        self.at += match mark {
            Mark::Arrow | Mark::DoubleArrow | Mark::LeftChoice => 2,
            _ => 1,
        };
        Some(mark)
    }
}

pub fn lex(text: &[u8]) -> Result<Vec<Token<'_>>, Refusal> {
    let mut lexer = Lexer { text, at: 0 };
    let mut tokens = Vec::new();
    loop {
        if lexer.skip_gaps().is_none() {
            return Err(Refusal::Lexical { at: lexer.at });
        }
        let at = lexer.at;
        let Some(first) = lexer.peek() else {
            break;
        };
        let Some(kind) = lexer.token(first) else {
            return Err(Refusal::Lexical { at });
        };
        tokens.push(Token { kind, at });
    }
    let left_out = tokens.iter().find(|token| matches!(token.kind, TokenKind::LeftOut));
    match left_out {
        Some(token) => Err(Refusal::ReservedWord { at: token.at }),
        None => Ok(tokens),
    }
}
