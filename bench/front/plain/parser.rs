//! Files, signatures, definitions and patterns from tokens, by recursive descent.
use crate::Refusal;
use crate::lexer::{Keyword, Mark, Token, TokenKind};
use crate::tree::{
    Declaration, Definition, File, Name, Parameters, Pattern, Rule, RuleDefinition, Section,
    SignaturePart, Sort, StrategyDefinition,
};

pub const MOST_LEVELS: u32 = 200;

/// The tokens, the place of the next one, and the length of the text.
pub struct Parser<'a> {
    tokens: &'a [Token<'a>],
    next: usize,
    end: usize,
}

pub fn parse(tokens: &[Token], end: usize) -> Result<File, Refusal> {
    let mut parser = Parser {
        tokens,
        next: 0,
        end,
    };
    let mut sections = Vec::new();
    while parser.next < tokens.len() {
        sections.push(parser.section()?);
    }
    Ok(File { sections })
}

/// Whether the name can be a constructor's.
fn is_constructor(name: &[u8]) -> bool {
    !name.contains(&b'\'')
}

impl<'a> Parser<'a> {
    pub fn peek(&self) -> Option<&'a TokenKind<'a>> {
        self.tokens.get(self.next).map(|token| &token.kind)
    }

    pub fn advance(&mut self) {
        self.next += 1;
    }

    pub fn at(&self) -> usize {
        self.tokens.get(self.next).map_or(self.end, |token| token.at)
    }

    pub fn syntax<T>(&self) -> Result<T, Refusal> {
        Err(Refusal::Syntax { at: self.at() })
    }

    /// The refusal of a part at level 201, which may begin with the next token or not.
    pub fn beyond<T>(&self, begins: bool) -> Result<T, Refusal> {
        if begins {
            return Err(Refusal::Nesting { at: self.at() });
        }
        self.syntax()
    }

    pub fn eat(&mut self, mark: Mark) -> bool {
        let is_next = matches!(self.peek(), Some(TokenKind::Mark(found)) if *found == mark);
        if is_next {
            self.advance();
        }
        is_next
    }

    pub fn eat_keyword(&mut self, keyword: Keyword) -> bool {
        let is_next = matches!(self.peek(), Some(TokenKind::Keyword(found)) if *found == keyword);
        if is_next {
            self.advance();
        }
        is_next
    }

    pub fn expect(&mut self, mark: Mark) -> Result<(), Refusal> {
        if self.eat(mark) { Ok(()) } else { self.syntax() }
    }

    pub fn expect_keyword(&mut self, keyword: Keyword) -> Result<(), Refusal> {
        if self.eat_keyword(keyword) { Ok(()) } else { self.syntax() }
    }

    pub fn is_name(&self) -> bool {
        matches!(self.peek(), Some(TokenKind::Name(_)))
    }

    pub fn name(&mut self) -> Result<Name, Refusal> {
        let Some(TokenKind::Name(bytes)) = self.peek() else {
            return self.syntax();
        };
        self.advance();
        Ok(bytes.to_vec())
    }

    pub fn names(&mut self) -> Result<Vec<Name>, Refusal> {
        let mut names = vec![self.name()?];
        while self.eat(Mark::Comma) {
            names.push(self.name()?);
        }
        Ok(names)
    }

    fn names_if_any(&mut self) -> Result<Vec<Name>, Refusal> {
        if self.is_name() { self.names() } else { Ok(Vec::new()) }
    }

    pub fn parameters(&mut self) -> Result<Parameters, Refusal> {
        if !self.eat(Mark::OpenParenthesis) {
            return Ok(Parameters::Absent);
        }
        let strategies = self.names_if_any()?;
        if self.eat(Mark::CloseParenthesis) {
            return Ok(Parameters::Strategies(strategies));
        }
        self.expect(Mark::Bar)?;
        let terms = self.names_if_any()?;
        self.expect(Mark::CloseParenthesis)?;
        Ok(Parameters::WithTerms(strategies, terms))
    }

    fn section(&mut self) -> Result<Section, Refusal> {
        if self.eat_keyword(Keyword::Signature) {
            Ok(Section::Signature(self.signature_parts()?))
        } else if self.eat_keyword(Keyword::Rules) {
            Ok(Section::Rules(self.definitions()?))
        } else {
            self.expect_keyword(Keyword::Strategies)?;
            Ok(Section::Strategies(self.definitions()?))
        }
    }

    fn signature_parts(&mut self) -> Result<Vec<SignaturePart>, Refusal> {
        let mut parts = Vec::new();
        loop {
            if self.eat_keyword(Keyword::Sorts) {
                parts.push(SignaturePart::Sorts(self.sort_run()?));
            } else if self.eat_keyword(Keyword::Constructors) {
                parts.push(SignaturePart::Constructors(self.declarations()?));
            } else {
                return Ok(parts);
            }
        }
    }

    fn sort_run(&mut self) -> Result<Vec<Sort>, Refusal> {
        let mut sorts = Vec::new();
        while self.is_name() {
            sorts.push(self.sort(1)?);
        }
        Ok(sorts)
    }

    fn sort(&mut self, level: u32) -> Result<Sort, Refusal> {
        if level > MOST_LEVELS {
            return self.beyond(self.is_name());
        }
        let name = self.name()?;
        if !self.eat(Mark::OpenParenthesis) {
            return Ok(Sort::Named(name));
        }
        let mut parts = vec![self.sort(level + 1)?];
        while self.eat(Mark::Comma) {
            parts.push(self.sort(level + 1)?);
        }
        self.expect(Mark::CloseParenthesis)?;
        Ok(Sort::Applied(name, parts))
    }

    fn declarations(&mut self) -> Result<Vec<Declaration>, Refusal> {
        let mut declarations = Vec::new();
        loop {
            match self.peek() {
                Some(TokenKind::Name(name)) if is_constructor(name) => {
                    declarations.push(self.declaration()?);
                }
                Some(TokenKind::Name(_)) => return self.syntax(),
                Some(TokenKind::Mark(Mark::Colon)) => declarations.push(self.injection()?),
                _ => return Ok(declarations),
            }
        }
    }

    fn declaration(&mut self) -> Result<Declaration, Refusal> {
        let name = self.name()?;
        self.expect(Mark::Colon)?;
        let mut sorts = self.factors()?;
        if self.eat(Mark::Arrow) {
            return Ok(Declaration::Constructor(name, sorts, self.sort(1)?));
        }
        match sorts.pop() {
            Some(sort) if sorts.is_empty() => Ok(Declaration::Constant(name, sort)),
            _ => self.syntax(),
        }
    }

    fn injection(&mut self) -> Result<Declaration, Refusal> {
        self.expect(Mark::Colon)?;
        let sorts = self.factors()?;
        self.expect(Mark::Arrow)?;
        Ok(Declaration::Injection(sorts, self.sort(1)?))
    }

    fn factors(&mut self) -> Result<Vec<Sort>, Refusal> {
        let mut sorts = vec![self.sort(1)?];
        while self.eat(Mark::Star) {
            sorts.push(self.sort(1)?);
        }
        Ok(sorts)
    }

    fn definitions(&mut self) -> Result<Vec<Definition>, Refusal> {
        let mut definitions = Vec::new();
        while self.is_name() {
            definitions.push(self.definition()?);
        }
        Ok(definitions)
    }

    fn definition(&mut self) -> Result<Definition, Refusal> {
        let name = self.name()?;
        let parameters = self.parameters()?;
        if self.eat(Mark::Colon) {
            let rule = self.rule(1)?;
            return Ok(Definition::Rule(RuleDefinition {
                name,
                parameters,
                rule,
            }));
        }
        self.expect(Mark::Equals)?;
        let body = Box::new(self.strategy(1)?);
        Ok(Definition::Strategy(StrategyDefinition {
            name,
            parameters,
            body,
        }))
    }

    /// A rule whose sides and condition stand at this level.
    pub fn rule(&mut self, level: u32) -> Result<Rule, Refusal> {
        let left = Box::new(self.pattern(true, level)?);
        self.expect(Mark::Arrow)?;
        let right = Box::new(self.pattern(false, level)?);
        if !self.eat_keyword(Keyword::Where) {
            return Ok(Rule::Plain(left, right));
        }
        let condition = Box::new(self.strategy(level)?);
        Ok(Rule::Conditional(left, right, condition))
    }

    fn begins_pattern(&self, in_match: bool) -> bool {
        match self.peek() {
            Some(TokenKind::Name(_) | TokenKind::Wildcard) => true,
            Some(TokenKind::Integer(_) | TokenKind::Quoted(_)) => true,
            Some(TokenKind::Mark(Mark::OpenParenthesis | Mark::OpenBracket)) => true,
            Some(TokenKind::Mark(Mark::Less)) => !in_match,
            _ => false,
        }
    }

    pub fn pattern(&mut self, in_match: bool, level: u32) -> Result<Pattern, Refusal> {
        if level > MOST_LEVELS {
            return self.beyond(self.begins_pattern(in_match));
        }
        let Some(first) = self.peek() else {
            return self.syntax();
        };
        let made = match first {
            TokenKind::Name(bytes) => return self.named_pattern(bytes, in_match, level),
            TokenKind::Wildcard => Pattern::Wildcard,
            TokenKind::Integer(value) => Pattern::Integer(*value),
            TokenKind::Quoted(text) => Pattern::Quoted(text.clone()),
            TokenKind::Mark(Mark::OpenParenthesis) => return self.parenthesized(in_match, level),
            TokenKind::Mark(Mark::OpenBracket) => return self.bracketed(in_match, level),
            TokenKind::Mark(Mark::Less) if !in_match => return self.applied(level),
            _ => return self.syntax(),
        };
        self.advance();
        Ok(made)
    }

    /// Patterns at this level with commas between, one at least.
    pub fn patterns(&mut self, in_match: bool, level: u32) -> Result<Vec<Pattern>, Refusal> {
        let mut patterns = vec![self.pattern(in_match, level)?];
        while self.eat(Mark::Comma) {
            patterns.push(self.pattern(in_match, level)?);
        }
        Ok(patterns)
    }

    fn named_pattern(
        &mut self,
        bytes: &[u8],
        in_match: bool,
        level: u32,
    ) -> Result<Pattern, Refusal> {
        self.advance();
        let name = bytes.to_vec();
        if self.eat(Mark::At) {
            let named = Box::new(self.pattern(in_match, level + 1)?);
            return Ok(Pattern::Alias(name, named));
        }
        if !is_constructor(bytes) || !self.eat(Mark::OpenParenthesis) {
            return Ok(Pattern::Variable(name));
        }
        if self.eat(Mark::CloseParenthesis) {
            return Ok(Pattern::Application(name, Vec::new()));
        }
        let parts = self.patterns(in_match, level + 1)?;
        self.expect(Mark::CloseParenthesis)?;
        Ok(Pattern::Application(name, parts))
    }

    fn parenthesized(&mut self, in_match: bool, level: u32) -> Result<Pattern, Refusal> {
        self.advance();
        if self.eat(Mark::CloseParenthesis) {
            return Ok(Pattern::Tuple(Vec::new()));
        }
        let first = self.pattern(in_match, level + 1)?;
        if self.eat(Mark::CloseParenthesis) {
            return Ok(Pattern::Parenthesized(Box::new(first)));
        }
        let mut parts = vec![first];
        while self.eat(Mark::Comma) {
            parts.push(self.pattern(in_match, level + 1)?);
        }
        self.expect(Mark::CloseParenthesis)?;
        Ok(Pattern::Tuple(parts))
    }

    fn bracketed(&mut self, in_match: bool, level: u32) -> Result<Pattern, Refusal> {
        self.advance();
        if self.eat(Mark::CloseBracket) {
            return Ok(Pattern::List(Vec::new()));
        }
        let parts = self.patterns(in_match, level + 1)?;
        if self.eat(Mark::Bar) {
            let tail = Box::new(self.pattern(in_match, level + 1)?);
            self.expect(Mark::CloseBracket)?;
            return Ok(Pattern::ListWithTail(parts, tail));
        }
        self.expect(Mark::CloseBracket)?;
        Ok(Pattern::List(parts))
    }

    fn applied(&mut self, level: u32) -> Result<Pattern, Refusal> {
        self.advance();
        let applied = Box::new(self.strategy(level + 1)?);
        self.expect(Mark::Greater)?;
        if !self.begins_pattern(false) {
            return Ok(Pattern::Applied(applied));
        }
        let built = Box::new(self.pattern(false, level + 1)?);
        Ok(Pattern::AppliedTo(applied, built))
    }
}
