//! Strategies from tokens, by recursive descent.
use crate::Refusal;
use crate::lexer::{Keyword, Mark, TokenKind};
use crate::parser::{MOST_LEVELS, Parser};
use crate::tree::{Name, Operator, Primary, Sequence, Step, Strategy, StrategyDefinition};

impl Parser<'_> {
    fn begins_strategy(&self) -> bool {
        match self.peek() {
            Some(TokenKind::Name(_)) => true,
            Some(TokenKind::Mark(mark)) => matches!(
                mark,
                Mark::Question
                    | Mark::Exclamation
                    | Mark::Less
                    | Mark::OpenParenthesis
                    | Mark::OpenBracket
                    | Mark::OpenBrace
                    | Mark::Backslash
            ),
            Some(TokenKind::Keyword(keyword)) => matches!(
                keyword,
                Keyword::Id
                    | Keyword::Fail
                    | Keyword::Where
                    | Keyword::Not
                    | Keyword::All
                    | Keyword::One
                    | Keyword::Some
                    | Keyword::If
                    | Keyword::Rec
                    | Keyword::Let
                    | Keyword::Prim
            ),
            _ => false,
        }
    }

    pub fn strategy(&mut self, level: u32) -> Result<Strategy, Refusal> {
        if level > MOST_LEVELS {
            return self.beyond(self.begins_strategy());
        }
        let first = self.sequence(level)?;
        if self.eat(Mark::LeftChoice) {
            let other = Box::new(self.strategy(level + 1)?);
            return Ok(Strategy::LeftChoice(first, other));
        }
        if !self.eat(Mark::Less) {
            return Ok(Strategy::Sequence(first));
        }
        let then = Box::new(self.strategy(level + 1)?);
        self.expect(Mark::Plus)?;
        let other = Box::new(self.strategy(level + 1)?);
        Ok(Strategy::GuardedChoice(first, then, other))
    }

    fn sequence(&mut self, level: u32) -> Result<Sequence, Refusal> {
        if level > MOST_LEVELS {
            return self.beyond(self.begins_strategy());
        }
        let first = self.step(level)?;
        if !self.eat(Mark::Semicolon) {
            return Ok(Sequence::Last(first));
        }
        let others = Box::new(self.sequence(level + 1)?);
        Ok(Sequence::Then(first, others))
    }

    fn step(&mut self, level: u32) -> Result<Step, Refusal> {
        let first = Box::new(self.primary(level)?);
        if !self.eat(Mark::DoubleArrow) {
            return Ok(Step::Plain(first));
        }
        let matched = Box::new(self.pattern(true, level + 1)?);
        Ok(Step::Matching(first, matched))
    }

    fn primary(&mut self, level: u32) -> Result<Primary, Refusal> {
        let Some(first) = self.peek() else {
            return self.syntax();
        };
        match first {
            TokenKind::Name(bytes) => {
                self.advance();
                self.call(bytes.to_vec(), level)
            }
            TokenKind::Mark(mark) => self.marked(*mark, level),
            TokenKind::Keyword(keyword) => self.worded(*keyword, level),
            _ => self.syntax(),
        }
    }

    fn marked(&mut self, mark: Mark, level: u32) -> Result<Primary, Refusal> {
        match mark {
            Mark::Question => {
                self.advance();
                Ok(Primary::Match(self.pattern(true, level + 1)?))
            }
            Mark::Exclamation => {
                self.advance();
                Ok(Primary::Build(self.pattern(false, level + 1)?))
            }
            Mark::Less => {
                self.advance();
                let applied = Box::new(self.strategy(level + 1)?);
                self.expect(Mark::Greater)?;
                let built = Box::new(self.pattern(false, level + 1)?);
                Ok(Primary::Apply(applied, built))
            }
            Mark::Backslash => {
                self.advance();
                let rule = Box::new(self.rule(level + 1)?);
                self.expect(Mark::Backslash)?;
                Ok(Primary::Lambda(rule))
            }
            Mark::OpenParenthesis => self.parenthesized_strategy(level),
            Mark::OpenBracket => self.bracketed_strategy(level),
            Mark::OpenBrace => self.scope(level),
            _ => self.syntax(),
        }
    }

    fn worded(&mut self, keyword: Keyword, level: u32) -> Result<Primary, Refusal> {
        match keyword {
            Keyword::Id => {
                self.advance();
                Ok(Primary::Id)
            }
            Keyword::Fail => {
                self.advance();
                Ok(Primary::Fail)
            }
            Keyword::Where => self.operated(Operator::Where, level),
            Keyword::Not => self.operated(Operator::Not, level),
            Keyword::All => self.operated(Operator::All, level),
            Keyword::One => self.operated(Operator::One, level),
            Keyword::Some => self.operated(Operator::Some, level),
            Keyword::If => self.conditional(level),
            Keyword::Rec => {
                self.advance();
                let name = self.name()?;
                let body = self.in_parentheses(level)?;
                Ok(Primary::Recursive(name, body))
            }
            Keyword::Let => self.let_in(level),
            Keyword::Prim => self.primitive(level),
            _ => self.syntax(),
        }
    }

    fn in_parentheses(&mut self, level: u32) -> Result<Box<Strategy>, Refusal> {
        self.expect(Mark::OpenParenthesis)?;
        let strategy = Box::new(self.strategy(level + 1)?);
        self.expect(Mark::CloseParenthesis)?;
        Ok(strategy)
    }

    fn operated(&mut self, operator: Operator, level: u32) -> Result<Primary, Refusal> {
        self.advance();
        Ok(Primary::Operator(operator, self.in_parentheses(level)?))
    }

    fn conditional(&mut self, level: u32) -> Result<Primary, Refusal> {
        self.advance();
        let condition = Box::new(self.strategy(level + 1)?);
        self.expect_keyword(Keyword::Then)?;
        let then = Box::new(self.strategy(level + 1)?);
        if self.eat_keyword(Keyword::Else) {
            let other = Box::new(self.strategy(level + 1)?);
            self.expect_keyword(Keyword::End)?;
            return Ok(Primary::IfElse(condition, then, other));
        }
        self.expect_keyword(Keyword::End)?;
        Ok(Primary::If(condition, then))
    }

    fn let_in(&mut self, level: u32) -> Result<Primary, Refusal> {
        self.advance();
        let mut definitions = Vec::new();
        loop {
            let name = self.name()?;
            let parameters = self.parameters()?;
            self.expect(Mark::Equals)?;
            let body = Box::new(self.strategy(level + 1)?);
            definitions.push(StrategyDefinition {
                name,
                parameters,
                body,
            });
            if self.eat_keyword(Keyword::In) {
                break;
            }
        }
        let body = Box::new(self.strategy(level + 1)?);
        self.expect_keyword(Keyword::End)?;
        Ok(Primary::Let(definitions, body))
    }

    fn primitive(&mut self, level: u32) -> Result<Primary, Refusal> {
        self.advance();
        self.expect(Mark::OpenParenthesis)?;
        let Some(TokenKind::Quoted(text)) = self.peek() else {
            return self.syntax();
        };
        self.advance();
        let mut parts = Vec::new();
        while self.eat(Mark::Comma) {
            parts.push(self.pattern(false, level + 1)?);
        }
        self.expect(Mark::CloseParenthesis)?;
        Ok(Primary::Primitive(text.clone(), parts))
    }

    fn scope(&mut self, level: u32) -> Result<Primary, Refusal> {
        self.advance();
        let variables = self.names()?;
        self.expect(Mark::Colon)?;
        let body = Box::new(self.strategy(level + 1)?);
        self.expect(Mark::CloseBrace)?;
        Ok(Primary::Scope(variables, body))
    }

    /// Strategies at this level with commas between, one at least.
    fn strategies(&mut self, level: u32) -> Result<Vec<Strategy>, Refusal> {
        let mut strategies = vec![self.strategy(level)?];
        while self.eat(Mark::Comma) {
            strategies.push(self.strategy(level)?);
        }
        Ok(strategies)
    }

    /// The call whose name has been read.
    fn call(&mut self, name: Name, level: u32) -> Result<Primary, Refusal> {
        if !self.eat(Mark::OpenParenthesis) {
            return Ok(Primary::Call(name));
        }
        if self.eat(Mark::CloseParenthesis) {
            return Ok(Primary::CallWith(name, Vec::new()));
        }
        let mut strategies = Vec::new();
        if !self.eat(Mark::Bar) {
            strategies = self.strategies(level + 1)?;
            if self.eat(Mark::CloseParenthesis) {
                return Ok(Primary::CallWith(name, strategies));
            }
            self.expect(Mark::Bar)?;
        }
        if self.eat(Mark::CloseParenthesis) {
            return Ok(Primary::CallWithTerms(name, strategies, Vec::new()));
        }
        let terms = self.patterns(false, level + 1)?;
        self.expect(Mark::CloseParenthesis)?;
        Ok(Primary::CallWithTerms(name, strategies, terms))
    }

    fn parenthesized_strategy(&mut self, level: u32) -> Result<Primary, Refusal> {
        self.advance();
        if self.eat(Mark::CloseParenthesis) {
            return Ok(Primary::TupleCongruence(Vec::new()));
        }
        let first = self.strategy(level + 1)?;
        if self.eat(Mark::CloseParenthesis) {
            return Ok(Primary::Parenthesized(Box::new(first)));
        }
        let mut parts = vec![first];
        while self.eat(Mark::Comma) {
            parts.push(self.strategy(level + 1)?);
        }
        self.expect(Mark::CloseParenthesis)?;
        Ok(Primary::TupleCongruence(parts))
    }

    fn bracketed_strategy(&mut self, level: u32) -> Result<Primary, Refusal> {
        self.advance();
        if self.eat(Mark::CloseBracket) {
            return Ok(Primary::ListCongruence(Vec::new()));
        }
        let parts = self.strategies(level + 1)?;
        if self.eat(Mark::Bar) {
            let tail = Box::new(self.strategy(level + 1)?);
            self.expect(Mark::CloseBracket)?;
            return Ok(Primary::ListCongruenceWithTail(parts, tail));
        }
        self.expect(Mark::CloseBracket)?;
        Ok(Primary::ListCongruence(parts))
    }
}
