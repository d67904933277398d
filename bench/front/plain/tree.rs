//! The trees of definition files.

pub type Name = Vec<u8>;

pub struct File {
    pub sections: Vec<Section>,
}

pub enum Section {
    Signature(Vec<SignaturePart>),
    Rules(Vec<Definition>),
    Strategies(Vec<Definition>),
}

pub enum SignaturePart {
    Sorts(Vec<Sort>),
    Constructors(Vec<Declaration>),
}

pub enum Declaration {
    Constant(Name, Sort),
    Constructor(Name, Vec<Sort>, Sort),
    Injection(Vec<Sort>, Sort),
}

pub enum Sort {
    Named(Name),
    Applied(Name, Vec<Sort>),
}

pub enum Definition {
    Rule(RuleDefinition),
    Strategy(StrategyDefinition),
}

pub struct RuleDefinition {
    pub name: Name,
    pub parameters: Parameters,
    pub rule: Rule,
}

pub struct StrategyDefinition {
    pub name: Name,
    pub parameters: Parameters,
    pub body: Box<Strategy>,
}

pub enum Parameters {
    Absent,
    Strategies(Vec<Name>),
    WithTerms(Vec<Name>, Vec<Name>),
}

pub enum Rule {
    Plain(Box<Pattern>, Box<Pattern>),
    Conditional(Box<Pattern>, Box<Pattern>, Box<Strategy>),
}

pub enum Strategy {
    Sequence(Sequence),
    LeftChoice(Sequence, Box<Strategy>),
    GuardedChoice(Sequence, Box<Strategy>, Box<Strategy>),
}

pub enum Sequence {
    Last(Step),
    Then(Step, Box<Sequence>),
}

pub enum Step {
    Plain(Box<Primary>),
    Matching(Box<Primary>, Box<Pattern>),
}

pub enum Operator {
    Where,
    Not,
    All,
    One,
    Some,
}

pub enum Primary {
    Id,
    Fail,
    Match(Pattern),
    Build(Pattern),
    Apply(Box<Strategy>, Box<Pattern>),
    Parenthesized(Box<Strategy>),
    Scope(Vec<Name>, Box<Strategy>),
    Operator(Operator, Box<Strategy>),
    If(Box<Strategy>, Box<Strategy>),
    IfElse(Box<Strategy>, Box<Strategy>, Box<Strategy>),
    Recursive(Name, Box<Strategy>),
    Let(Vec<StrategyDefinition>, Box<Strategy>),
    Primitive(Vec<u8>, Vec<Pattern>),
    Lambda(Box<Rule>),
    Call(Name),
    CallWith(Name, Vec<Strategy>),
    CallWithTerms(Name, Vec<Strategy>, Vec<Pattern>),
    TupleCongruence(Vec<Strategy>),
    ListCongruence(Vec<Strategy>),
    ListCongruenceWithTail(Vec<Strategy>, Box<Strategy>),
}

pub enum Pattern {
    Variable(Name),
    Wildcard,
    Alias(Name, Box<Pattern>),
    Integer(i64),
    Quoted(Vec<u8>),
    Application(Name, Vec<Pattern>),
    Parenthesized(Box<Pattern>),
    Tuple(Vec<Pattern>),
    List(Vec<Pattern>),
    ListWithTail(Vec<Pattern>, Box<Pattern>),
    Applied(Box<Strategy>),
    AppliedTo(Box<Strategy>, Box<Pattern>),
}
