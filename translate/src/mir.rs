//! MIR: types, functions and statements, with exactly the constructs that this program knows.

use std::collections::{BTreeSet, HashSet};

use crate::refused::{ensure, refuse, Result};
use crate::words::{read, Tree};

#[derive(Clone, Debug, PartialEq, Eq, Hash)]
pub enum Type {
    Int(u32),
    Bool,
    Unit,
    /// A raw pointer; what it points to is found from where it is followed.
    Raw,
    /// A reference; in C one to an array is one to its first element.
    Reference {
        mutable: bool,
        to: Box<Type>,
    },
    Slice {
        mutable: bool,
        of: Box<Type>,
    },
    Array {
        length: u64,
        of: Box<Type>,
    },
    /// A declared struct or enum, by its symbol.
    Named(String),
}

impl Type {
    /// What a pointer to it points to in C: an array's first element.
    pub fn pointed(&self) -> &Type {
        match self {
            Type::Array { of, .. } => of,
            other => other,
        }
    }
}

pub const BYTE: Type = Type::Int(8);
pub const WORD: Type = Type::Int(64);

/// A declared struct's fields, or the fields of each of an enum's variants.
#[derive(Clone, Debug, PartialEq, Eq)]
pub enum Declared {
    Struct(Vec<Type>),
    Enum(Vec<Vec<Type>>),
}

#[derive(Clone, Debug, PartialEq, Eq, Hash)]
pub enum Step {
    Deref(Type),
    Field(usize),
    Variant(usize),
}

#[derive(Clone, Debug, PartialEq, Eq)]
pub struct Place {
    pub local: usize,
    pub steps: Vec<Step>,
}

#[derive(Clone, Debug)]
pub enum Operand {
    Copy(Place),
    Int {
        width: u32,
        value: u64,
    },
    Bool(bool),
    Unit,
    /// The bytes from one element to the next.
    SizeOf(Type),
    /// A constant that is made of others.
    Parts(Type, Vec<Operand>),
}

#[derive(Clone, Copy, Debug, PartialEq, Eq)]
pub enum Op {
    Add,
    /// A sum that wraps around.
    WrapAdd,
    Sub,
    WrapSub,
    Mul,
    WrapMul,
    Div,
    Rem,
    And,
    Or,
    Xor,
    Shl,
    Shr,
    Eq,
    Ne,
    Lt,
    Le,
    Offset,
}

#[derive(Clone, Debug)]
pub enum Value {
    Use(Operand),
    Op(Op, Operand, Operand),
    Not(Operand),
    Cast(u32, Operand),
    AddressOf(Place),
    Aggregate(Vec<Operand>),
    Repeat(Operand, u64),
}

#[derive(Debug)]
pub enum Statement {
    Assign(Place, Value),
    Call {
        callee: String,
        arguments: Vec<Operand>,
        to: Place,
    },
    If(Operand, Body, Body),
    Switch {
        on: Operand,
        arms: Vec<(Vec<u64>, Body)>,
        default: Option<Body>,
    },
    Block(Body),
    Loop(Body),
    /// Leaves the block with that number, counted from the innermost; of a loop, it is the next turn.
    Exit(usize),
    Return,
    /// Proved never to be reached.
    Unreachable,
}

pub type Body = Vec<Statement>;

#[derive(Debug)]
pub struct Function {
    pub symbol: String,
    /// 0 is the result, then come the parameters, then the rest.
    pub locals: Vec<Type>,
    pub parameters: usize,
    /// The locals that are constants, made once and lent.
    pub constants: HashSet<usize>,
    pub body: Body,
}

pub struct Program {
    pub functions: Vec<Function>,
    pub declared: Vec<(String, Declared)>,
}

pub fn program(text: &str) -> Result<Program> {
    let tree = read(text)?;
    let ("program", [definitions]) = tree.parts()? else { refuse!("no program") };
    let mut made = Program { functions: Vec::new(), declared: Vec::new() };
    for definition in definitions.items()? {
        let ("fn-def", [symbol, item, declared @ ..]) = definition.parts()? else { refuse!("no function") };
        ensure!(declared.len() < 2, "a function with {} lists of types", declared.len());
        for pair in declared.first().map_or(Ok(Vec::new()), Tree::items)? {
            made.declared.push(declaration(pair)?);
        }
        let function = function(symbol.quoted()?, item)?;
        ensure!(
            made.functions.iter().all(|f| f.symbol != function.symbol),
            "two functions {}",
            function.symbol
        );
        made.functions.push(function);
    }
    Ok(made)
}

fn declaration(tree: &Tree) -> Result<(String, Declared)> {
    let ("pair", [symbol, declared]) = tree.parts()? else { refuse!("no declared type: {tree:?}") };
    let declared = match declared.parts()? {
        ("fields", [fields]) => Declared::Struct(types(fields)?),
        ("variants", [variants]) => {
            let variants = variants.list("ttcons", "ttnil")?;
            Declared::Enum(variants.into_iter().map(types).collect::<Result<_>>()?)
        }
        (word, _) => refuse!("a declared type: {word}"),
    };
    Ok((symbol.quoted()?, declared))
}

fn types(tree: &Tree) -> Result<Vec<Type>> {
    tree.list("tcons", "tnil")?.into_iter().map(typed).collect()
}

fn width(tree: &Tree) -> Result<u32> {
    match tree.number()? {
        width @ (8 | 16 | 32 | 64) => Ok(width as u32),
        width => refuse!("a number of {width} bits"),
    }
}

fn typed(tree: &Tree) -> Result<Type> {
    Ok(match tree.parts()? {
        ("tyBool", []) => Type::Bool,
        ("tyUnit", []) => Type::Unit,
        ("tyPtr", []) => Type::Raw,
        ("tyInt", [w]) => Type::Int(width(w)?),
        ("tyNamed", [head]) => {
            let ("pair", [symbol, lifetimes]) = head.parts()? else { refuse!("a named type: {head:?}") };
            ensure!(lifetimes.items()?.is_empty(), "a type with lifetimes: {symbol:?}");
            Type::Named(symbol.quoted()?)
        }
        ("tyArray", [of, length]) => {
            let ("lenLit", [length]) = length.parts()? else { refuse!("an array's length: {length:?}") };
            let length = length.number()?;
            ensure!((1..=65536).contains(&length), "an array of {length}");
            Type::Array { length, of: Box::new(element(typed(of)?)?) }
        }
        ("tyRef", [_, mutability, to]) => {
            Type::Reference { mutable: mutable(mutability)?, to: Box::new(lent(typed(to)?)?) }
        }
        ("tyStruct", [symbol, parts]) if symbol.quoted()? == "&[]" => match &types(parts)?[..] {
            [Type::Reference { mutable, to }, length] if *length == WORD => {
                element(to.pointed().clone())?;
                Type::Slice { mutable: *mutable, of: to.clone() }
            }
            parts => refuse!("a slice of {parts:?}"),
        },
        (word, _) => refuse!("the type {word}"),
    })
}

fn element(found: Type) -> Result<Type> {
    let is_one = matches!(
        found,
        Type::Int(_) | Type::Bool | Type::Named(_) | Type::Reference { .. } | Type::Slice { .. }
    );
    ensure!(is_one, "an element of type {found:?}");
    Ok(found)
}

fn lent(found: Type) -> Result<Type> {
    ensure!(found != Type::Raw, "a reference to a raw pointer");
    Ok(found)
}

fn mutable(tree: &Tree) -> Result<bool> {
    match tree.word()? {
        "mut" => Ok(true),
        "imm" => Ok(false),
        word => refuse!("a reference that is {word}"),
    }
}

fn function(symbol: String, item: &Tree) -> Result<Function> {
    let ("fnItem", [_, _, parameters, locals, body]) = item.parts()? else { refuse!("the item of {symbol}") };
    let (mut kept, mut constants) = (Vec::new(), HashSet::new());
    for local in locals.items()? {
        let ("local", [found, home]) = local.parts()? else { refuse!("a local of {symbol}") };
        match home.word()? {
            "valueLocal" | "memorySlot" => (),
            "staticSlot" => {
                constants.insert(kept.len());
            }
            word => refuse!("a local's home: {word}"),
        }
        kept.push(typed(found)?);
    }
    let parameters = parameters.count()?;
    ensure!(parameters < kept.len(), "the parameters of {symbol}");
    ensure!(!kept[..=parameters].contains(&Type::Raw), "{symbol} hands over a raw pointer");
    ensure!(constants.iter().all(|local| *local > parameters), "{symbol} hands over a constant");
    Ok(Function { symbol, locals: kept, parameters, constants, body: statements(body)? })
}

fn place(tree: &Tree) -> Result<Place> {
    let ("place", [local, steps]) = tree.parts()? else { refuse!("no place: {tree:?}") };
    let mut made = Place { local: local.count()?, steps: Vec::new() };
    for step in steps.items()? {
        made.steps.push(match step.parts()? {
            ("deref", [to]) => Step::Deref(lent(typed(to)?)?),
            ("field", [k]) => Step::Field(k.count()?),
            ("variant", [k]) => Step::Variant(k.count()?),
            (word, _) => refuse!("a step {word}"),
        });
    }
    Ok(made)
}

fn operand(tree: &Tree) -> Result<Operand> {
    Ok(match tree.parts()? {
        ("copy", [from]) => Operand::Copy(place(from)?),
        ("int", [w, value]) => {
            let (width, value) = (width(w)?, value.number()?);
            ensure!(width == 64 || value >> width == 0, "{value} in {width} bits");
            Operand::Int { width, value }
        }
        ("true", []) => Operand::Bool(true),
        ("false", []) => Operand::Bool(false),
        ("unit", []) => Operand::Unit,
        ("size", [of]) => Operand::SizeOf(element(typed(of)?)?),
        ("parts", [of, parts]) => Operand::Parts(typed(of)?, operands(parts)?),
        (word, _) => refuse!("the operand {word}"),
    })
}

fn operands(tree: &Tree) -> Result<Vec<Operand>> {
    tree.items()?.into_iter().map(operand).collect()
}

fn op(tree: &Tree) -> Result<Op> {
    let (word, sign) = tree.parts()?;
    let signs = sign.iter().map(Tree::word).collect::<Result<Vec<_>>>()?;
    Ok(match (word, &signs[..]) {
        ("add", ["unsigned"]) => Op::Add,
        ("sub", ["unsigned"]) => Op::Sub,
        ("mul", ["unsigned"]) => Op::Mul,
        ("div", ["unsigned"]) => Op::Div,
        ("rem", ["unsigned"]) => Op::Rem,
        ("shr", ["unsigned"]) => Op::Shr,
        ("lt", ["unsigned"]) => Op::Lt,
        ("le", ["unsigned"]) => Op::Le,
        ("wrapadd", []) => Op::WrapAdd,
        ("wrapsub", []) => Op::WrapSub,
        ("wrapmul", []) => Op::WrapMul,
        ("and", []) => Op::And,
        ("or", []) => Op::Or,
        ("xor", []) => Op::Xor,
        ("shl", []) => Op::Shl,
        ("eq", []) => Op::Eq,
        ("ne", []) => Op::Ne,
        ("offset", []) => Op::Offset,
        _ => refuse!("the operation {word} {signs:?}"),
    })
}

fn value(tree: &Tree) -> Result<Value> {
    Ok(match tree.parts()? {
        ("rvOpd", [of]) => Value::Use(operand(of)?),
        ("op2", [by, a, b]) => Value::Op(op(by)?, operand(a)?, operand(b)?),
        ("op1", [by, a]) => match by.parts()? {
            ("not", []) => Value::Not(operand(a)?),
            ("cast", [from, to, w]) if (from.word()?, to.word()?) == ("unsigned", "unsigned") => {
                Value::Cast(width(w)?, operand(a)?)
            }
            (word, _) => refuse!("the operation {word}"),
        },
        ("addrOf", [of]) => Value::AddressOf(place(of)?),
        ("aggregate", [parts]) => Value::Aggregate(operands(parts)?),
        ("repeat", [of, count]) => Value::Repeat(operand(of)?, count.number()?),
        (word, _) => refuse!("the value {word}"),
    })
}

/// A body's statements in their order, `seq` and `skip` taken apart.
fn statements(tree: &Tree) -> Result<Body> {
    let (mut made, mut todo) = (Vec::new(), vec![tree]);
    while let Some(next) = todo.pop() {
        match next.parts()? {
            ("seq", [first, second]) => todo.extend([second, first]),
            ("skip", []) => (),
            (word, arguments) => made.push(statement(word, arguments)?),
        }
    }
    Ok(made)
}

fn statement(word: &str, arguments: &[Tree]) -> Result<Statement> {
    Ok(match (word, arguments) {
        ("assign", [to, from]) => Statement::Assign(place(to)?, value(from)?),
        ("call", [callee, arguments, to]) => {
            let ("direct", [reference]) = callee.parts()? else { refuse!("a call of {callee:?}") };
            let ("fnRef", [symbol]) = reference.parts()? else { refuse!("a call of {reference:?}") };
            Statement::Call { callee: symbol.quoted()?, arguments: operands(arguments)?, to: place(to)? }
        }
        ("if", [on, yes, no]) => Statement::If(operand(on)?, statements(yes)?, statements(no)?),
        ("switch", [on, arms]) => switch(operand(on)?, arms)?,
        ("block", [body]) => Statement::Block(statements(body)?),
        ("loop", [body]) => Statement::Loop(statements(body)?),
        ("exit", [count]) => Statement::Exit(count.count()?),
        ("return", []) => Statement::Return,
        ("unreachable", []) => Statement::Unreachable,
        _ => refuse!("the statement {word}"),
    })
}

fn switch(on: Operand, arms: &Tree) -> Result<Statement> {
    let (mut kept, mut seen, mut rest) = (Vec::new(), Vec::new(), arms);
    let default = loop {
        match rest.parts()? {
            ("arm", [keys, body, next]) => {
                let keys = keys.items()?.into_iter().map(Tree::number).collect::<Result<Vec<_>>>()?;
                ensure!(!keys.is_empty(), "an arm with no key");
                for key in &keys {
                    ensure!(!seen.contains(key), "two arms for {key}");
                    seen.push(*key);
                }
                kept.push((keys, statements(body)?));
                rest = next;
            }
            ("default", [body]) => break Some(statements(body)?),
            ("noDefault", []) => break None,
            (word, _) => refuse!("the arm {word}"),
        }
    };
    ensure!(!kept.is_empty(), "a switch with no arm");
    Ok(Statement::Switch { on, arms: kept, default })
}

/// A statement's own bodies, none for most.
pub fn bodies(statement: &Statement) -> Vec<&Body> {
    match statement {
        Statement::If(_, yes, no) => vec![yes, no],
        Statement::Switch { arms, default, .. } => arms.iter().map(|(_, body)| body).chain(default).collect(),
        Statement::Block(body) | Statement::Loop(body) => vec![body],
        Statement::Assign(..)
        | Statement::Call { .. }
        | Statement::Exit(_)
        | Statement::Return
        | Statement::Unreachable => Vec::new(),
    }
}

/// Every statement of a body, those inside others too.
pub fn all_statements(body: &Body) -> Vec<&Statement> {
    let (mut found, mut todo): (Vec<_>, Vec<_>) = (Vec::new(), body.iter().collect());
    while let Some(next) = todo.pop() {
        found.push(next);
        todo.extend(bodies(next).into_iter().flatten());
    }
    found
}

/// The operands that a statement itself reads; a body inside it is not looked at.
pub fn operands_of(statement: &Statement) -> Vec<&Operand> {
    match statement {
        Statement::Assign(_, value) => match value {
            Value::Use(a) | Value::Not(a) | Value::Cast(_, a) | Value::Repeat(a, _) => vec![a],
            Value::Op(_, a, b) => vec![a, b],
            Value::Aggregate(parts) => parts.iter().collect(),
            Value::AddressOf(_) => Vec::new(),
        },
        Statement::Call { arguments, .. } => arguments.iter().collect(),
        Statement::If(on, ..) | Statement::Switch { on, .. } => vec![on],
        Statement::Block(_)
        | Statement::Loop(_)
        | Statement::Exit(_)
        | Statement::Return
        | Statement::Unreachable => Vec::new(),
    }
}

/// The places that a statement itself reads, the address of one too.
pub fn places_read(statement: &Statement) -> Vec<&Place> {
    let mut found = Vec::new();
    for operand in operands_of(statement) {
        if let Operand::Copy(place) = operand {
            found.push(place);
        }
    }
    if let Statement::Assign(_, Value::AddressOf(place)) = statement {
        found.push(place);
    }
    found
}

/// The place that a statement itself writes.
pub fn target_of(statement: &Statement) -> Option<&Place> {
    match statement {
        Statement::Assign(to, _) | Statement::Call { to, .. } => Some(to),
        _ => None,
    }
}

/// How a body can end: by going on after it, or by leaving blocks around it, each by its number there.
#[derive(Default)]
struct Ends {
    goes_on: bool,
    exits: BTreeSet<usize>,
}

impl Ends {
    fn or(mut self, other: Ends) -> Ends {
        self.goes_on |= other.goes_on;
        self.exits.extend(other.exits);
        self
    }

    /// Seen from outside a block or a loop. To leave a block is to go on after it; a loop is left by exits
    /// alone.
    fn outside(self, is_block: bool) -> Ends {
        let goes_on = is_block && (self.goes_on || self.exits.contains(&0));
        Ends { goes_on, exits: self.exits.into_iter().filter(|n| *n > 0).map(|n| n - 1).collect() }
    }
}

fn ends(body: &Body) -> Ends {
    let mut found = Ends { goes_on: true, ..Ends::default() };
    for statement in body {
        let this = match statement {
            Statement::Assign(..) | Statement::Call { .. } => continue,
            Statement::Return | Statement::Unreachable => Ends::default(),
            Statement::Exit(count) => Ends { goes_on: false, exits: [*count].into() },
            Statement::Block(inner) => ends(inner).outside(true),
            Statement::Loop(inner) => ends(inner).outside(false),
            Statement::If(..) | Statement::Switch { .. } => {
                bodies(statement).into_iter().map(ends).fold(Ends::default(), Ends::or)
            }
        };
        found.exits.extend(this.exits);
        found.goes_on &= this.goes_on;
    }
    found
}

/// Whether what stands after the body can be reached from it without an exit.
pub fn goes_on(body: &Body) -> bool {
    ends(body).goes_on
}
