//! C of a function: a statement of MIR is a statement of C, a struct's members assigned one by one.

use std::collections::HashMap;

use crate::mir::{goes_on, Body, Operand, Place, Statement, Step, Type, Value};
use crate::offsets::ensure_sized;
use crate::refused::{ensure, refuse, Result};
use crate::types::{c_name, Types};
use crate::uses::Uses;
use crate::values::{Given, Spot};
use crate::variants::ensure_found;

pub type Functions<'a> = HashMap<&'a str, Uses<'a>>;

/// What stands around a statement and can be left from within. No exit counts a switch, but C's `break` does.
enum Around {
    Block { label: String, used: bool, ends_with_loop: bool },
    Loop { label: String, used: bool },
    Switch,
}

pub struct Writer<'a> {
    pub types: &'a Types,
    functions: &'a Functions<'a>,
    pub uses: &'a Uses<'a>,
    /// The types of the copies that are made for calls.
    copies: Vec<Type>,
    around: Vec<Around>,
    labels: usize,
    lines: Vec<String>,
    depth: usize,
}

impl Writer<'_> {
    pub fn name(&self, local: usize) -> String {
        match local {
            0 => "result".to_string(),
            _ if local <= self.uses.function.parameters => format!("a{local}"),
            _ => format!("v{local}"),
        }
    }

    /// Whether C has the local that a place begins with.
    fn is_kept(&self, place: &Place) -> bool {
        self.uses.read.contains(&place.local)
    }

    fn say(&mut self, line: impl AsRef<str>) {
        self.lines.push(format!("{}{}", "    ".repeat(self.depth), line.as_ref()));
    }

    fn assign(&mut self, to: &Place, value: &Value) -> Result<()> {
        if !self.is_kept(to) {
            return Ok(());
        }
        let (target, want) = self.place(to)?;
        if let Some(parts) = self.uses.tables.get(&to.local) {
            return self.elements(parts, &want).map(drop);
        }
        if let Some(constant) = self.uses.constants.get(&to.local) {
            return self.ensure_types(&[self.initial(constant)?], &[want]);
        }
        if let Value::Repeat(of, count) = value {
            let given = self.operand(of)?;
            let fits = matches!(&want, Type::Array { length, of } if length == count && &**of == given.of());
            let apart =
                !matches!(of, Operand::Copy(place) if place.local == to.local || !place.steps.is_empty());
            ensure!(fits && apart, "a repeated {:?} as {want:?}", given.of());
            let name = target.elements();
            self.say(format!("for (uint32_t i = 0; i < UINT32_C({count}); i++) {{"));
            self.say(format!("    {name}[i] = {};", given.text()));
            self.say("}");
            return Ok(());
        }
        let text = self.value(value, &want)?;
        if self.types.is_empty(&want)? {
            return Ok(());
        }
        if let Some(lines) = self.by_members(to, &target, value, &want)? {
            lines.iter().for_each(|line| self.say(line));
            return Ok(());
        }
        ensure!(!target.bare, "an array of the header's that is made of what a pointer points to");
        self.say(format!("{} = {text};", target.value()));
        Ok(())
    }

    /// The lines that assign a struct or an array member by member, or none where it is assigned whole. gcc
    /// keeps a struct that is copied whole in memory once it is larger than its sra-max-scalarization-size,
    /// which is 0 with -Os, and copies it by memcpy at each turn.
    fn by_members(
        &self,
        to: &Place,
        target: &Spot,
        value: &Value,
        want: &Type,
    ) -> Result<Option<Vec<String>>> {
        let is_array = matches!(want, Type::Array { .. });
        let parts = match value {
            Value::Use(from) if is_array || self.types.has_members(want)? => {
                return self.copied(target, &self.operand(from)?).map(Some)
            }
            Value::Aggregate(parts) if is_array || self.types.has_members(want)? => parts,
            _ => return Ok(None),
        };
        // C makes a whole value first: assigned one by one, none of its parts may stand where it goes.
        // Elements of an array are reached by a pointer alone, so another member of its struct may be among
        // them.
        let stands_there = |part: &Operand| match part {
            Operand::Copy(place) if target.bare => place.steps.iter().any(|s| matches!(s, Step::Deref(_))),
            Operand::Copy(place) => place.local == to.local,
            _ => false,
        };
        let lent = !target.bare && self.uses.is_addressed(to.local);
        if parts.iter().any(stands_there) || lent || target.pointer {
            return Ok(None);
        }
        if is_array {
            let at = target.elements();
            let elements = self.elements(parts, want)?;
            let line = |(k, given): (usize, &Given)| format!("{at}[{k}] = {};", given.text());
            return Ok(Some(elements.iter().enumerate().map(line).collect()));
        }
        let (named, left) = self.parts(parts, want)?;
        let mut lines = Vec::new();
        for (name, given) in &named {
            lines.extend(self.copied(&self.member(target, want, name, given.of()), given)?);
        }
        for (name, of) in &left {
            lines.extend(self.cleared(&target.member(name), of)?);
        }
        Ok(Some(lines))
    }

    /// Another variant's member: 0, so that a copy of the whole reads nothing that was never written.
    fn cleared(&self, target: &Spot, of: &Type) -> Result<Vec<String>> {
        if matches!(of, Type::Array { .. }) {
            return Ok(vec![format!("{} = ({}){{{{0}}}};", target.value(), self.types.c(of)?)]);
        }
        if !self.types.has_members(of)? {
            return Ok(vec![format!("{} = 0;", target.value())]);
        }
        let line = |(leaf, _): &(String, Type)| format!("{} = 0;", target.member(leaf).value());
        Ok(self.types.leaves(of)?.iter().map(line).collect())
    }

    fn copied(&self, target: &Spot, given: &Given) -> Result<Vec<String>> {
        match given {
            Given::Place(from, of) if self.types.has_members(of)? => {
                let line =
                    |leaf: &str| format!("{} = {};", target.member(leaf).value(), from.member(leaf).value());
                Ok(self.types.leaves(of)?.iter().map(|(leaf, _)| line(leaf)).collect())
            }
            Given::Place(from, Type::Array { length, .. }) if target.bare || from.bare => {
                let (to, from) = (target.elements(), from.elements());
                Ok((0..*length).map(|k| format!("{to}[{k}] = {from}[{k}];")).collect())
            }
            _ => Ok(vec![format!("{} = {};", target.value(), given.text())]),
        }
    }

    fn call(&mut self, callee: &str, arguments: &[Operand], to: &Place) -> Result<()> {
        let Some(function) = self.functions.get(callee) else { refuse!("no function {callee}") };
        let given = self.operands(arguments)?;
        self.ensure_types(&given, &function.locals[1..=function.function.parameters])?;
        let mut handed = Vec::new();
        for (k, given) in given.iter().enumerate() {
            if self.types.is_empty(given.of())? {
                continue;
            }
            handed.push(match given {
                Given::Place(..) if function.by_pointer(self.types, k + 1)? => {
                    self.by_pointer(&arguments[k], given, function)?
                }
                _ => self.whole(given)?,
            });
        }
        let (target, want) = self.place(to)?;
        ensure!(to.steps.is_empty(), "a call's result that goes into a part");
        ensure!(
            want == function.locals[0],
            "{callee} gives a {:?} where a {want:?} goes",
            function.locals[0]
        );
        let called = format!("{}({});", c_name(callee)?, handed.join(", "));
        match (self.types.is_empty(&want)?, self.is_kept(to)) {
            (true, _) => self.say(called),
            (_, true) => self.say(format!("{} = {called}", target.value())),
            (_, false) => self.say(format!("(void){called}")),
        }
        Ok(())
    }

    /// A struct that the callee only reads, by a pointer to it: to a copy, if the callee could reach it by a reference
    /// and write to it.
    fn by_pointer(&mut self, operand: &Operand, given: &Given, callee: &Uses) -> Result<String> {
        let (Operand::Copy(place), Given::Place(spot, of)) = (operand, given) else {
            refuse!("a struct that is no place")
        };
        let lent =
            self.uses.is_addressed(place.local) || place.steps.iter().any(|s| matches!(s, Step::Deref(_)));
        let mut writes = false;
        for parameter in &callee.locals[1..=callee.function.parameters] {
            writes |= self.types.leads_to_writing(parameter)?;
        }
        if lent && writes {
            self.copies.push(of.clone());
            let text = format!("c{}", self.copies.len());
            let copy = Spot { text, pointer: false, bare: false };
            self.copied(&copy, given)?.iter().for_each(|line| self.say(line));
            return Ok(format!("&{}", copy.text));
        }
        Ok(if spot.pointer { spot.text.clone() } else { format!("&{}", spot.text) })
    }

    fn inner(&mut self, body: &Body) -> Result<()> {
        self.depth += 1;
        self.body(body)?;
        self.depth -= 1;
        Ok(())
    }

    fn body(&mut self, body: &Body) -> Result<()> {
        body.iter().try_for_each(|statement| self.statement(statement))
    }

    fn statement(&mut self, statement: &Statement) -> Result<()> {
        match statement {
            Statement::Assign(to, value) => self.assign(to, value)?,
            Statement::Call { callee, arguments, to } => self.call(callee, arguments, to)?,
            Statement::If(on, yes, no) => self.condition(on, yes, no)?,
            Statement::Switch { on, arms, default } => self.switch(on, arms, default.as_ref())?,
            Statement::Block(inner) => {
                let ends_with_loop = matches!(inner.last(), Some(Statement::Loop(_)));
                let label = self.label("end");
                self.around.push(Around::Block { label, used: false, ends_with_loop });
                self.body(inner)?;
                self.mark();
            }
            Statement::Loop(inner) => {
                let label = self.label("turn");
                self.around.push(Around::Loop { label, used: false });
                self.say("for (;;) {");
                self.inner(inner)?;
                self.mark();
                self.say("}");
            }
            Statement::Exit(count) => self.exit(*count)?,
            Statement::Return if self.types.is_empty(&self.uses.locals[0])? => self.say("return;"),
            Statement::Return => self.say("return result;"),
            Statement::Unreachable => refuse!("a statement that is never reached"),
        }
        Ok(())
    }

    fn label(&mut self, kind: &str) -> String {
        self.labels += 1;
        format!("{kind}{}", self.labels)
    }

    /// Ends a block or a loop: its label, if a `goto` leads there.
    fn mark(&mut self) {
        if let Some(Around::Block { label, used: true, .. } | Around::Loop { label, used: true }) =
            self.around.pop()
        {
            self.say(format!("{label}:;"));
        }
    }

    fn exit(&mut self, count: usize) -> Result<()> {
        let numbered: Vec<usize> =
            (0..self.around.len()).rev().filter(|i| !matches!(self.around[*i], Around::Switch)).collect();
        let Some(&target) = numbered.get(count) else { refuse!("an exit past {} blocks", numbered.len()) };
        // C's own words leave the innermost loop, if no switch is between.
        let innermost = self.around.iter().rposition(|a| !matches!(a, Around::Block { .. })).unwrap_or(0);
        let innermost = Some(innermost).filter(|i| matches!(self.around[*i], Around::Loop { .. }));
        let line = match &mut self.around[target] {
            Around::Loop { .. } if innermost == Some(target) => "continue;".to_string(),
            Around::Block { ends_with_loop: true, .. } if innermost == Some(target + 1) => {
                "break;".to_string()
            }
            Around::Block { label, used, .. } | Around::Loop { label, used } => {
                *used = true;
                format!("goto {label};")
            }
            Around::Switch => refuse!("an exit from a switch"),
        };
        self.say(line);
        Ok(())
    }

    fn condition(&mut self, on: &Operand, yes: &Body, no: &Body) -> Result<()> {
        let given = self.operand(on)?;
        ensure!(*given.of() == Type::Bool, "a condition of type {:?}", given.of());
        if yes.is_empty() {
            self.say(format!("if (!{}) {{", given.text()));
            self.inner(no)?;
        } else {
            self.say(format!("if ({}) {{", given.text()));
            self.inner(yes)?;
            if !no.is_empty() {
                self.say("} else {");
                self.inner(no)?;
            }
        }
        self.say("}");
        Ok(())
    }

    /// Without a default another number is undefined, and proved not to come: the last arm stands for it.
    fn switch(&mut self, on: &Operand, arms: &[(Vec<u64>, Body)], default: Option<&Body>) -> Result<()> {
        let given = self.operand(on)?;
        let Type::Int(width) = *given.of() else { refuse!("a switch on {:?}", given.of()) };
        self.say(format!("switch ({}) {{", given.text()));
        self.around.push(Around::Switch);
        for (k, (keys, arm)) in arms.iter().enumerate() {
            ensure!(
                keys.iter().all(|key| width == 64 || key >> width == 0),
                "a key of more than {width} bits"
            );
            if default.is_none() && k + 1 == arms.len() {
                let keys: Vec<_> = keys.iter().map(u64::to_string).collect();
                self.say(format!("default: /* {} */", keys.join(", ")));
            } else {
                keys.iter().for_each(|key| self.say(format!("case {key}u:")));
            }
            self.arm(arm)?;
        }
        if let Some(arm) = default {
            self.say("default:");
            self.arm(arm)?;
        }
        self.around.pop();
        self.say("}");
        Ok(())
    }

    /// The declaration of a constant, which the compiler keeps with the code.
    fn constant(&self, declared: &str, constant: &Operand) -> Result<String> {
        match constant {
            Operand::Parts(Type::Array { .. }, parts)
                if parts.iter().all(|part| matches!(part, Operand::Int { .. })) =>
            {
                Ok(table(declared, parts))
            }
            _ => Ok(format!("    static const {declared} = {};\n", self.initial(constant)?.text())),
        }
    }

    fn arm(&mut self, arm: &Body) -> Result<()> {
        self.inner(arm)?;
        if goes_on(arm) {
            self.say("    break;");
        }
        Ok(())
    }
}

const COLUMNS: usize = 110;

/// A list in parentheses after its head, with as many lines as it needs.
pub fn listed(head: &str, items: &[String]) -> String {
    let one = format!("{head}({})", items.join(", "));
    if one.len() <= COLUMNS {
        return one;
    }
    let (mut lines, mut line) = (Vec::new(), format!("{head}("));
    for (k, item) in items.iter().enumerate() {
        let end = if k + 1 == items.len() { ")".to_string() } else { ",".to_string() };
        if line.len() + item.len() + end.len() + 1 > COLUMNS {
            lines.push(line);
            line = "   ".to_string();
        }
        let gap = if line.ends_with('(') { "" } else { " " };
        line += &format!("{gap}{item}{end}");
    }
    lines.push(line);
    lines.join("\n")
}

/// A table of numbers, which the compiler keeps with the code, with as many lines as it needs.
fn table(declared: &str, parts: &[Operand]) -> String {
    let number = |part: &Operand| match part {
        Operand::Int { value, .. } => Some(format!("{value}u")),
        _ => None,
    };
    let numbers: Vec<_> = parts.iter().filter_map(number).collect();
    let one = format!("    static const {declared} = {{{{{}}}}};\n", numbers.join(", "));
    if one.len() <= COLUMNS {
        return one;
    }
    let mut text = format!("    static const {declared} = {{{{");
    let mut width = COLUMNS;
    for number in numbers {
        if width + number.len() + 2 > COLUMNS {
            text += "\n       ";
            width = 7;
        }
        text += &format!(" {number},");
        width += number.len() + 2;
    }
    text + "\n    }};\n"
}

fn signature(types: &Types, uses: &Uses) -> Result<String> {
    let mut parameters = Vec::new();
    for local in 1..=uses.function.parameters {
        let of = &uses.locals[local];
        if types.is_empty(of)? {
            continue;
        }
        parameters.push(if uses.by_pointer(types, local)? {
            format!("const {} *a{local}", types.c(of)?)
        } else {
            types.declaration(of, &format!("a{local}"))?
        });
    }
    if parameters.is_empty() {
        parameters.push("void".to_string());
    }
    let result = if types.is_empty(&uses.locals[0])? { &Type::Unit } else { &uses.locals[0] };
    let name = types.declaration(result, &c_name(&uses.function.symbol)?)?;
    let kind = if is_library(&uses.function.symbol) { "INLINED" } else { "static" };
    Ok(listed(&format!("{kind} {name}"), &parameters))
}

/// The library's functions and the closures: many are called for each byte, and do one thing.
pub fn is_library(symbol: &str) -> bool {
    symbol.starts_with("core::") || symbol.contains("::fn::")
}

/// The whole function, its path above it.
pub fn function(types: &Types, functions: &Functions, uses: &Uses) -> Result<String> {
    ensure_found(uses.function)?;
    ensure_sized(uses)?;
    ensure!(!goes_on(&uses.function.body), "{}: a body that ends without a return", uses.function.symbol);
    let mut writer = Writer {
        types,
        functions,
        uses,
        copies: Vec::new(),
        around: Vec::new(),
        labels: 0,
        lines: Vec::new(),
        depth: 1,
    };
    writer.body(&uses.function.body)?;
    let mut text = format!("/* {} */\n{}\n{{\n", uses.function.symbol, signature(types, uses)?);
    for (local, of) in uses.locals.iter().enumerate() {
        if (1..=uses.function.parameters).contains(&local) {
            continue;
        }
        if let Some(parts) = uses.tables.get(&local) {
            text += &table(&types.declaration(of, &writer.name(local))?, parts);
        } else if let (Some(constant), false) = (uses.constants.get(&local), types.is_empty(of)?) {
            text += &writer.constant(&types.declaration(of, &writer.name(local))?, constant)?;
        } else if uses.read.contains(&local) && !types.is_empty(of)? {
            text += &format!("    {};\n", types.declaration(of, &writer.name(local))?);
        }
    }
    for (k, of) in writer.copies.iter().enumerate() {
        text += &format!("    {};\n", types.declaration(of, &format!("c{}", k + 1))?);
    }
    for local in (1..=uses.function.parameters).filter(|local| !uses.read.contains(local)) {
        if !types.is_empty(&uses.locals[local])? {
            text += &format!("    (void){};\n", writer.name(local));
        }
    }
    Ok(text + &writer.lines.join("\n") + "\n}\n")
}
