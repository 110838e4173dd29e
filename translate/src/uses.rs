//! What a function does with its locals: read off its statements before any C is written.

use std::collections::{HashMap, HashSet};

use crate::mir::{all_statements, places_read, target_of};
use crate::mir::{Function, Op, Operand, Place, Statement, Step, Type, Value};
use crate::refused::{ensure, refuse, Result};
use crate::types::Types;

pub struct Uses<'a> {
    pub function: &'a Function,
    /// The locals' types, each raw pointer that is used as the reference that it is used as.
    pub locals: Vec<Type>,
    pub read: HashSet<usize>,
    /// The arrays that are made once, of constants, and lent only to be read: C keeps each as a table.
    pub tables: HashMap<usize, &'a [Operand]>,
    /// The constants that are lent, which C keeps so too.
    pub constants: HashMap<usize, &'a Operand>,
    assigned: HashSet<usize>,
    addressed: HashSet<usize>,
}

fn starts_with_deref(place: &Place) -> bool {
    matches!(place.steps.first(), Some(Step::Deref(_)))
}

/// The locals that something depends on. What goes to a local that nothing reads is not read for it.
fn read(all: &[&Statement]) -> HashSet<usize> {
    let mut found = HashSet::from([0]);
    loop {
        let before = found.len();
        for statement in all {
            let target = target_of(statement);
            let is_whole =
                target.is_some_and(|target| target.steps.is_empty() && !found.contains(&target.local));
            if is_whole && matches!(statement, Statement::Assign(..)) {
                continue;
            }
            found.extend(places_read(statement).iter().map(|place| place.local));
            found.extend(target.filter(|target| !target.steps.is_empty()).map(|target| target.local));
        }
        if found.len() == before {
            return found;
        }
    }
}

impl<'a> Uses<'a> {
    pub fn of(function: &'a Function) -> Result<Uses<'a>> {
        let all = all_statements(&function.body);
        let (mut assigned, mut addressed) = (HashSet::new(), HashSet::new());
        for statement in &all {
            for place in places_read(statement).into_iter().chain(target_of(statement)) {
                ensure!(
                    place.local < function.locals.len(),
                    "{} has no local {}",
                    function.symbol,
                    place.local
                );
            }
            assigned.extend(target_of(statement).map(|target| target.local));
            if let Statement::Assign(_, Value::AddressOf(place)) = statement {
                if !place.steps.iter().any(|step| matches!(step, Step::Deref(_))) {
                    addressed.insert(place.local);
                }
            }
        }
        let mut uses = Uses {
            function,
            locals: function.locals.clone(),
            read: read(&all),
            tables: HashMap::new(),
            constants: HashMap::new(),
            assigned,
            addressed,
        };
        uses.settle_raw_pointers(&all)?;
        uses.find_tables(&all);
        for local in &function.constants {
            let made = uses.made_once(&all, *local);
            let Some(Value::Use(constant)) =
                made.filter(|value| !matches!(value, Value::Use(Operand::Copy(_))))
            else {
                refuse!("{}: a constant that is written, or no constant", function.symbol)
            };
            uses.constants.insert(*local, constant);
        }
        Ok(uses)
    }

    /// A struct that the body only reads is handed over by a pointer to it.
    pub fn by_pointer(&self, types: &Types, local: usize) -> Result<bool> {
        let parameter = (1..=self.function.parameters).contains(&local);
        let kept = !self.assigned.contains(&local) && !self.addressed.contains(&local);
        Ok(parameter
            && kept
            && matches!(self.locals[local], Type::Named(_))
            && types.has_members(&self.locals[local])?)
    }

    pub fn is_addressed(&self, local: usize) -> bool {
        self.addressed.contains(&local)
    }

    /// Each raw pointer gets what it points to from where it is followed, and whether it is written through.
    fn settle_raw_pointers(&mut self, all: &[&Statement]) -> Result<()> {
        let mut raw = RawPointers::default();
        for statement in all {
            raw.note(&self.locals, statement);
        }
        raw.spread();
        for local in 0..self.locals.len() {
            if self.locals[local] == Type::Raw && self.read.contains(&local) {
                let to: Vec<_> = raw.pointees.entry(local).or_default().iter().cloned().collect();
                let [to] = &to[..] else { refuse!("{}: a raw pointer to {to:?}", self.function.symbol) };
                let mutable = raw.written.contains(&local);
                self.locals[local] = Type::Reference { mutable, to: Box::new(to.clone()) };
            }
        }
        Ok(())
    }

    fn find_tables(&mut self, all: &[&'a Statement]) {
        for local in self.function.parameters + 1..self.locals.len() {
            let Type::Array { .. } = self.locals[local] else { continue };
            let Some(Value::Aggregate(parts)) = self.made_once(all, local) else { continue };
            if parts.iter().all(|part| matches!(part, Operand::Int { .. })) {
                self.tables.insert(local, parts);
            }
        }
    }

    /// What goes to a local, if it is written once, whole, and lent only to be read.
    fn made_once(&self, all: &[&'a Statement], local: usize) -> Option<&'a Value> {
        let mut writes = all.iter().filter(|s| target_of(s).is_some_and(|target| target.local == local));
        let lent_mutably = all.iter().any(|s| match s {
            Statement::Assign(target, Value::AddressOf(place)) if place.local == local => {
                !matches!(self.locals[target.local], Type::Reference { mutable: false, .. })
            }
            _ => false,
        });
        match (writes.next(), writes.next(), lent_mutably) {
            (Some(Statement::Assign(target, value)), None, false) if target.steps.is_empty() => Some(value),
            _ => None,
        }
    }
}

/// What is known of the raw pointers among the locals.
#[derive(Default)]
struct RawPointers {
    pointees: HashMap<usize, HashSet<Type>>,
    written: HashSet<usize>,
    /// Each raw pointer that was made from another one.
    made_from: Vec<(usize, usize)>,
}

impl RawPointers {
    fn note(&mut self, locals: &[Type], statement: &Statement) {
        for place in places_read(statement).into_iter().chain(target_of(statement)) {
            if let (Type::Raw, Some(Step::Deref(to))) = (&locals[place.local], place.steps.first()) {
                self.pointees.entry(place.local).or_default().insert(to.pointed().clone());
            }
        }
        if let Some(target) = target_of(statement).filter(|target| starts_with_deref(target)) {
            self.written.insert(target.local);
        }
        let Statement::Assign(target, value) = statement else { return };
        if let (Value::Aggregate(parts), []) = (value, &target.steps[..]) {
            self.note_slice(&locals[target.local], parts, locals);
        }
        let (Value::Use(Operand::Copy(source))
        | Value::Op(Op::Offset, Operand::Copy(source), _)
        | Value::AddressOf(source)) = value
        else {
            return;
        };
        if locals[source.local] != Type::Raw {
            return;
        }
        match &locals[target.local] {
            Type::Reference { mutable: true, .. } => {
                self.written.insert(source.local);
            }
            Type::Raw if target.steps.is_empty() => self.made_from.push((target.local, source.local)),
            _ => (),
        }
    }

    /// A slice that begins where a raw pointer points.
    fn note_slice(&mut self, made: &Type, parts: &[Operand], locals: &[Type]) {
        let (Type::Slice { mutable, of }, Some(Operand::Copy(begin))) = (made, parts.first()) else { return };
        if locals[begin.local] == Type::Raw && begin.steps.is_empty() {
            self.pointees.entry(begin.local).or_default().insert(of.pointed().clone());
            self.written.extend(mutable.then_some(begin.local));
        }
    }

    /// What one points to, the one that it was made from does too; so it is with what is written.
    fn spread(&mut self) {
        for _ in 0..self.made_from.len() {
            for (made, from) in self.made_from.clone() {
                let one = self.pointees.entry(made).or_default().clone();
                let other = self.pointees.entry(from).or_default();
                other.extend(one);
                let both = other.clone();
                self.pointees.insert(made, both);
                if self.written.contains(&made) {
                    self.written.insert(from);
                }
            }
        }
    }
}
