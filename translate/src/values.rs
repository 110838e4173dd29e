//! Places, operands and values in C, each typed again.

use crate::emit::Writer;
use crate::mir::{Declared, Op, Operand, Place, Step, Type, Value, BYTE, WORD};
use crate::refused::{ensure, refuse, Result};
use crate::types::Members;

/// A place in C: itself, or an expression that points to it.
pub struct Spot {
    pub text: String,
    pub pointer: bool,
    /// An array as the header's structs have it: C neither assigns it whole nor hands it over.
    pub bare: bool,
}

impl Spot {
    pub fn member(&self, name: &str) -> Spot {
        let text = format!("{}{}{name}", self.text, if self.pointer { "->" } else { "." });
        Spot { text, pointer: false, bare: false }
    }

    pub fn value(&self) -> String {
        format!("{}{}", if self.pointer { "*" } else { "" }, self.text)
    }

    /// What a pointer that stands here points to; of an array, the elements.
    fn followed(&self, to: &Type) -> Spot {
        let is_array = matches!(to, Type::Array { .. });
        let text = if self.pointer { format!("(*{})", self.text) } else { self.text.clone() };
        Spot { text, pointer: !is_array, bare: is_array }
    }

    /// The elements of an array.
    pub fn elements(&self) -> String {
        if self.bare {
            self.text.clone()
        } else {
            self.member("at").value()
        }
    }
}

/// An operand in C.
pub enum Given {
    Place(Spot, Type),
    Constant(String, Type),
}

impl Given {
    pub fn of(&self) -> &Type {
        match self {
            Given::Place(_, of) | Given::Constant(_, of) => of,
        }
    }

    pub fn text(&self) -> String {
        match self {
            Given::Place(spot, _) => spot.value(),
            Given::Constant(text, _) => text.clone(),
        }
    }
}

/// Each element of an array in C.
fn one_by_one(from: &Spot, length: u64) -> Vec<String> {
    (0..length).map(|k| format!("{}[{k}]", from.elements())).collect()
}

/// What a pointer points to in C: of an array, its first element.
fn pointee(of: &Type) -> Option<&Type> {
    match of {
        Type::Reference { to, .. } => Some(to.pointed()),
        _ => None,
    }
}

impl Writer<'_> {
    pub fn place(&self, place: &Place) -> Result<(Spot, Type)> {
        let mut of = self.uses.locals[place.local].clone();
        let mut spot = Spot {
            text: self.name(place.local),
            pointer: self.uses.by_pointer(self.types, place.local)?,
            bare: false,
        };
        let mut steps = place.steps.iter();
        while let Some(step) = steps.next() {
            let (next, then) = match (step, &of) {
                (Step::Deref(to), Type::Reference { to: found, .. }) => {
                    ensure!(
                        to == &**found || to.pointed() == found.pointed(),
                        "a {found:?} followed as {to:?}"
                    );
                    (spot.followed(to), to.clone())
                }
                (Step::Variant(k), Type::Named(symbol)) => {
                    let members = self.types.variant(symbol, *k)?;
                    match steps.next() {
                        Some(Step::Field(0)) if self.types.is_bare(symbol)? => (spot, BYTE),
                        Some(Step::Field(0)) => (spot.member("tag"), BYTE),
                        Some(Step::Field(j)) if *j <= members.len() => {
                            let (name, then) = &members[*j - 1];
                            (spot.member(name), then.clone())
                        }
                        other => refuse!("a variant and then {other:?}"),
                    }
                }
                (Step::Field(0), Type::Slice { mutable, of }) => {
                    (spot.member("at"), Type::Reference { mutable: *mutable, to: of.clone() })
                }
                (Step::Field(1), Type::Slice { .. }) => (spot.member("length"), WORD),
                (Step::Field(k), Type::Named(symbol)) => {
                    let fields = self.types.fields(symbol)?;
                    let Some((name, then)) = fields.get(*k) else { refuse!("field {k} of {symbol}") };
                    (self.member(&spot, &of, name, then), then.clone())
                }
                _ => refuse!("the step {step:?} from {of:?}"),
            };
            (spot, of) = (next, then);
        }
        Ok((spot, of))
    }

    /// A member of a struct, by its name and its type.
    pub fn member(&self, whole: &Spot, of: &Type, name: &str, part: &Type) -> Spot {
        let bare = self.types.is_face(of) && matches!(part, Type::Array { .. });
        Spot { bare, ..whole.member(name) }
    }

    /// An operand as C hands it over: an array of the header's goes into a struct of its own.
    pub fn whole(&self, given: &Given) -> Result<String> {
        match given {
            Given::Place(from, of @ Type::Array { length, .. }) if from.bare => {
                Ok(format!("({}){{{{{}}}}}", self.types.c(of)?, one_by_one(from, *length).join(", ")))
            }
            _ => Ok(given.text()),
        }
    }

    pub fn operand(&self, operand: &Operand) -> Result<Given> {
        Ok(match operand {
            Operand::Copy(from) => {
                let (spot, of) = self.place(from)?;
                Given::Place(spot, of)
            }
            Operand::Int { width, value } if *width < 32 => {
                Given::Constant(format!("{value}u"), Type::Int(*width))
            }
            Operand::Int { width, value } => {
                Given::Constant(format!("UINT{width}_C({value})"), Type::Int(*width))
            }
            Operand::Bool(value) => Given::Constant(u8::from(*value).to_string(), Type::Bool),
            Operand::Unit => Given::Constant(String::new(), Type::Unit),
            Operand::SizeOf(of) => Given::Constant(format!("(uint64_t){}", self.size_of(of)?), WORD),
            Operand::Parts(of, _) => refuse!("a constant {of:?} that is not lent"),
        })
    }

    fn size_of(&self, of: &Type) -> Result<String> {
        ensure!(!self.types.is_empty(of)?, "elements of nothing: {of:?}");
        Ok(format!("sizeof({})", self.types.declaration(of, "")?.trim_end()))
    }

    /// A constant as C has it where it is declared.
    pub fn initial(&self, constant: &Operand) -> Result<Given> {
        let Operand::Parts(of, parts) = constant else { return self.operand(constant) };
        if let Type::Array { length, of: element } = of {
            let given = parts.iter().map(|part| self.initial(part)).collect::<Result<Vec<_>>>()?;
            self.ensure_types(&given, &vec![(**element).clone(); *length as usize])?;
            let all: Vec<_> = given.iter().map(Given::text).collect();
            return Ok(Given::Constant(format!("{{{{{}}}}}", all.join(", ")), of.clone()));
        }
        let (named, _) = self.parts_by(parts, of, |part| self.initial(part))?;
        let text = match &named[..] {
            [(_, tag)] if !self.types.has_members(of)? => tag.text(),
            _ => {
                let one = |(name, given): &(String, Given)| format!(".{name} = {}", given.text());
                format!("{{{}}}", named.iter().map(one).collect::<Vec<_>>().join(", "))
            }
        };
        Ok(Given::Constant(text, of.clone()))
    }

    pub fn operands(&self, parts: &[Operand]) -> Result<Vec<Given>> {
        parts.iter().map(|part| self.operand(part)).collect()
    }

    /// A value that goes to a place of that type.
    pub fn value(&self, value: &Value, want: &Type) -> Result<String> {
        if let (true, Value::AddressOf(place)) = (self.types.is_empty(want)?, value) {
            let (_, of) = self.place(place)?;
            ensure!(Some(of.pointed()) == pointee(want), "the address of a {of:?} as {want:?}");
            return Ok(String::new());
        }
        match value {
            Value::Use(from) => {
                let given = self.operand(from)?;
                let pointers = pointee(want).is_some() && pointee(given.of()) == pointee(want);
                ensure!(given.of() == want || pointers, "a {:?} where a {want:?} goes", given.of());
                self.whole(&given)
            }
            Value::Op(op, a, b) => self.operation(*op, &self.operand(a)?, &self.operand(b)?, want),
            Value::Not(a) => {
                let given = self.operand(a)?;
                ensure!(given.of() == want, "not of {:?} as {want:?}", given.of());
                match want {
                    Type::Bool => Ok(format!("!{}", given.text())),
                    Type::Int(_) => Ok(format!("({})~{}", self.types.c(want)?, given.text())),
                    _ => refuse!("not of {want:?}"),
                }
            }
            Value::Cast(width, a) => {
                let given = self.operand(a)?;
                ensure!(matches!(given.of(), Type::Int(_) | Type::Bool), "a cast of {:?}", given.of());
                ensure!(*want == Type::Int(*width), "a cast to {width} bits where a {want:?} goes");
                Ok(format!("({}){}", self.types.c(want)?, given.text()))
            }
            Value::AddressOf(place) => self.address(place, want),
            Value::Aggregate(parts) => self.aggregate(parts, want),
            Value::Repeat(..) => refuse!("a repeated element that does not go to an array"),
        }
    }

    /// An array's address is that of its first element, a struct's of one member that of the member, if that is
    /// what is wanted; the address of what a pointer points to is the pointer.
    fn address(&self, place: &Place, want: &Type) -> Result<String> {
        let (mut spot, mut of) = self.place(place)?;
        while let (Type::Named(symbol), false) = (&of, Some(&of) == pointee(want)) {
            let Declared::Struct(_) = self.types.declared(symbol)? else { break };
            let [(name, part)] = &self.types.members(&of)?[..] else { break };
            (spot, of) = (self.member(&spot, &of, name, part), part.clone());
        }
        match (&of, pointee(want)) {
            (Type::Array { of, .. }, Some(to)) if **of == *to => Ok(spot.elements()),
            (_, Some(to)) if of == *to && spot.pointer => Ok(spot.text),
            (_, Some(to)) if of == *to => Ok(format!("&{}", spot.text)),
            _ => refuse!("the address of a {of:?} as {want:?}"),
        }
    }

    fn operation(&self, op: Op, a: &Given, b: &Given, want: &Type) -> Result<String> {
        let (x, y) = (a.text(), b.text());
        if op == Op::Offset {
            return self.offset(a, b, want);
        }
        ensure!(a.of() == b.of(), "{op:?} of {:?} and {:?}", a.of(), b.of());
        let sign = match op {
            Op::Eq => "==",
            Op::Ne => "!=",
            Op::Lt => "<",
            Op::Le => "<=",
            Op::Add | Op::WrapAdd => "+",
            Op::Sub | Op::WrapSub => "-",
            Op::Mul | Op::WrapMul => "*",
            Op::Div => "/",
            Op::Rem => "%",
            Op::And => "&",
            Op::Or => "|",
            Op::Xor => "^",
            Op::Shl => "<<",
            Op::Shr => ">>",
            Op::Offset => refuse!("an offset"),
        };
        let logical = matches!(op, Op::And | Op::Or | Op::Xor);
        match (op, a.of()) {
            (Op::Eq | Op::Ne, Type::Int(_) | Type::Bool) | (Op::Lt | Op::Le, Type::Int(_)) => {
                ensure!(*want == Type::Bool, "a comparison where a {want:?} goes");
                Ok(format!("{x} {sign} {y}"))
            }
            (Op::Eq | Op::Ne | Op::Lt | Op::Le, of) => refuse!("{op:?} of {of:?}"),
            (_, of) if of != want => refuse!("{op:?} of {of:?} where a {want:?} goes"),
            // What wraps around is cut off a wider number, which does not; where there is none, it is told apart.
            (Op::WrapAdd, Type::Int(64)) => {
                Ok(format!("{x} > UINT64_MAX - {y} ? {x} - (UINT64_MAX - {y}) - 1u : {x} + {y}"))
            }
            (Op::WrapSub, Type::Int(64)) => {
                Ok(format!("{x} < {y} ? {x} + (UINT64_MAX - {y}) + 1u : {x} - {y}"))
            }
            (Op::WrapMul, Type::Int(64)) => refuse!("{op:?} of {of:?}", of = a.of()),
            (Op::WrapAdd | Op::WrapMul, Type::Int(32)) => Ok(format!("(uint32_t)((uint64_t){x} {sign} {y})")),
            (Op::WrapSub, Type::Int(32)) => Ok(format!("(uint32_t)((UINT64_C(1) << 32) + {x} - {y})")),
            (Op::WrapSub, Type::Int(width @ (8 | 16))) => {
                Ok(format!("(uint{width}_t)({}u + {x} - {y})", 1u32 << width))
            }
            (_, Type::Bool) if logical => Ok(format!("(_Bool)({x} {sign} {y})")),
            (_, Type::Int(64)) => Ok(format!("{x} {sign} {y}")),
            (_, Type::Int(32)) => Ok(format!("(uint32_t)({x} {sign} {y})")),
            // What C would widen to a signed int is widened to an unsigned one.
            (_, Type::Int(width)) => Ok(format!("(uint{width}_t)((unsigned){x} {sign} {y})")),
            (_, of) => refuse!("{op:?} of {of:?}"),
        }
    }

    /// MIR counts bytes and C elements. An access is proved to be aligned: where one follows, the division
    /// loses nothing.
    fn offset(&self, a: &Given, b: &Given, want: &Type) -> Result<String> {
        let (Some(from), Some(to)) = (pointee(a.of()), pointee(want)) else {
            refuse!("an offset of {:?}", a.of())
        };
        ensure!(from == to && *b.of() == WORD, "an offset from {from:?} to {to:?} by {:?}", b.of());
        let (pointer, count) = (a.text(), b.text());
        match to {
            Type::Int(8) => Ok(format!("{pointer} + (size_t){count}")),
            Type::Int(width) => Ok(format!("{pointer} + (size_t)({count} / {}u)", width / 8)),
            _ => Ok(format!("{pointer} + (size_t)({count} / {})", self.size_of(to)?)),
        }
    }

    pub fn ensure_types(&self, given: &[Given], want: &[Type]) -> Result<()> {
        let found: Vec<_> = given.iter().map(Given::of).collect();
        let fits = |(found, want): (&&Type, &Type)| {
            *found == want || matches!(want, Type::Reference { .. }) && pointee(found) == pointee(want)
        };
        let fit = found.len() == want.len() && found.iter().zip(want).all(fits);
        ensure!(fit, "parts {found:?} where {want:?} are wanted");
        Ok(())
    }

    /// The members of a value that is made of its parts, by their names, and the members that it leaves at 0. Of
    /// empty parts there is nothing.
    pub fn parts(&self, parts: &[Operand], want: &Type) -> Result<(Members<Given>, Members<Type>)> {
        self.parts_by(parts, want, |part| self.operand(part))
    }

    fn parts_by(
        &self,
        parts: &[Operand],
        want: &Type,
        part: impl Fn(&Operand) -> Result<Given>,
    ) -> Result<(Members<Given>, Members<Type>)> {
        let all = self.types.members(want)?;
        let made = match (want, parts.first()) {
            (Type::Named(symbol), tag) if self.types.is_enum(symbol)? => {
                let Some(Operand::Int { width: 8, value }) = tag else {
                    refuse!("a tag that is no constant")
                };
                let fields = self.types.variant(symbol, *value as usize)?;
                [("tag".to_string(), BYTE)].into_iter().chain(fields).collect()
            }
            (Type::Named(symbol), _) => self.types.fields(symbol)?,
            _ => all.clone(),
        };
        let given = parts.iter().map(part).collect::<Result<Vec<_>>>()?;
        self.ensure_types(&given, &made.iter().map(|(_, of)| of.clone()).collect::<Vec<_>>())?;
        let left = all.iter().filter(|member| !made.contains(member)).cloned().collect();
        let named = made.into_iter().zip(given).filter(|(member, _)| all.contains(member));
        Ok((named.map(|((name, _), given)| (name, given)).collect(), left))
    }

    pub fn elements(&self, parts: &[Operand], want: &Type) -> Result<Vec<Given>> {
        let Type::Array { length, of } = want else { refuse!("a {want:?} made of elements") };
        let given = self.operands(parts)?;
        self.ensure_types(&given, &vec![(**of).clone(); *length as usize])?;
        Ok(given)
    }

    fn aggregate(&self, parts: &[Operand], want: &Type) -> Result<String> {
        if let Type::Array { .. } = want {
            let given: Vec<_> = self.elements(parts, want)?.iter().map(Given::text).collect();
            return Ok(format!("({}){{{{{}}}}}", self.types.c(want)?, given.join(", ")));
        }
        let (named, _) = self.parts(parts, want)?;
        if !self.types.has_members(want)? {
            return Ok(named.first().map_or(String::new(), |(_, tag)| tag.text()));
        }
        let mut members = Vec::new();
        for (name, given) in &named {
            let text = match given {
                Given::Place(from, Type::Array { length, .. }) if self.types.is_face(want) => {
                    format!("{{{}}}", one_by_one(from, *length).join(", "))
                }
                _ => self.whole(given)?,
            };
            members.push(format!(".{name} = {text}"));
        }
        Ok(format!("({}){{{}}}", self.types.c(want)?, members.join(", ")))
    }
}
