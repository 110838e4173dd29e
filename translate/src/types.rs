//! The declared structs and enums, and how C writes each type.

use std::collections::{HashMap, HashSet};

use crate::mir::{Declared, Type, BYTE, WORD};
use crate::refused::{ensure, refuse, Result};

/// A struct of the header: its name there, and its fields' names.
#[derive(Clone, PartialEq, Eq)]
pub struct Face {
    pub name: String,
    pub fields: Vec<String>,
}

/// Members by their names.
pub type Members<T> = Vec<(String, T)>;

#[derive(Default)]
pub struct Types {
    table: HashMap<String, Declared>,
    faces: HashMap<String, Face>,
}

/// A symbol as a C name: `session::Session::step` is `session__Session__step`.
pub fn c_name(symbol: &str) -> Result<String> {
    let made = symbol.replace("::", "__");
    let letters = made.bytes().all(|b| b.is_ascii_alphanumeric() || b == b'_');
    ensure!(letters && made.starts_with(|c: char| c.is_ascii_alphabetic()), "no C name: {symbol}");
    ensure!(symbol.contains("::") && made.len() < 64, "no C name of its own: {symbol}");
    Ok(made)
}

/// A type within the name of another: `u8`, `bool`, `session__Stage`, `array_8_u16`.
fn label(of: &Type) -> Result<String> {
    Ok(match of {
        Type::Int(width) => format!("u{width}"),
        Type::Bool => "bool".to_string(),
        Type::Named(symbol) => c_name(symbol)?,
        Type::Array { length, of } => format!("array_{length}_{}", label(of)?),
        Type::Slice { mutable, of } => format!("slice_{}{}", if *mutable { "mut_" } else { "" }, label(of)?),
        Type::Reference { mutable, to } => format!("{}_{}", if *mutable { "mut" } else { "ref" }, label(to)?),
        // Nothing in C is made of these.
        Type::Unit => "unit".to_string(),
        Type::Raw => refuse!("a part of type {of:?}"),
    })
}

impl Types {
    pub fn declare(&mut self, symbol: &str, declared: Declared) -> Result<()> {
        let known = self.table.entry(symbol.to_string()).or_insert_with(|| declared.clone());
        ensure!(*known == declared, "two types {symbol}");
        Ok(())
    }

    pub fn symbols(&self) -> impl Iterator<Item = &String> {
        self.table.keys()
    }

    pub fn declared(&self, symbol: &str) -> Result<&Declared> {
        self.table.get(symbol).map_or_else(|| refuse!("no type {symbol}"), Ok)
    }

    pub fn name_face(&mut self, symbol: &str, face: Face) -> Result<()> {
        let known = self.faces.entry(symbol.to_string()).or_insert_with(|| face.clone());
        ensure!(*known == face, "two structs of the header for {symbol}");
        Ok(())
    }

    /// Whether no declared type holds itself, by a reference either.
    pub fn ensure_no_cycle(&self) -> Result<()> {
        let mut done = HashSet::new();
        self.table.keys().try_for_each(|symbol| self.visit(symbol, &mut Vec::new(), &mut done))
    }

    fn visit(&self, symbol: &str, open: &mut Vec<String>, done: &mut HashSet<String>) -> Result<()> {
        ensure!(!open.iter().any(|other| other == symbol), "a type within itself: {symbol}");
        if !done.insert(symbol.to_string()) {
            return Ok(());
        }
        open.push(symbol.to_string());
        let parts = match self.declared(symbol)? {
            Declared::Struct(fields) => fields.clone(),
            Declared::Enum(variants) => variants.concat(),
        };
        for mut of in &parts {
            while let Type::Reference { to: inner, .. }
            | Type::Slice { of: inner, .. }
            | Type::Array { of: inner, .. } = of
            {
                of = inner;
            }
            if let Type::Named(inner) = of {
                self.visit(inner, open, done)?;
            }
        }
        open.pop();
        Ok(())
    }

    /// Whether it has one value at most, of which C keeps nothing; so it is with a reference to one.
    pub fn is_empty(&self, of: &Type) -> Result<bool> {
        Ok(match of {
            Type::Unit => true,
            Type::Reference { to, .. } => self.is_empty(to)?,
            Type::Named(symbol) => match self.declared(symbol)? {
                Declared::Struct(fields) => self.are_empty(fields)?,
                Declared::Enum(variants) => variants.is_empty(),
            },
            _ => false,
        })
    }

    fn are_empty(&self, all: &[Type]) -> Result<bool> {
        for of in all {
            if !self.is_empty(of)? {
                return Ok(false);
            }
        }
        Ok(true)
    }

    /// Whether something can be written where it leads.
    pub fn leads_to_writing(&self, of: &Type) -> Result<bool> {
        let parts = match of {
            Type::Reference { mutable: true, .. } | Type::Slice { mutable: true, .. } => return Ok(true),
            Type::Reference { to: inner, .. }
            | Type::Slice { of: inner, .. }
            | Type::Array { of: inner, .. } => {
                return self.leads_to_writing(inner);
            }
            Type::Named(symbol) => match self.declared(symbol)? {
                Declared::Struct(fields) => fields.clone(),
                Declared::Enum(variants) => variants.concat(),
            },
            Type::Int(_) | Type::Bool | Type::Unit | Type::Raw => Vec::new(),
        };
        for part in &parts {
            if self.leads_to_writing(part)? {
                return Ok(true);
            }
        }
        Ok(false)
    }

    /// Members without those of which C keeps nothing.
    fn kept(&self, members: Members<Type>) -> Result<Members<Type>> {
        let mut found = Members::new();
        for (name, of) in members {
            if !self.is_empty(&of)? {
                found.push((name, of));
            }
        }
        Ok(found)
    }

    /// Whether it is a struct of the header, whose arrays stand in it as they are.
    pub fn is_face(&self, of: &Type) -> bool {
        matches!(of, Type::Named(symbol) if self.faces.contains_key(symbol))
    }

    pub fn is_enum(&self, symbol: &str) -> Result<bool> {
        Ok(matches!(self.declared(symbol)?, Declared::Enum(_)))
    }

    /// Whether it is an enum whose variants have no fields: C has its tag alone.
    pub fn is_bare(&self, symbol: &str) -> Result<bool> {
        Ok(match self.declared(symbol)? {
            Declared::Struct(_) => false,
            Declared::Enum(variants) => self.are_empty(&variants.concat())?,
        })
    }

    /// Whether C assigns it as a struct of members, an array apart.
    pub fn has_members(&self, of: &Type) -> Result<bool> {
        match of {
            Type::Slice { .. } => Ok(true),
            Type::Named(symbol) => Ok(!self.is_empty(of)? && !self.is_bare(symbol)?),
            _ => Ok(false),
        }
    }

    /// A struct's fields by their names, in order.
    pub fn fields(&self, symbol: &str) -> Result<Members<Type>> {
        let Declared::Struct(fields) = self.declared(symbol)? else {
            refuse!("a field of the enum {symbol}")
        };
        let name = |k: usize| match self.faces.get(symbol) {
            Some(face) => face.fields[k].clone(),
            None => format!("f{k}"),
        };
        Ok(fields.iter().enumerate().map(|(k, of)| (name(k), of.clone())).collect())
    }

    /// The fields of one variant by their names, in order. Variants share members: the first of a type is the same one in
    /// every variant.
    pub fn variant(&self, symbol: &str, k: usize) -> Result<Members<Type>> {
        let Declared::Enum(variants) = self.declared(symbol)? else {
            refuse!("a variant of the struct {symbol}")
        };
        let Some(fields) = variants.get(k) else { refuse!("variant {k} of {symbol}") };
        let before = |j: usize| fields[..j].iter().filter(|of| **of == fields[j]).count();
        let named = |(j, of): (usize, &Type)| Ok((format!("{}_{}", label(of)?, before(j)), of.clone()));
        fields.iter().enumerate().map(named).collect()
    }

    /// All members of an enum beside its tag, each once.
    fn members_of_enum(&self, symbol: &str) -> Result<Members<Type>> {
        let Declared::Enum(variants) = self.declared(symbol)? else { refuse!("{symbol} is no enum") };
        let mut found = Members::new();
        for k in 0..variants.len() {
            for member in self.kept(self.variant(symbol, k)?)? {
                if !found.contains(&member) {
                    found.push(member);
                }
            }
        }
        Ok(found)
    }

    /// What C keeps it as, in order; of an enum the tag, and the members of all variants.
    pub fn members(&self, of: &Type) -> Result<Members<Type>> {
        Ok(match of {
            Type::Slice { mutable, of } => {
                let at = Type::Reference { mutable: *mutable, to: of.clone() };
                vec![("at".to_string(), at), ("length".to_string(), WORD)]
            }
            Type::Named(symbol) => match self.declared(symbol)? {
                Declared::Struct(_) => self.kept(self.fields(symbol)?)?,
                Declared::Enum(_) => {
                    let tag = ("tag".to_string(), BYTE);
                    [tag].into_iter().chain(self.members_of_enum(symbol)?).collect()
                }
            },
            _ => refuse!("members of {of:?}"),
        })
    }

    /// What is assigned one by one when the whole is: members of members, and elements of the header's
    /// arrays, each as C names it within the whole.
    pub fn leaves(&self, of: &Type) -> Result<Members<Type>> {
        let mut found = Vec::new();
        for (name, inner) in self.members(of)? {
            if self.has_members(&inner)? {
                let inner = self.leaves(&inner)?;
                found.extend(inner.into_iter().map(|(rest, of)| (format!("{name}.{rest}"), of)));
                continue;
            }
            match inner {
                Type::Array { length, of: element } if self.is_face(of) => {
                    found.extend((0..length).map(|k| (format!("{name}[{k}]"), (*element).clone())));
                }
                _ => found.push((name, inner)),
            }
        }
        Ok(found)
    }

    /// C's name of a type; a pointer's comes from `pointer`.
    pub fn c(&self, of: &Type) -> Result<String> {
        Ok(match of {
            Type::Int(width) => format!("uint{width}_t"),
            Type::Bool => "_Bool".to_string(),
            Type::Unit => "void".to_string(),
            Type::Slice { .. } | Type::Array { .. } => label(of)?,
            Type::Named(symbol) => match self.faces.get(symbol) {
                Some(face) => face.name.clone(),
                None => c_name(symbol)?,
            },
            Type::Raw | Type::Reference { .. } => refuse!("a pointer where a value is wanted"),
        })
    }

    /// A declaration without its semicolon: `uint8_t v3`, `const uint8_t *v4`.
    pub fn declaration(&self, of: &Type, name: &str) -> Result<String> {
        Ok(match of {
            Type::Reference { mutable, to } => match (to.pointed(), mutable) {
                (to @ Type::Reference { .. }, true) => self.declaration(to, &format!("*{name}"))?,
                (to @ Type::Reference { .. }, false) => self.declaration(to, &format!("const *{name}"))?,
                (to, true) => format!("{} *{name}", self.c(to)?),
                (to, false) => format!("const {} *{name}", self.c(to)?),
            },
            _ => format!("{} {name}", self.c(of)?),
        })
    }

    /// The definitions of the types that are used, each after those that it holds.
    pub fn definitions<'a>(&self, used: impl Iterator<Item = &'a Type>) -> Result<Vec<String>> {
        let (mut lines, mut done) = (Vec::new(), HashSet::new());
        for of in used {
            self.define(of, &mut done, &mut lines)?;
        }
        Ok(lines)
    }

    /// An array, or an enum that is its tag alone.
    fn plain_definition(&self, of: &Type) -> Result<Option<String>> {
        Ok(match of {
            Type::Array { length, of: element } => {
                let element = self.c(element)?;
                Some(format!("typedef struct {{\n    {element} at[{length}];\n}} {};\n", self.c(of)?))
            }
            Type::Named(symbol) if self.is_bare(symbol)? => {
                Some(format!("typedef uint8_t {};\n", self.c(of)?))
            }
            _ => None,
        })
    }

    fn define(&self, of: &Type, done: &mut HashSet<Type>, lines: &mut Vec<String>) -> Result<()> {
        if self.is_empty(of)? || !done.insert(of.clone()) {
            return Ok(());
        }
        if let Type::Reference { to: inner, .. } | Type::Array { of: inner, .. } = of {
            self.define(inner.pointed(), done, lines)?;
        }
        lines.extend(self.plain_definition(of)?);
        if !self.has_members(of)? {
            return Ok(());
        }
        let members = self.members(of)?;
        for (_, inner) in
            members.iter().filter(|(_, inner)| !(self.is_face(of) && matches!(inner, Type::Array { .. })))
        {
            self.define(inner, done, lines)?;
        }
        if self.is_face(of) {
            return Ok(());
        }
        let declared =
            members.iter().map(|(name, inner)| Ok(format!("    {};\n", self.declaration(inner, name)?)));
        let declared = declared.collect::<Result<String>>()?;
        lines.push(format!("typedef struct {{\n{declared}}} {};\n", self.c(of)?));
        Ok(())
    }
}
