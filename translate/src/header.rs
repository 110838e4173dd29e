//! A header of the crate: what it declares, word by word, held against the MIR.

use std::collections::HashMap;
use std::fs;
use std::path::Path;

use crate::emit::{listed, Functions};
use crate::mir::{Declared, Type, WORD};
use crate::refused::{ensure, refuse, Result};
use crate::types::{c_name, Face, Types};

struct Parameter {
    constant: bool,
    of: String,
    pointer: bool,
    name: String,
}

struct Declaration {
    result: String,
    name: String,
    parameters: Vec<Parameter>,
}

impl Declaration {
    /// The function of the MIR: the crate's one of that name, whatever its module.
    fn symbol(&self, crate_name: &str, functions: &Functions) -> Result<String> {
        let named = |symbol: &&str| {
            let path: Vec<_> = symbol.split("::").collect();
            path[0] == crate_name && path[path.len() - 1] == self.name
        };
        let mut found = functions.keys().copied().filter(named);
        match (found.next(), found.next()) {
            (Some(symbol), None) => Ok(symbol.to_string()),
            (None, _) => refuse!("{crate_name} has no function {}", self.name),
            (Some(_), Some(_)) => refuse!("{crate_name} has two functions {}", self.name),
        }
    }
}

/// A member of a struct: its type, its name, and how many elements an array has.
struct Member {
    of: String,
    name: String,
    length: Option<u64>,
}

pub struct Header {
    pub file: String,
    /// Every word of it and of the headers that it includes.
    pub words: Vec<String>,
    /// The names that it defines for the preprocessor: numbers, and the mark of the header.
    macros: Vec<String>,
    structs: HashMap<String, Vec<Member>>,
    functions: Vec<Declaration>,
}

const SYSTEM: [&str; 3] = ["<stdbool.h>", "<stddef.h>", "<stdint.h>"];
const IN_CXX: [&str; 2] = ["extern \"C\" {", "}"];

fn without_comments(text: &str) -> Result<String> {
    let (mut made, mut rest) = (String::new(), text);
    while let Some(start) = rest.find("/*") {
        let Some(end) = rest[start..].find("*/") else { refuse!("a comment that is not closed") };
        made += &rest[..start];
        made.push(' ');
        rest = &rest[start + end + 2..];
    }
    made += rest;
    Ok(made.lines().map(|line| line.split("//").next().unwrap_or("").to_string() + "\n").collect())
}

/// Names, numbers, and signs of one character.
fn tokens(text: &str) -> Result<Vec<String>> {
    let (mut found, mut rest) = (Vec::new(), text.trim_start());
    while let Some(first) = rest.chars().next() {
        let word = |c: char| c.is_ascii_alphanumeric() || c == '_';
        ensure!(word(first) || first.is_ascii_punctuation(), "the header has the sign {first}");
        let length = if word(first) { rest.find(|c| !word(c)).unwrap_or(rest.len()) } else { 1 };
        found.push(rest[..length].to_string());
        rest = rest[length..].trim_start();
    }
    Ok(found)
}

struct Tokens<'a> {
    left: std::vec::IntoIter<String>,
    macros: &'a [String],
}

impl Tokens<'_> {
    fn next(&mut self) -> Result<String> {
        self.left.next().map_or_else(|| refuse!("the header ends within a declaration"), Ok)
    }

    fn name(&mut self) -> Result<String> {
        let found = self.next()?;
        let named = found.starts_with(|c: char| c.is_ascii_alphabetic() || c == '_');
        ensure!(named, "the header has {found} where a name is wanted");
        ensure!(
            !self.macros.contains(&found),
            "the header defines {found} for the preprocessor and declares it"
        );
        Ok(found)
    }

    fn expect(&mut self, wanted: &str) -> Result<()> {
        let found = self.next()?;
        ensure!(found == wanted, "the header has {found} where {wanted} is wanted");
        Ok(())
    }
}

impl Header {
    pub fn read(path: &Path) -> Result<Header> {
        let file = path.file_name().map(|name| name.to_string_lossy().into_owned()).unwrap_or_default();
        let Ok(text) = fs::read_to_string(path) else { refuse!("cannot read {}", path.display()) };
        Header::of(file, &text, path.parent().unwrap_or(Path::new(".")))
    }

    /// A header by its name and its text; the headers that it includes stand in the folder.
    pub fn of(file: String, text: &str, folder: &Path) -> Result<Header> {
        let (structs, functions) = (HashMap::new(), Vec::new());
        let mut header = Header { file, words: Vec::new(), macros: Vec::new(), structs, functions };
        let plain = header.directives(&without_comments(text)?, folder)?;
        let tokens = tokens(&plain)?;
        header.words.extend(tokens.iter().chain(&header.macros).cloned());
        let macros = header.macros.clone();
        header.items(Tokens { left: tokens.into_iter(), macros: &macros })?;
        Ok(header)
    }

    /// Takes the lines of the preprocessor out, and the structs of the headers that are included.
    fn directives(&mut self, text: &str, folder: &Path) -> Result<String> {
        let (mut plain, mut in_cxx) = (String::new(), false);
        for line in text.lines().map(str::trim) {
            let words: Vec<_> = line.split_whitespace().collect();
            match &words[..] {
                ["#endif"] => in_cxx = false,
                _ if in_cxx => ensure!(IN_CXX.contains(&line), "the header has for C++: {line}"),
                ["#ifdef", "__cplusplus"] => in_cxx = true,
                ["#ifndef", name] => self.macros.push(name.to_string()),
                ["#define", defined, rest @ ..] => {
                    // A number, or a number of one parameter, as NAME(parameter).
                    let (name, parameter) =
                        defined.trim_end_matches(')').split_once('(').unwrap_or((*defined, ""));
                    for token in tokens(&rest.join(" "))? {
                        let known = self.macros.contains(&token) || token.bytes().all(|b| b.is_ascii_digit());
                        ensure!(
                            known || token == parameter || "()*/+".contains(&token),
                            "the header defines {name} by {token}"
                        );
                    }
                    self.macros.push(name.to_string());
                }
                ["#include", system] if SYSTEM.contains(system) => (),
                ["#include", quoted]
                    if quoted.len() > 2 && quoted.starts_with('"') && quoted.ends_with('"') =>
                {
                    let other = Header::read(&folder.join(quoted.trim_matches('"')))?;
                    self.words.extend(other.words);
                    self.macros.extend(other.macros);
                    self.structs.extend(other.structs);
                }
                [first, ..] if first.starts_with('#') => refuse!("the header has {line}"),
                _ => plain += &(line.to_string() + "\n"),
            }
        }
        Ok(plain)
    }

    fn items(&mut self, mut tokens: Tokens) -> Result<()> {
        while let Some(first) = tokens.left.next() {
            match first.as_str() {
                "enum" => numbers(&mut tokens)?,
                "static" => {
                    tokens.expect("inline")?;
                    let result = tokens.name()?;
                    signature(result, &mut tokens)?;
                    skip_body(&mut tokens)?;
                }
                "typedef" => {
                    tokens.expect("struct")?;
                    tokens.expect("{")?;
                    let mut fields = Vec::new();
                    loop {
                        let of = tokens.next()?;
                        if of == "}" {
                            break;
                        }
                        fields.push(member(of, &mut tokens)?);
                    }
                    let name = tokens.name()?;
                    tokens.expect(";")?;
                    ensure!(self.structs.insert(name.clone(), fields).is_none(), "two structs {name}");
                }
                _ => {
                    self.functions.push(signature(first, &mut tokens)?);
                    tokens.expect(";")?;
                }
            }
        }
        Ok(())
    }

    /// Ensures that the header's type is the MIR's, and names the MIR's structs and their fields after the
    /// header's.
    fn ensure_same(&self, types: &mut Types, of: &Type, c: &str) -> Result<()> {
        let symbol = match of {
            Type::Int(width) => {
                ensure!(c == format!("uint{width}_t"), "the header has {c} where the MIR has {of:?}");
                return Ok(());
            }
            Type::Bool => {
                ensure!(c == "bool", "the header has {c} where the MIR has {of:?}");
                return Ok(());
            }
            Type::Unit => {
                ensure!(c == "void", "the header has {c} where the MIR has {of:?}");
                return Ok(());
            }
            Type::Named(symbol) => symbol,
            _ => refuse!("the header has {c} where the MIR has {of:?}"),
        };
        let Some(fields) = self.structs.get(c) else { refuse!("the header has no struct {c}") };
        let Declared::Struct(inner) = types.declared(symbol)?.clone() else {
            refuse!("{symbol} is no struct")
        };
        ensure!(fields.len() == inner.len(), "{c} has {} fields, {symbol} has {}", fields.len(), inner.len());
        for (member, of) in fields.iter().zip(&inner) {
            match (of, member.length) {
                (Type::Array { length, of }, Some(found)) => {
                    ensure!(
                        found == *length,
                        "{} of {c} has {found} elements, the MIR {length}",
                        member.name
                    );
                    self.ensure_same(types, of, &member.of)?;
                }
                (_, None) => self.ensure_same(types, of, &member.of)?,
                _ => refuse!("{} of {c} is an array, the MIR has {of:?}", member.name),
            }
        }
        let fields = fields.iter().map(|member| member.name.clone()).collect();
        types.name_face(symbol, Face { name: c.to_string(), fields })
    }

    /// Names the structs of the MIR after the header's, and gives the symbols that it declares.
    pub fn symbols(&self, crate_name: &str, types: &mut Types, functions: &Functions) -> Result<Vec<String>> {
        let mut found = Vec::new();
        for declaration in &self.functions {
            let symbol = declaration.symbol(crate_name, functions)?;
            let uses = &functions[symbol.as_str()];
            self.ensure_same(types, &uses.locals[0], &declaration.result)?;
            let mut parameters = declaration.parameters.iter();
            for of in &uses.locals[1..=uses.function.parameters] {
                let Some(parameter) = parameters.next() else { refuse!("{symbol} has more parameters") };
                let Parameter { constant, of: c, pointer, name } = parameter;
                match of {
                    Type::Slice { mutable, of } => {
                        let Some(length) = parameters.next() else {
                            refuse!("{name} of {symbol} has no length")
                        };
                        let lent = *pointer && *constant != *mutable;
                        ensure!(lent, "{name} of {symbol} is not lent as the MIR has it");
                        self.ensure_same(types, of, c)?;
                        let plain = length.of == "size_t" && !length.pointer && !length.constant;
                        let named = length.name == format!("{name}_len") || length.name == "len";
                        ensure!(plain && named, "the length of {name} of {symbol}");
                    }
                    _ => {
                        ensure!(!pointer && !constant, "{name} of {symbol} is handed over by value");
                        if !(c == "size_t" && *of == WORD) {
                            self.ensure_same(types, of, c)?;
                        }
                    }
                }
            }
            ensure!(parameters.next().is_none(), "{symbol} has fewer parameters");
            found.push(symbol);
        }
        ensure!(!found.is_empty(), "{} declares no function", self.file);
        Ok(found)
    }

    /// The declared functions in C, each over the function of the MIR.
    pub fn faces(&self, crate_name: &str, types: &Types, functions: &Functions) -> Result<String> {
        let mut text = String::new();
        for declaration in &self.functions {
            let symbol = declaration.symbol(crate_name, functions)?;
            text += &face(declaration, &symbol, types, &functions[symbol.as_str()])?;
        }
        Ok(text)
    }
}

/// A member of a struct after its type: `name;`, or `name[number];` for an array.
fn member(of: String, tokens: &mut Tokens) -> Result<Member> {
    let name = tokens.name()?;
    let length = match tokens.next()?.as_str() {
        ";" => return Ok(Member { of, name, length: None }),
        "[" => tokens.next()?,
        other => refuse!("the header has {other} after the member {name}"),
    };
    let Ok(length) = length.parse() else { refuse!("{name} has {length} elements") };
    tokens.expect("]")?;
    tokens.expect(";")?;
    Ok(Member { of, name, length: Some(length) })
}

/// An enum without a name: `NAME = number` each, decimal or hexadecimal, a comma between them.
fn numbers(tokens: &mut Tokens) -> Result<()> {
    tokens.expect("{")?;
    loop {
        tokens.name()?;
        tokens.expect("=")?;
        let number = tokens.next()?;
        let plain = number.bytes().all(|b| b.is_ascii_digit());
        let hex = number.strip_prefix("0x").unwrap_or("");
        ensure!(
            plain || !hex.is_empty() && hex.bytes().all(|b| b.is_ascii_hexdigit()),
            "the header has {number} where a number is wanted"
        );
        match tokens.next()?.as_str() {
            "}" => return tokens.expect(";"),
            "," => (),
            other => refuse!("the header has {other} after a number"),
        }
    }
}

/// A function that stands whole in the header is the caller's, compiled with the caller's code.
fn skip_body(tokens: &mut Tokens) -> Result<()> {
    tokens.expect("{")?;
    let mut open = 1;
    while open > 0 {
        match tokens.next()?.as_str() {
            "{" => open += 1,
            "}" => open -= 1,
            _ => (),
        }
    }
    Ok(())
}

fn signature(result: String, tokens: &mut Tokens) -> Result<Declaration> {
    let name = tokens.name()?;
    tokens.expect("(")?;
    let mut made = Declaration { result, name, parameters: Vec::new() };
    loop {
        let first = tokens.name()?;
        let constant = first == "const";
        let of = if constant { tokens.name()? } else { first };
        let mut name = tokens.next()?;
        if of == "void" && name == ")" && made.parameters.is_empty() {
            break;
        }
        let pointer = name == "*";
        if pointer {
            name = tokens.name()?;
        }
        made.parameters.push(Parameter { constant, of, pointer, name });
        match tokens.next()?.as_str() {
            "," => (),
            ")" => break,
            other => refuse!("the header has {other} after a parameter of {}", made.name),
        }
    }
    Ok(made)
}

/// A length of 0 may come with a NULL, and C has no NULL + 0: such a slice gets the address of an element
/// that is never looked at.
fn face(declaration: &Declaration, symbol: &str, types: &Types, uses: &crate::uses::Uses) -> Result<String> {
    let mut declared: Vec<_> = declaration.parameters.iter().map(Parameter::c).collect();
    if declared.is_empty() {
        declared.push("void".to_string());
    }
    let (mut none, mut slices, mut handed) = (Vec::new(), String::new(), Vec::new());
    let mut parameters = declaration.parameters.iter();
    for local in 1..=uses.function.parameters {
        let of = &uses.locals[local];
        let Some(Parameter { name, .. }) = parameters.next() else { refuse!("a parameter of {symbol}") };
        if let Type::Slice { of: element, .. } = of {
            let Some(Parameter { name: length, .. }) = parameters.next() else {
                refuse!("{name} of {symbol} has no length")
            };
            let Type::Int(width) = **element else { refuse!("{name} of {symbol} is no slice of numbers") };
            let line = format!("    uint{width}_t none{width} = 0;\n");
            if !none.contains(&line) {
                none.push(line);
            }
            slices += &format!("    {} {name}_slice;\n", types.c(of)?);
            slices += &format!("    {name}_slice.at = {length} != 0 ? {name} : &none{width};\n");
            slices += &format!("    {name}_slice.length = {length};\n");
            handed.push(format!("{name}_slice"));
        } else {
            handed.push(if uses.by_pointer(types, local)? { format!("&{name}") } else { name.clone() });
        }
    }
    let called = format!("{}({});", c_name(symbol)?, handed.join(", "));
    let called = if declaration.result == "void" { called } else { format!("return {called}") };
    let head = listed(&format!("{} {}", declaration.result, declaration.name), &declared);
    Ok(format!("\n{head}\n{{\n{}{slices}    {called}\n}}\n", none.concat()))
}

impl Parameter {
    fn c(&self) -> String {
        let Parameter { constant, of, pointer, name } = self;
        format!("{}{of} {}{name}", if *constant { "const " } else { "" }, if *pointer { "*" } else { "" })
    }
}
