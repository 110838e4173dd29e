//! A whole file: the functions that a header declares and what they reach, each after those that it calls.

use std::collections::HashSet;

use crate::emit::{self, Functions};
use crate::header::Header;
use crate::mir::{all_statements, program, Program, Statement, Type};
use crate::reached::leave_out_the_rest;
use crate::refused::{ensure, refuse, Result};
use crate::sha256::sha256;
use crate::types::{c_name, Types};
use crate::uses::Uses;

/// The functions that the roots reach, callees first. A cycle of calls is refused.
fn ordered<'a>(functions: &'a Functions, roots: &'a [String]) -> Result<Vec<&'a Uses<'a>>> {
    let (mut found, mut open, mut done) = (Vec::new(), Vec::new(), HashSet::new());
    for root in roots {
        visit(functions, root, &mut open, &mut done, &mut found)?;
    }
    Ok(found)
}

fn visit<'a>(
    functions: &'a Functions,
    symbol: &'a str,
    open: &mut Vec<&'a str>,
    done: &mut HashSet<&'a str>,
    found: &mut Vec<&'a Uses<'a>>,
) -> Result<()> {
    ensure!(!open.contains(&symbol), "a cycle of calls at {symbol}");
    if !done.insert(symbol) {
        return Ok(());
    }
    let Some(uses) = functions.get(symbol) else { refuse!("no function {symbol}") };
    open.push(symbol);
    let mut callees: Vec<&str> = Vec::new();
    for statement in all_statements(&uses.function.body) {
        if let Statement::Call { callee, .. } = statement {
            callees.push(callee);
        }
    }
    callees.sort_unstable();
    for callee in callees {
        visit(functions, callee, open, done, found)?;
    }
    open.pop();
    found.push(uses);
    Ok(())
}

fn ensure_names(types: &Types, functions: &Functions, headers: &[Header]) -> Result<()> {
    let mut seen = HashSet::new();
    for symbol in functions.keys().map(|symbol| symbol.to_string()).chain(types.symbols().cloned()) {
        let name = c_name(&symbol)?;
        let taken = headers.iter().any(|header| header.words.contains(&name));
        ensure!(!taken && seen.insert(name), "two things have the C name of {symbol}");
    }
    Ok(())
}

const HEAD: &str = "\
/*
 * Made by `make c`, not to be edited. A function stands under its path in the proved code; one that is generic
 * there, as those of the library are, stands once for each of what it is given, under the end of its path and
 * its types. Its result is called result, its parameters a1, a2 .. and its other locals v.., by their numbers
 * in the MIR, and copies that a call wants c1, c2 .. A statement of the MIR is one statement here, but structs
 * and arrays are assigned member by member. An enum is its tag and the members that its variants share; of
 * what has no bits there is nothing. A length is 64 bits wide, as in the proof, whatever size_t is.
 */
";

/// Left to itself, a compiler that makes code small calls them for each byte.
const INLINED: &str = "\
/* For what is the library's, and for closures: a call of each would cost more than what it does. */
#if defined(__GNUC__)
#define INLINED static inline __attribute__((always_inline))
#else
#define INLINED static inline
#endif

";

fn file(
    crate_name: &str,
    sum: &str,
    header: &Header,
    types: &Types,
    functions: &Functions,
    chosen: &[&Uses],
) -> Result<String> {
    let mut text = format!("/* Made from the MIR of crate {crate_name}, sha256 {sum}. */\n{HEAD}");
    text += &format!("#include <stddef.h>\n#include <stdint.h>\n#include \"{}\"\n\n", header.file);
    let used = |uses: &&Uses| uses.locals.clone().into_iter().filter(|of| *of != Type::Raw);
    let used: Vec<_> = chosen.iter().flat_map(used).collect();
    if chosen.iter().any(|uses| emit::is_library(&uses.function.symbol)) {
        text += INLINED;
    }
    text += &types.definitions(used.iter())?.join("\n");
    for uses in chosen {
        text.push('\n');
        text += &emit::function(types, functions, uses)?;
    }
    Ok(text + &header.faces(crate_name, types, functions)?)
}

/// The files, one for each header: its name and its text.
pub fn files(crate_name: &str, mir: &str, headers: &[Header]) -> Result<Vec<(String, String)>> {
    let mut program = program(mir)?;
    leave_out_the_rest(&mut program)?;
    let Program { functions: known, declared } = program;
    let mut types = Types::default();
    for (symbol, declared) in declared {
        types.declare(&symbol, declared)?;
    }
    types.ensure_no_cycle()?;
    let mut functions = Functions::new();
    for function in &known {
        functions.insert(&function.symbol, Uses::of(function)?);
    }
    ensure_names(&types, &functions, headers)?;
    let mut roots = Vec::new();
    for header in headers {
        roots.push(header.symbols(crate_name, &mut types, &functions)?);
    }
    let all = roots.concat();
    let reached: HashSet<&str> =
        ordered(&functions, &all)?.iter().map(|uses| uses.function.symbol.as_str()).collect();
    let mut left: Vec<_> = functions.keys().filter(|symbol| !reached.contains(**symbol)).collect();
    left.sort_unstable();
    ensure!(left.is_empty(), "no header declares {left:?} or a function that reaches it");
    let sum = sha256(mir.as_bytes());
    let mut made = Vec::new();
    for (header, roots) in headers.iter().zip(&roots) {
        let text = file(crate_name, &sum, header, &types, &functions, &ordered(&functions, roots)?)?;
        let Some(stem) = header.file.strip_suffix(".h") else { refuse!("{} is no header", header.file) };
        made.push((format!("{stem}.c"), text));
    }
    Ok(made)
}
