//! The proved MIR of a crate as C99, one file for each of the crate's headers.
//!
//! `translate CRATE MIR DIR HEADER..` reads what `mir.py CRATE` printed and writes DIR/NAME.c for each
//! NAME.h. The headers declare the exported functions, all of them between them, and name the structs.
//! Whatever this program does not know, it refuses: nothing is passed over, and every place, operand and call
//! is typed again. Nothing is narrowed: a number has in C the width that it has in the proof.

mod emit;
mod file;
mod header;
mod mir;
mod offsets;
mod reached;
mod refused;
mod sha256;
#[cfg(test)]
mod tests;
mod types;
mod uses;
mod values;
mod variants;
mod words;

use std::path::Path;
use std::process::ExitCode;
use std::{env, fs};

use header::Header;
use refused::{ensure, refuse, Result};

fn translate(crate_name: &str, mir: &str, into: &str, headers: &[String]) -> Result<()> {
    ensure!(!headers.is_empty(), "no header");
    let Ok(text) = fs::read_to_string(mir) else { refuse!("cannot read {mir}") };
    let headers = headers.iter().map(|path| Header::read(Path::new(path))).collect::<Result<Vec<_>>>()?;
    for (name, text) in file::files(crate_name, &text, &headers)? {
        let path = Path::new(into).join(name);
        ensure!(fs::write(&path, text).is_ok(), "cannot write {}", path.display());
    }
    Ok(())
}

fn main() -> ExitCode {
    let arguments: Vec<String> = env::args().skip(1).collect();
    let [crate_name, mir, into, headers @ ..] = &arguments[..] else {
        eprintln!("usage: translate CRATE MIR DIR HEADER..");
        return ExitCode::from(2);
    };
    match translate(crate_name, mir, into, headers) {
        Ok(()) => ExitCode::SUCCESS,
        Err(why) => {
            eprintln!("translate: {why}");
            ExitCode::FAILURE
        }
    }
}
