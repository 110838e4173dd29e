//! Compares the proved code with a second implementation, written independently from the papers: `second` has
//! it, `checks` what is compared, `harness` what checks stand on. The proved code's declarations are the
//! crate `proved`, beside this one. A new family has a file in each, and a line where they are listed.
//!
//! `compare` runs for a few seconds, `compare --long` for longer; `--seed N` sets the seed of the
//! random inputs, `--only TEXT` keeps to the checks with that text in their names, `--program PATH` adds
//! runs of document 01's program. The first difference is printed with its inputs, and the exit code is 1.

mod checks;
mod harness;
mod second;

use std::num::NonZero;
use std::path::PathBuf;
use std::process::ExitCode;
use std::sync::atomic::{AtomicUsize, Ordering};
use std::{env, iter, thread};

use harness::check::{Check, Run};
use harness::random::Random;
use harness::report::{Checked, Failure};

const DEFAULT_SEED: u64 = 20_127;
const USAGE: &str = "usage: compare [--long] [--seed N] [--only TEXT] [--program PATH]";

struct Options {
    long: bool,
    seed: u64,
    only: String,
    program: Option<PathBuf>,
}

fn parse(mut arguments: impl Iterator<Item = String>) -> Option<Options> {
    let mut options = Options { long: false, seed: DEFAULT_SEED, only: String::new(), program: None };
    while let Some(argument) = arguments.next() {
        match argument.as_str() {
            "--long" => options.long = true,
            "--seed" => options.seed = arguments.next()?.parse().ok()?,
            "--only" => options.only = arguments.next()?,
            "--program" => options.program = Some(arguments.next()?.into()),
            _ => return None,
        }
    }
    Some(options)
}

fn print_failure(check: &Check, options: &Options, failure: &Failure) {
    println!("FAILED    {}", check.name);
    let long = if options.long { " --long" } else { "" };
    let program =
        options.program.as_ref().map_or(String::new(), |path| format!(" --program {}", path.display()));
    println!("repeat    compare{long} --seed {} --only \"{}\"{program}", options.seed, check.name);
    println!("inputs    {}", failure.inputs);
    println!("expected  {}", failure.expected);
    println!("came      {}", failure.came);
}

/// Each check begins with the seed afresh, so that it sees the same numbers whatever runs before it or beside
/// it.
fn run_one(check: &Check, options: &Options) -> Checked {
    let Options { long, seed, ref program, .. } = *options;
    (check.run)(&mut Run { long, random: Random::new(seed), program: program.clone() })
}

/// What each check came to, in their order. They run side by side, one on each processor.
fn run_side_by_side(checks: &[&Check], options: &Options) -> Vec<Checked> {
    let next = AtomicUsize::new(0);
    let take = || {
        let taken =
            iter::from_fn(|| Some(next.fetch_add(1, Ordering::Relaxed))).take_while(|&i| i < checks.len());
        taken.map(|i| (i, run_one(checks[i], options))).collect::<Vec<_>>()
    };
    let processors = thread::available_parallelism().map_or(1, NonZero::get);
    let mut results: Vec<_> = thread::scope(|scope| {
        let workers: Vec<_> = (0..processors).map(|_| scope.spawn(take)).collect();
        workers.into_iter().flat_map(|worker| worker.join().expect("a check does not panic")).collect()
    });
    results.sort_by_key(|&(i, _)| i);
    results.into_iter().map(|(_, result)| result).collect()
}

/// Prints what came of each check, up to the first that failed.
fn run_all(options: &Options) -> ExitCode {
    println!("seed {}{}", options.seed, if options.long { ", long" } else { "" });
    let mut total = 0;
    let checks = checks::all(options.program.is_some());
    let checks: Vec<_> = checks.filter(|check| check.name.contains(&options.only)).collect();
    for (check, result) in checks.iter().zip(run_side_by_side(&checks, options)) {
        match result {
            Ok(cases) => {
                println!("{cases:>10}  {}", check.name);
                total += cases;
            }
            Err(failure) => {
                print_failure(check, options, &failure);
                return ExitCode::FAILURE;
            }
        }
    }
    println!("{total:>10}  cases in all, no difference");
    ExitCode::SUCCESS
}

fn main() -> ExitCode {
    match parse(env::args().skip(1)) {
        Some(options) => run_all(&options),
        None => {
            eprintln!("{USAGE}");
            ExitCode::from(2)
        }
    }
}
