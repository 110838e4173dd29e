//! The checks: what is compared, over which inputs. A family has a file or a folder here.

mod c2;
mod dump;
mod hex;
mod radio;

use crate::harness::check::Check;

/// A line for each file of checks.
const ALL: &[&[Check]] = &[
    c2::wire::CHECKS,
    c2::target::CHECKS,
    c2::model::CHECKS,
    c2::states::CHECKS,
    c2::programming::CHECKS,
    c2::calls::CHECKS,
    c2::records::CHECKS,
    c2::wait_limit::CHECKS,
    c2::pairs::CHECKS,
    c2::wanted::CHECKS,
    c2::closed::CHECKS,
    c2::cut::CHECKS,
    dump::CHECKS,
    hex::CHECKS,
    radio::commands::CHECKS,
    radio::module::CHECKS,
    radio::job::CHECKS,
];

/// Every check; those of the program only if there is one.
pub fn all(with_program: bool) -> impl Iterator<Item = &'static Check> {
    let program = if with_program { c2::program::CHECKS } else { &[] };
    ALL.iter().copied().flatten().chain(program)
}
