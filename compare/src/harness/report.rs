//! How a check says what it found.

use std::fmt::Debug;

/// A difference, with all that is needed to look at it by hand.
pub struct Failure {
    pub inputs: String,
    pub expected: String,
    pub came: String,
}

/// The number of cases in which nothing differed, or the first difference.
pub type Checked = Result<u64, Failure>;

/// Refuses unless what came is what was expected.
pub fn expect<T: PartialEq + Debug>(
    expected: T,
    came: T,
    inputs: impl FnOnce() -> String,
) -> Result<(), Failure> {
    if expected == came {
        return Ok(());
    }
    let (expected, came) = (format!("{expected:?}"), format!("{came:?}"));
    Err(Failure { inputs: inputs(), expected, came })
}

/// Refuses unless the rule, told in words, holds of what came.
pub fn expect_that<T: Debug>(
    holds: bool,
    rule: &str,
    came: T,
    inputs: impl FnOnce() -> String,
) -> Result<(), Failure> {
    if holds {
        return Ok(());
    }
    Err(Failure { inputs: inputs(), expected: rule.to_string(), came: format!("{came:?}") })
}

/// Refuses unless the bytes are those expected; the first one that differs is told.
pub fn expect_bytes(
    what: &str,
    expected: &[u8],
    came: &[u8],
    inputs: impl FnOnce() -> String,
) -> Result<(), Failure> {
    if expected == came {
        return Ok(());
    }
    let at = expected.iter().zip(came).take_while(|(a, b)| a == b).count();
    let show = |bytes: &[u8]| format!("{what} of {}, from byte {at} on: {}", bytes.len(), from(at, bytes));
    Err(Failure { inputs: inputs(), expected: show(expected), came: show(came) })
}

/// A few bytes from this place on.
fn from(at: usize, bytes: &[u8]) -> String {
    hex(&bytes[at..bytes.len().min(at + 16)])
}

pub fn hex(bytes: &[u8]) -> String {
    bytes.iter().map(|byte| format!("{byte:02x}")).collect()
}
