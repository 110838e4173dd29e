//! What this program doesn't know, it refuses, with a reason.

use std::fmt;

#[derive(Debug)]
pub struct Refused(pub String);

impl fmt::Display for Refused {
    fn fmt(&self, to: &mut fmt::Formatter<'_>) -> fmt::Result {
        to.write_str(&self.0)
    }
}

pub type Result<T> = std::result::Result<T, Refused>;

macro_rules! refuse {
    ($($reason:tt)*) => { return Err($crate::refused::Refused(format!($($reason)*))) };
}

macro_rules! ensure {
    ($holds:expr, $($reason:tt)*) => {
        if !$holds {
            $crate::refused::refuse!($($reason)*)
        }
    };
}

pub(crate) use {ensure, refuse};
