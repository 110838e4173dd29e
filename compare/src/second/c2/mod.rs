//! C2: frames, session, record and target.

pub mod frames;
pub mod interface;
pub mod record;
pub mod session;
pub mod steps;
pub mod target;
