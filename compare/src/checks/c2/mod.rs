//! C2: frames, target, session, calls and records; WAIT limit and pairs; sessions that are cut.

pub mod calls;
pub mod closed;
pub mod cut;
pub mod model;
pub mod pairs;
pub mod program;
pub mod programming;
pub mod records;
pub mod states;
pub mod target;
pub mod wait_limit;
pub mod wanted;
pub mod wire;
