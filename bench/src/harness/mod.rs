//! The job, the sides that do it, and the clock.

pub mod clock;
pub mod face;
pub mod job;
pub mod measure;
pub mod options;
pub mod ours;
pub mod sides;
pub mod tables;
