//! The radio module.

pub mod commands;
pub mod job;
pub mod module;
