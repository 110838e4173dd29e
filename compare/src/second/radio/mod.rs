//! The radio module (document 02, i; source document 002).

pub mod command;
pub mod job;
pub mod module;
pub mod record;
