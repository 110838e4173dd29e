//! Intel HEX files (document 02, a).

pub mod reader;
pub mod writer;
