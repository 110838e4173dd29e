//! The proved libraries' calls, a file for each header or crate that exports some: the declarations, word for
//! word, and the same calls on slices. What a call means stands in the header.

pub mod c2;
pub mod c2_run;
pub mod c2_target;
pub mod c2_wire;
pub mod dump;
pub mod hex;
pub mod radio;
