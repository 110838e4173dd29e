//! The second implementation: each family in a file or folder of its own, written from the papers and asking
//! nothing of the proved code.

pub mod c2;
pub mod dump;
pub mod hex;
pub mod numbers;
pub mod radio;
pub mod settings;
