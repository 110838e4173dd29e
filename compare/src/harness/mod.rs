//! What the checks stand on: what a check is, how it tells a difference, random inputs, lent memory; and in
//! a folder a family, both implementations side by side.

pub mod c2;
pub mod check;
pub mod dump;
pub mod hex;
pub mod lent;
pub mod radio;
pub mod random;
pub mod report;
