//! All sides must do the same before their times mean anything.

pub mod damage;
pub mod frames;
pub mod sessions;
