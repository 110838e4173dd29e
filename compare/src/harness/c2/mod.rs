//! C2: calls and steps on lent memory, both sides side by side, and work for them.

pub mod calls;
pub mod closed_loop;
pub mod device;
pub mod driven;
pub mod driver;
pub mod job;
pub mod master;
pub mod model;
pub mod pairs;
pub mod reasons;
pub mod slowest;
pub mod state;
pub mod trouble;
pub mod twins;
pub mod wire;
