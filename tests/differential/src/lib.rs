//! The library against the reference.
//!
//! From a seed come cases: tables and calls, whole and damaged. Each is given to the reference and to the engine that is tried, and
//! every answer, outcome byte and table byte is compared, with guards around each buffer and result. A case that differs is made as short as it
//! can be while it still differs. See `main.rs` for the command line.

pub mod case;
pub mod cases;
pub mod compare;
pub mod engine;
pub mod flows;
pub mod isolation;
pub mod messages;
pub mod pen;
pub mod random;
pub mod shrink;
pub mod stray;
pub mod sweep;
pub mod tables;
pub mod told;
pub mod wrong;

pub use case::{Answer, Call, Case, Values};
pub use cases::Theme;
pub use compare::{Difference, Lend, Yard};
pub use engine::{Engine, Reference};
