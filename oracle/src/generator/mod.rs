//! Random frames for differential runs, made from a seed and apart from the published code.
//!
//! [`Plan::random`] gives an accepted frame, [`Plan::plain`] one of zeros to be changed by hand;
//! [`Plan::input`] writes either down. [`damage`] cuts, spoils and replaces what a frame lends,
//! and [`spoil`] chooses among named ways to do so.

pub mod base;
pub mod damage;
pub mod group_codes;
pub mod head;
pub mod layout;
pub mod payload;
pub mod plan;
pub mod random;
pub mod shapes;
pub mod spoil;
pub mod state;
pub mod writer;

pub use plan::{Made, Plan, Source};
pub use random::Random;
pub use shapes::HeadShape;
pub use writer::{Field, Kind, Written};
