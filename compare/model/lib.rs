//! The paper 01 in executable form, with the readings that docs/DECISIONS.md settles.
//! It is written from those words alone and shares no code with the Rust that it is compared with.

pub mod branch;
pub mod drawing;
pub mod map;
pub mod numbers;
pub mod script;
pub mod stems;
pub mod zones;

pub use script::run;
