//! Stand-in for the crate root of hypuz_util. Of the original only ti/vec.rs
//! is here.
pub mod error;
pub mod ti;
