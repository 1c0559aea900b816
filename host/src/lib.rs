//! The original Rust faceting beside the register: the text form, the original as
//! an engine, cases to run through engines, their comparison and measures of them,
//! and the pages that people read. Jobs, answers and the call itself stand in the
//! crate `faceting_register`.

#![deny(missing_docs)]

pub mod cases;
pub mod catalogue;
pub mod compare;
pub mod engines;
pub mod format;
pub mod geometry;
pub mod measure;
pub mod parts;
pub mod report;
pub mod symmetry;
pub mod workshop;
