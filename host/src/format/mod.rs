//! Forms that jobs come in: the text form with its numbers, files of jobs, and the
//! files that people hand to the register.

pub mod culprit;
pub mod expression;
pub mod frames;
pub mod hex;
pub mod hints;
pub mod letters;
pub mod off;
pub mod package;
pub mod quote;
pub mod tariff;
pub mod text;
pub mod vertex_set;
