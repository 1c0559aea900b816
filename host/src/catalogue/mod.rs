//! Catalogues of figures: numbers that last, tables, what two of them have in common, and
//! one made of several.

pub mod against;
pub mod csv;
pub mod merge;
pub mod number;
