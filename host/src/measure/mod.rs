//! Measures: time beside the original, memory over many calls, the stack of one,
//! and the square root beside the processor's.

pub mod load;
pub mod roots;
pub mod speed;
pub mod stack;
pub mod workload;
