//! The faceting register for programs in Rust: jobs and answers as values, and the
//! proved function behind a safe call. It needs nothing but the standard library and
//! the library that `./library register` writes.
//!
//! ```no_run
//! use faceting_register::{answer, Job, Register};
//!
//! let square = [[0.0, 0.0], [1.0, 0.0], [1.0, 1.0], [0.0, 1.0]];
//! let job = Job::usual(3, square.map(Vec::from).to_vec());
//! let found = answer(&mut Register::open().unwrap(), &job).unwrap();
//! println!("{} figures", found.entries.len());
//! ```

#![deny(missing_docs)]

pub mod answer;
pub mod batch;
pub mod bounds;
pub mod engine;
pub mod job;
pub mod noble;
pub mod plain;
pub mod quote;
pub mod refusal;
pub mod register;
pub mod request;
pub mod rows;

pub use answer::{Answer, Entry, Figure};
pub use engine::{Engine, Stop};
pub use job::Job;
pub use noble::Package;
pub use refusal::Refusal;
pub use register::Register;
pub use request::answer;
