//! Each engine that there is, so that a test can be run on all of them.

use std::io::Write;
use std::sync::Once;

use faceting_register::{Engine, Register};
use facetings_host::engines::oracle::Oracle;

/// An engine, its name, and the option that makes the command use it.
pub struct Way {
    pub name: &'static str,
    pub option: &'static [&'static str],
    pub engine: Box<dyn Engine>,
}

/// The original and the register, as far as they are there. A line says which one
/// is not; it goes past the capture of what tests print.
pub fn ways() -> Vec<Way> {
    static SAID: Once = Once::new();
    let mut ways = Vec::new();
    let mut absent = Vec::new();
    match Oracle::open() {
        Ok(engine) => ways.push(Way {
            name: "the original",
            option: &["--original"],
            engine: Box::new(engine),
        }),
        Err(why) => absent.push(why.to_string()),
    }
    match Register::open() {
        Ok(engine) => ways.push(Way {
            name: "the register",
            option: &[],
            engine: Box::new(engine),
        }),
        Err(why) => absent.push(why.to_string()),
    }
    SAID.call_once(|| {
        for words in absent {
            let line = format!("skipped for one engine: {words}\n");
            let _ = std::io::stderr().write_all(line.as_bytes());
        }
    });
    ways
}
