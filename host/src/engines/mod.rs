//! Engines that stand beside the register: the original, and the register with
//! marked memory around what it is lent.

pub mod fence;
pub mod guard;
pub mod judgement;
pub mod oracle;
#[cfg(has_miratope)]
pub mod original;

use faceting_register::Engine;

/// An engine that can be probed for what its results do not tell.
pub trait Probe: Engine {
    /// What some call did wrong that neither its result nor its buffer tells.
    fn fault(&self) -> Option<&'static str> {
        None
    }

    /// What the next call is to find in its workspace, if the engine has one.
    fn fill_workspace(&mut self, _byte: u8) {}
}
