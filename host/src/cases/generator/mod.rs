//! Cases from seeds. A case depends on its own seed alone, which is worked out
//! from the seed of the whole and the case's number.

mod damage;
mod edges;
pub(crate) mod findings;
mod kinds;
pub mod packages;
pub mod rng;
pub(crate) mod shapes;
pub(crate) mod symmetry;

pub use kinds::{Kind, KINDS, TRIED};

use crate::cases::Case;
use rng::{mix, Rng};

/// Case `number` of a seed at a tolerance, in version 2: points or lengths near a border.
pub fn case_within(seed: u64, number: usize, tolerance: f64) -> Case {
    let seed = mix(mix(seed) ^ number as u64);
    let mut rng = Rng::new(seed);
    let draft = kinds::wide(kinds::at_tolerance(&mut rng, tolerance));
    Case {
        number,
        seed,
        kind: "tolerance".into(),
        workspace: draft.workspace,
        room: draft.room,
        job: draft.job,
    }
}

/// Case `number` of a seed; of any kind, or of that one.
pub fn case(seed: u64, number: usize, kind: Option<&Kind>) -> Case {
    let seed = mix(mix(seed) ^ number as u64);
    let mut rng = Rng::new(seed);
    // Drawn in any case, so that naming the kind that is drawn changes nothing.
    let drawn = draw(&mut rng);
    let kind = kind.unwrap_or(drawn);
    let draft = (kind.make)(&mut rng);
    Case {
        number,
        seed,
        kind: kind.name.into(),
        workspace: draft.workspace,
        room: draft.room,
        job: draft.job,
    }
}

fn draw(rng: &mut Rng) -> &'static Kind {
    let all = KINDS.iter().map(|kind| kind.weight).sum();
    let mut left = rng.below(all);
    for kind in KINDS {
        if left < kind.weight {
            return kind;
        }
        left -= kind.weight;
    }
    &KINDS[0]
}

/// The kind of that name.
pub fn kind_named(name: &str) -> Option<&'static Kind> {
    KINDS.iter().find(|kind| kind.name == name)
}
