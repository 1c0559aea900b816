//! A figure's number in a catalogue, which lasts: it comes from the points of the job and
//! from the facets that the figure is made of, and from nothing else. So it stays when a
//! limit is raised, a symmetry left out, or the list around the figure grows.

use faceting_register::{Figure, Job};

use crate::parts::facet::{edges_of, Edges};
use crate::report::hash::sha256;
use crate::report::look::facet_rank;

/// Digits without letters that look like others.
const DIGITS: &[u8; 32] = b"0123456789ABCDEFGHJKMNPQRSTVWXYZ";

/// A number has so many digits of five bits, in groups.
const LENGTH: usize = 12;
const GROUP: usize = 4;

/// The number of a figure on the points of a job.
pub fn number(job: &Job, figure: &Figure) -> String {
    let mut bytes = set(job);
    for facet in choice(figure) {
        bytes.push(facet.len() as u8);
        bytes.extend(facet.iter().flatten().flat_map(|end| end.to_le_bytes()));
    }
    digits(&sha256(&bytes))
}

/// Rank, plane and points, as they stand in a job; minus zero is zero.
fn set(job: &Job) -> Vec<u8> {
    let mut bytes = vec![job.rank, job.dimension, job.points.len() as u8];
    let vectors = job.basis.iter().chain(&job.points).flatten();
    let numbers = job.offset.iter().chain(vectors);
    bytes.extend(numbers.flat_map(|x| (x + 0.0).to_le_bytes()));
    bytes
}

/// The facets of a figure by their edges, in an order of their own.
fn choice(figure: &Figure) -> Vec<Edges> {
    let Some(rank) = facet_rank(figure) else {
        return Vec::new();
    };
    let facets = figure.ranks[rank].len();
    let mut choice: Vec<Edges> = (0..facets).map(|f| edges_of(figure, rank, f)).collect();
    choice.sort_unstable();
    choice
}

/// The first 60 bits of a hash: XXXX-XXXX-XXXX.
fn digits(hash: &str) -> String {
    let bits = u64::from_str_radix(&hash[..LENGTH * 5 / 4], 16).unwrap_or(0);
    let digit = |i: usize| {
        let five = bits >> (5 * (LENGTH - 1 - i)) & 31;
        char::from(DIGITS[five as usize])
    };
    let letters: Vec<char> = (0..LENGTH).map(digit).collect();
    let groups: Vec<String> = letters.chunks(GROUP).map(String::from_iter).collect();
    groups.join("-")
}

#[cfg(test)]
mod tests {
    use super::*;

    #[test]
    fn digits_are_those_of_the_hash() {
        assert_eq!(digits("000000000000000f"), "0000-0000-0000");
        assert_eq!(digits("fffffffffffffff0"), "ZZZZ-ZZZZ-ZZZZ");
        assert_eq!(digits("0842108421084210"), "1111-1111-1111");
    }
}
