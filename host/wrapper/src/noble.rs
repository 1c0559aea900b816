//! Packages for noble figures: their layout, both ways, and the refusals before the call.

use crate::bounds::{self, workspace_length};
use crate::engine::{Engine, Stop};
use crate::job::{accept_fields, is_identity, is_permutation, Job};
use crate::refusal::Refusal;
use crate::request::ask_by;

/// The bytes in front of a package's global numbers.
pub const PACKAGE_HEADER: usize = 5;

/// A larger set of points, the full set, of which a job's points are some; and how often
/// the job's plane, or space, occurs in it.
#[derive(Clone, Debug, PartialEq, Eq)]
pub struct Package {
    /// Points of the full set.
    pub points: u8,
    /// How many images of the job's points there are in the full set.
    pub count: u16,
    /// For each of the job's points, which point of the full set it is.
    pub global: Vec<u8>,
    /// The full set's symmetries: where each of its points is carried to. The first is
    /// the identity.
    pub rows: Vec<Vec<u8>>,
}

impl Package {
    /// The package for so many points of a job, if the bytes are exactly as long as their
    /// fields say.
    pub fn read(points: usize, bytes: &[u8]) -> Option<Package> {
        let (header, rest) = bytes.split_first_chunk::<PACKAGE_HEADER>()?;
        let rows = usize::from(u16::from_le_bytes([header[0], header[1]]));
        let full = usize::from(header[2]);
        let (global, images) = rest.split_at_checked(points)?;
        if images.len() != rows * full {
            return None;
        }
        Some(Package {
            points: header[2],
            count: u16::from_le_bytes([header[3], header[4]]),
            global: global.to_vec(),
            rows: match full {
                0 => vec![Vec::new(); rows],
                _ => images.chunks(full).map(<[u8]>::to_vec).collect(),
            },
        })
    }

    /// The package's bytes.
    pub fn write(&self) -> Vec<u8> {
        let mut bytes = (self.rows.len() as u16).to_le_bytes().to_vec();
        bytes.push(self.points);
        bytes.extend(self.count.to_le_bytes());
        bytes.extend(&self.global);
        bytes.extend(self.rows.iter().flatten());
        bytes
    }

    /// Whether it keeps the register's rules [17.3].
    pub fn is_good(&self) -> bool {
        let rows = 1..=bounds::MOST_ROWS;
        let below = |v: &u8| *v < self.points;
        let mut numbers = self.global.clone();
        numbers.sort_unstable();
        rows.contains(&self.rows.len())
            && bounds::FULL_POINTS.contains(&self.points)
            && self.count > 0
            && self.global.iter().all(below)
            && numbers.windows(2).all(|pair| pair[0] < pair[1])
            && self.rows.first().is_some_and(|row| is_identity(row))
            && self.rows.iter().all(|row| is_permutation(row))
    }
}

/// The refusals before the call, in their order: the job's own, that of the package, that
/// of the workspace. Job and package if there is none.
pub fn accept(job: &[u8], package: &[u8], workspace: usize) -> Result<(Job, Package), Refusal> {
    let job = accept_fields(job)?;
    let read = Package::read(job.points.len(), package);
    let good = read.filter(Package::is_good).ok_or(Refusal::Package)?;
    match workspace >= workspace_length(job.rank) {
        true => Ok((job, good)),
        false => Err(Refusal::Workspace),
    }
}

/// The bytes of the answer to a job with a package, and nothing behind them; as
/// `request::ask`.
pub fn ask_noble(
    engine: &mut dyn Engine,
    job: &[u8],
    package: &[u8],
    longest: usize,
) -> Result<Vec<u8>, Stop> {
    let name = engine.name();
    ask_by(longest, |buffer| {
        let code = engine.noble(job, package, bounds::WORKSPACE, buffer);
        code.ok_or_else(|| Stop::Broken(format!("the {name} has no such call")))
    })
}

#[cfg(test)]
mod tests {
    use super::*;

    fn package() -> Package {
        Package {
            points: 4,
            count: 258,
            global: vec![3, 0],
            rows: vec![vec![0, 1, 2, 3], vec![1, 0, 3, 2]],
        }
    }

    #[test]
    fn a_package_is_read_back_and_nothing_else_is() {
        let bytes = package().write();
        assert_eq!(bytes, [2, 0, 4, 2, 1, 3, 0, 0, 1, 2, 3, 1, 0, 3, 2]);
        assert_eq!(Package::read(2, &bytes), Some(package()));
        for end in 0..bytes.len() {
            assert_eq!(Package::read(2, &bytes[..end]), None, "{end}");
        }
        assert_eq!(Package::read(2, &[&bytes[..], &[0]].concat()), None);
        assert_eq!(Package::read(3, &bytes), None);
        assert_eq!(Package::read(1, &bytes), None);
    }

    #[test]
    fn both_sides_of_each_bound() {
        let with = |change: &dyn Fn(&mut Package)| {
            let mut changed = package();
            change(&mut changed);
            changed.is_good()
        };
        let rows = |count: usize| with(&|package| package.rows = vec![vec![0, 1, 2, 3]; count]);
        assert_eq!([0, 1, 120, 121].map(rows), [false, true, true, false]);
        let points = |points: u8| {
            with(&|package| {
                package.points = points;
                package.global = vec![0];
                package.rows = vec![(0..points).collect()];
            })
        };
        assert_eq!([1, 2, 20, 21].map(points), [false, true, true, false]);
        let count = |count| with(&|package| package.count = count);
        assert_eq!([0, 1, 65_535].map(count), [false, true, true]);
        let global = |global: &[u8]| with(&|package| package.global = global.to_vec());
        assert!(global(&[0, 3]) && !global(&[0, 4]) && !global(&[1, 1]));
        assert!(!with(&|package| package.rows.swap(0, 1)));
        assert!(!with(&|package| package.rows[1] = vec![1, 0, 3, 3]));
    }
}
