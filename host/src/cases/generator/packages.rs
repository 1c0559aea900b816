//! Packages for generated jobs: full sets with their symmetries, in which a job's points
//! have any places; and packages that break the register's rules.

use faceting_register::bounds::MOST_ROWS;
use faceting_register::job::identity_row;
use faceting_register::rows::closure;
use faceting_register::{Job, Package};

use super::rng::{mix, Rng};
use super::symmetry::{open_rows, permutation, subgroup};

/// The largest full set.
const MOST_POINTS: usize = 20;

/// The bytes of package `number` of a seed, for this job. Where the job cannot be read,
/// for a square's points.
pub fn package(seed: u64, number: usize, job: &[u8]) -> Vec<u8> {
    let mut rng = Rng::new(mix(mix(seed ^ 0x6e6f_626c) ^ number as u64));
    let job = Job::read(job);
    let rows = job.map_or_else(|| vec![identity_row(4)], |job| job.rows);
    let points = rows.first().map_or(4, Vec::len);
    let mut package = whole(&mut rng, points, &rows);
    if rng.once_in(8) {
        return damaged(&mut rng, package);
    }
    if rng.once_in(32) {
        package.rows = vec![package.rows[0].clone(); MOST_ROWS];
    }
    package.write()
}

/// A full set with at least as many points, as far as there may be so many.
fn whole(rng: &mut Rng, points: usize, rows: &[Vec<u8>]) -> Package {
    let least = points.clamp(2, MOST_POINTS);
    let full = match rng.below(3) {
        0 => least,
        1 => rng.within(least, MOST_POINTS),
        _ => rng.within(least, (least + 2).min(MOST_POINTS)),
    };
    let mut global = match rng.once_in(2) {
        true => identity_row(full),
        false => permutation(rng, full),
    };
    // A job with more points than a full set may have gets numbers that repeat.
    global = (0..points).map(|v| global[v % full]).collect();
    Package {
        points: full as u8,
        count: *rng.pick(&[1, 1, 2, 2, 2, 3, 4, 6, 12, 20, 60, 120, 257, 65_535]),
        rows: full_rows(rng, full, &global, rows),
        global,
    }
}

/// One of: the identity alone; the job's rows, carried over, or some that they generate;
/// a group of permutations; rows that are not closed.
fn full_rows(rng: &mut Rng, full: usize, global: &[u8], rows: &[Vec<u8>]) -> Vec<Vec<u8>> {
    let over = |row: &Vec<u8>| {
        let mut image = identity_row(full);
        for (v, &w) in row.iter().enumerate() {
            let to = global.get(usize::from(w)).copied().unwrap_or(0);
            image[usize::from(global[v])] = to;
        }
        image
    };
    let carried: Vec<Vec<u8>> = rows.iter().map(over).collect();
    let sound = |row: &Vec<u8>| faceting_register::job::is_permutation(row);
    let carried: Vec<Vec<u8>> = carried.into_iter().filter(sound).take(MOST_ROWS).collect();
    let known = !carried.is_empty() && carried[0] == identity_row(full);
    match rng.below(7) {
        0 => vec![identity_row(full)],
        1 | 2 if known => carried,
        3 if known => subgroup(rng, full, &carried),
        4 => {
            let generators: Vec<Vec<u8>> = (0..2).map(|_| permutation(rng, full)).collect();
            closure(full, &generators, *rng.pick(&[12, 60, MOST_ROWS]))
        }
        5 => few_moved(rng, full),
        _ => open_rows(rng, full, |rng| permutation(rng, full)),
    }
}

/// The group of all permutations of a few points, the others fixed.
fn few_moved(rng: &mut Rng, full: usize) -> Vec<Vec<u8>> {
    let moved: Vec<u8> = permutation(rng, full).into_iter().take(4).collect();
    let swap = |a: u8, b: u8| {
        let mut row = identity_row(full);
        row.swap(a.into(), b.into());
        row
    };
    let swaps: Vec<Vec<u8>> = moved
        .windows(2)
        .map(|pair| swap(pair[0], pair[1]))
        .collect();
    closure(full, &swaps, MOST_ROWS)
}

/// A package at a bound or beyond it, with an altered byte, or of another length.
fn damaged(rng: &mut Rng, mut package: Package) -> Vec<u8> {
    let full = usize::from(package.points);
    match rng.below(9) {
        0 => {
            let count = *rng.pick(&[0, 1, 119, 120, 121, 300]);
            package.rows = vec![identity_row(full); count];
        }
        1 => {
            package.points = *rng.pick(&[0, 1, 2, 19, 20, 21, 255]);
            package.rows = vec![identity_row(package.points.into())];
        }
        2 => package.count = 0,
        3 if package.global.len() > 1 => package.global[1] = package.global[0],
        4 if !package.global.is_empty() => {
            let place = rng.below(package.global.len());
            package.global[place] = *rng.pick(&[package.points - 1, package.points, 255]);
        }
        5 => package.rows[0] = permutation(rng, full),
        6 => {
            let row = rng.below(package.rows.len());
            package.rows[row][rng.below(full)] =
                *rng.pick(&[0, package.points - 1, package.points]);
        }
        7 => {
            let mut bytes = package.write();
            let place = rng.below(bytes.len());
            bytes[place] ^= 1 << rng.below(8);
            return bytes;
        }
        _ => {
            let mut bytes = package.write();
            match rng.below(4) {
                0 => bytes.truncate(rng.below(6)),
                1 => bytes.truncate(bytes.len() - 1),
                2 => bytes.truncate(rng.below(bytes.len())),
                _ => bytes.push(0),
            }
            return bytes;
        }
    }
    package.write()
}
