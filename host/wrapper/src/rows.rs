//! Rows of permutations: closing generators under composition.

use std::collections::HashSet;

use crate::job::{compose, identity_row};

/// The identity, then its products with the generators, breadth first; no more
/// than `most` of them.
pub fn closure(points: usize, generators: &[Vec<u8>], most: usize) -> Vec<Vec<u8>> {
    let mut rows = vec![identity_row(points)];
    let mut known: HashSet<Vec<u8>> = rows.iter().cloned().collect();
    let mut next = 0;
    while let Some(row) = rows.get(next).cloned() {
        for generator in generators {
            let product = compose(&row, generator);
            if rows.len() < most && known.insert(product.clone()) {
                rows.push(product);
            }
        }
        next += 1;
    }
    rows
}
