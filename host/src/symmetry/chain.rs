//! All permutations that keep the distances, however many: by a symmetry for each
//! place that point 0 can be carried to, then for each place of point 1 while point
//! 0 stays, and so on. Their numbers multiply to the order of the group, and
//! together they make it up.

use super::distances::Distances;
use faceting_register::job::identity_row;

/// For each point the symmetries that keep all points before it and carry it to
/// another place, one for each place.
pub struct Chain {
    carriers: Vec<Vec<Vec<u8>>>,
}

impl Chain {
    /// The symmetries of points with these distances.
    pub fn of(distances: &Distances) -> Chain {
        let points = distances.points();
        let carriers = |v: usize| {
            let places = v + 1..points;
            places.filter_map(|w| carrier(distances, v, w)).collect()
        };
        Chain {
            carriers: (0..points).map(carriers).collect(),
        }
    }

    /// How many points there are.
    pub fn points(&self) -> usize {
        self.carriers.len()
    }

    /// Permutations that make up the group that keeps the first points, so many.
    pub fn generators(&self, fixed: usize) -> Vec<Vec<u8>> {
        self.carriers
            .iter()
            .skip(fixed)
            .flatten()
            .cloned()
            .collect()
    }

    /// How many symmetries keep them.
    pub fn order(&self, fixed: usize) -> u64 {
        let places = |carriers: &Vec<Vec<u8>>| carriers.len() as u64 + 1;
        self.carriers.iter().skip(fixed).map(places).product()
    }
}

/// A symmetry that keeps the points before v and carries v to w, if there is one.
fn carrier(distances: &Distances, v: usize, w: usize) -> Option<Vec<u8>> {
    let mut images = identity_row(v);
    if !fits(distances, &images, w) {
        return None;
    }
    images.push(w as u8);
    let likes = likes(distances);
    extend(distances, &likes, &mut images).then_some(images)
}

/// For each point the first that it can change places with while all others stay.
/// Where one of such points is no image for another point, no other of them is.
fn likes(distances: &Distances) -> Vec<usize> {
    let alike = |v: usize, w: usize| {
        let mut others = (0..distances.points()).filter(|&u| u != v && u != w);
        others.all(|u| distances.class(u, v) == distances.class(u, w))
    };
    let first = |w: usize| (0..w).find(|&v| alike(v, w)).unwrap_or(w);
    (0..distances.points()).map(first).collect()
}

/// Finds images for the points that have none yet. It goes deep only as long as a
/// point is not yet determined by the distances to those before it.
fn extend(distances: &Distances, likes: &[usize], images: &mut Vec<u8>) -> bool {
    if images.len() == distances.points() {
        return true;
    }
    let mut tried = Vec::new();
    for w in 0..distances.points() {
        if tried.contains(&likes[w]) || !fits(distances, images, w) {
            continue;
        }
        tried.push(likes[w]);
        images.push(w as u8);
        if extend(distances, likes, images) {
            return true;
        }
        images.pop();
    }
    false
}

/// Whether w is free and as far from each image as the next point from its origin.
fn fits(distances: &Distances, images: &[u8], w: usize) -> bool {
    let v = images.len();
    let kept = |(u, &image): (usize, &u8)| {
        let image = usize::from(image);
        image != w && distances.class(u, v) == distances.class(image, w)
    };
    images.iter().enumerate().all(kept)
}
