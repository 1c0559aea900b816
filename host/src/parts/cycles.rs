//! Edges traced to closed ways: 0-1 0-2 1-3 2-3 is the way 0-1-3-2.

use std::collections::BTreeMap;

/// A closed way along edges, by its points; the last is joined to the first.
pub type Cycle = Vec<u32>;

/// The ways that these edges make up, each from its least point on towards the lesser
/// of its neighbours; none where some point lies in another number of edges than two.
pub fn cycles(edges: &[[u32; 2]]) -> Option<Vec<Cycle>> {
    let mut beside: BTreeMap<u32, Vec<u32>> = BTreeMap::new();
    for &[a, b] in edges {
        beside.entry(a).or_default().push(b);
        beside.entry(b).or_default().push(a);
    }
    let sound = |(point, two): (&u32, &Vec<u32>)| match two[..] {
        [a, b] => a != b && a != *point && b != *point,
        _ => false,
    };
    if edges.is_empty() || !beside.iter().all(sound) {
        return None;
    }
    let mut found = Vec::new();
    while let Some(&start) = beside.keys().next() {
        found.push(trace(&mut beside, start));
    }
    Some(found)
}

/// The way through a point; its points are taken out.
fn trace(beside: &mut BTreeMap<u32, Vec<u32>>, start: u32) -> Cycle {
    let mut way = vec![start];
    let mut next = beside.get(&start).and_then(|two| two.iter().min()).copied();
    while let Some(point) = next.filter(|&point| point != start) {
        let from = way[way.len() - 1];
        way.push(point);
        let two = beside.remove(&point).unwrap_or_default();
        next = two.into_iter().find(|&other| other != from);
    }
    beside.remove(&start);
    way
}

/// The points of a way in a line: 0-1-3-2.
pub fn words(cycle: &[u32]) -> String {
    let points: Vec<String> = cycle.iter().map(u32::to_string).collect();
    points.join("-")
}

#[cfg(test)]
mod tests {
    use super::*;

    #[test]
    fn a_square_is_one_way_and_a_hexagram_two() {
        let square = [[0, 1], [0, 2], [1, 3], [2, 3]];
        assert_eq!(cycles(&square), Some(vec![vec![0, 1, 3, 2]]));
        let hexagram = [[0, 11], [0, 13], [1, 8], [1, 19], [8, 19], [11, 13]];
        let two = vec![vec![0, 11, 13], vec![1, 8, 19]];
        assert_eq!(cycles(&hexagram), Some(two));
    }

    #[test]
    fn what_does_not_close_is_no_way() {
        assert_eq!(cycles(&[]), None);
        assert_eq!(cycles(&[[0, 1], [1, 2]]), None);
        assert_eq!(cycles(&[[0, 1], [0, 1]]), None);
        let eight = [[0, 1], [1, 2], [0, 2], [0, 3], [3, 4], [0, 4]];
        assert_eq!(cycles(&eight), None);
    }
}
