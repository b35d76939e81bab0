//! What a chain of passes has to keep: the order of neighbours and of channels, and the regional maxima and minima,
//! each counted straight from its definition, by four neighbours or by eight. Two planes of one comparison have the
//! same sides.
//!
//! By four neighbours every chain keeps all of it. By eight a chain does whose accepted passes all have eight.

use crate::components::Components;
use std::cmp::Ordering;

/// All pairs of neighbours, each pair once.
fn pairs(w: usize, h: usize, neighbours: u8) -> Vec<(usize, usize)> {
    let grid = Components::new(w, h, neighbours);
    let mut pairs = Vec::new();
    for p in 0..w * h {
        for q in grid.neighbours(p) {
            if p < q {
                pairs.push((p, q));
            }
        }
    }
    pairs
}

/// How many pairs of neighbours are reversed: the one that was higher is now lower.
pub fn reversed_neighbours(first: &[u8], last: &[u8], w: usize, h: usize, neighbours: u8) -> usize {
    let reversed = |&&(p, q): &&(usize, usize)| {
        let (before, after) = (first[p].cmp(&first[q]), last[p].cmp(&last[q]));
        before != Ordering::Equal && after == before.reverse()
    };
    pairs(w, h, neighbours).iter().filter(reversed).count()
}

/// How many pairs of equal neighbours are no longer equal.
pub fn parted_neighbours(first: &[u8], last: &[u8], w: usize, h: usize, neighbours: u8) -> usize {
    pairs(w, h, neighbours).iter().filter(|&&(p, q)| first[p] == first[q] && last[p] != last[q]).count()
}

/// How many pairs of channels of one pixel are reversed.
pub fn reversed_channels(frame: &[u8], output: &[u8]) -> usize {
    let mut count = 0;
    for (before, after) in frame.chunks(3).zip(output.chunks(3)) {
        for (c, d) in [(0, 1), (0, 2), (1, 2)] {
            let order = before[c].cmp(&before[d]);
            if order != Ordering::Equal && after[c].cmp(&after[d]) == order.reverse() {
                count += 1;
            }
        }
    }
    count
}

/// The largest connected sets of one value.
fn flat_zones(plane: &[u8], w: usize, h: usize, neighbours: u8) -> Vec<Vec<usize>> {
    let mut components = Components::new(w, h, neighbours);
    (0..=255).flat_map(|v| components.of_section(plane, v, v)).collect()
}

/// The largest connected sets of one value all of whose outside neighbours stand in the given order to it.
fn regional(plane: &[u8], w: usize, h: usize, neighbours: u8, outside: Ordering) -> Vec<Vec<usize>> {
    let grid = Components::new(w, h, neighbours);
    let is_regional = |zone: &Vec<usize>| {
        let value = plane[zone[0]];
        zone.iter().all(|&p| {
            let mut around = grid.neighbours(p);
            around.all(|q| zone.binary_search(&q).is_ok() || plane[q].cmp(&value) == outside)
        })
    };
    flat_zones(plane, w, h, neighbours).into_iter().filter(is_regional).collect()
}

/// The regional maxima, as sets of pixels: all outside neighbours are lower.
pub fn regional_maxima(plane: &[u8], w: usize, h: usize, neighbours: u8) -> Vec<Vec<usize>> {
    regional(plane, w, h, neighbours, Ordering::Less)
}

/// The regional minima, as sets of pixels: all outside neighbours are higher.
pub fn regional_minima(plane: &[u8], w: usize, h: usize, neighbours: u8) -> Vec<Vec<usize>> {
    regional(plane, w, h, neighbours, Ordering::Greater)
}

/// Whether each set of the last plane contains a whole set of the first.
pub fn each_contains_one(last: &[Vec<usize>], first: &[Vec<usize>]) -> bool {
    let inside = |small: &Vec<usize>, large: &Vec<usize>| small.iter().all(|p| large.binary_search(p).is_ok());
    last.iter().all(|large| first.iter().any(|small| inside(small, large)))
}

/// All of it for two planes: no neighbours are reversed or parted, there are no more regional maxima and minima than
/// before, and each of the last plane contains a whole one of the first.
pub fn keeps_shapes(first: &[u8], last: &[u8], w: usize, h: usize, neighbours: u8) -> bool {
    let spots_kept = |outside: Ordering| {
        let [before, after] = [first, last].map(|plane| regional(plane, w, h, neighbours, outside));
        after.len() <= before.len() && each_contains_one(&after, &before)
    };
    reversed_neighbours(first, last, w, h, neighbours) == 0
        && parted_neighbours(first, last, w, h, neighbours) == 0
        && spots_kept(Ordering::Less)
        && spots_kept(Ordering::Greater)
}

#[cfg(test)]
mod tests {
    use super::*;

    #[test]
    fn a_constant_plane_is_a_maximum_and_a_minimum() {
        let plane = [7; 6];
        let whole = vec![vec![0, 1, 2, 3, 4, 5]];
        for neighbours in [4, 8] {
            assert_eq!(regional_maxima(&plane, 3, 2, neighbours), whole);
            assert_eq!(regional_minima(&plane, 3, 2, neighbours), whole);
        }
    }

    #[test]
    fn extrema_of_a_row() {
        let plane = [5, 5, 3, 4, 4, 2, 9];
        for neighbours in [4, 8] {
            assert_eq!(regional_maxima(&plane, 7, 1, neighbours), [vec![3, 4], vec![0, 1], vec![6]]);
            assert_eq!(regional_minima(&plane, 7, 1, neighbours), [vec![5], vec![2]]);
        }
    }

    #[test]
    fn diagonals_are_neighbours_by_eight() {
        let plane = [9, 1, 1, 9];
        assert_eq!(regional_maxima(&plane, 2, 2, 4), [vec![0], vec![3]]);
        assert_eq!(regional_minima(&plane, 2, 2, 4), [vec![1], vec![2]]);
        assert_eq!(regional_maxima(&plane, 2, 2, 8), [vec![0, 3]]);
        assert_eq!(regional_minima(&plane, 2, 2, 8), [vec![1, 2]]);
        // A higher pixel at a corner.
        let plane = [9, 1, 1, 8];
        assert_eq!(regional_maxima(&plane, 2, 2, 4), [vec![3], vec![0]]);
        assert_eq!(regional_maxima(&plane, 2, 2, 8), [vec![0]]);
    }

    #[test]
    fn orders_are_compared() {
        for neighbours in [4, 8] {
            assert_eq!(reversed_neighbours(&[1, 2, 2], &[2, 1, 5], 3, 1, neighbours), 1);
            assert_eq!(parted_neighbours(&[1, 2, 2], &[2, 1, 5], 3, 1, neighbours), 1);
            assert_eq!(reversed_neighbours(&[1, 2, 3], &[2, 2, 2], 3, 1, neighbours), 0);
            assert!(keeps_shapes(&[1, 2, 3], &[2, 2, 2], 3, 1, neighbours));
            assert!(!keeps_shapes(&[2, 2, 2], &[1, 2, 3], 3, 1, neighbours));
        }
        assert_eq!(reversed_channels(&[1, 2, 3, 5, 5, 5], &[3, 2, 2, 5, 6, 7]), 2);
    }

    #[test]
    fn orders_at_corners_are_compared_by_eight() {
        let by = |neighbours, last: &[u8]| {
            let first = [1, 0, 0, 2];
            (reversed_neighbours(&first, last, 2, 2, neighbours), parted_neighbours(&first, last, 2, 2, neighbours))
        };
        assert_eq!((by(4, &[2, 0, 0, 1]), by(8, &[2, 0, 0, 1])), ((0, 0), (1, 0)));
        assert_eq!((by(4, &[2, 1, 0, 2]), by(8, &[2, 1, 0, 2])), ((0, 0), (0, 1)));
    }

    #[test]
    fn containment_asks_for_whole_sets() {
        assert!(each_contains_one(&[vec![1, 2, 3]], &[vec![0], vec![2, 3]]));
        assert!(!each_contains_one(&[vec![1, 2, 3]], &[vec![3, 4]]));
        assert!(each_contains_one(&[], &[vec![3, 4]]));
    }
}
