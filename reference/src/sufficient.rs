//! The components of sufficient area, counted from their definition: neighbours in a section belong together, and a
//! component is all that belongs together. No tone rule and no search of the passes is used.

use crate::components::EIGHT;
use crate::passes::{run, Pass};

/// How many components of the pass's section have at least its least area, in this plane. The pass is a sound one.
pub fn sufficient(plane: &[u8], w: usize, h: usize, pass: &Pass) -> u64 {
    assert_eq!(plane.len(), w * h);
    let in_section = |p: &usize| pass.a <= plane[*p] && plane[*p] <= pass.b;
    let section: Vec<usize> = (0..plane.len()).filter(in_section).collect();
    if section.is_empty() {
        return 0;
    }
    let mut sets = Sets { above: (0..plane.len()).collect() };
    for &p in &section {
        for q in later_neighbours(p, w, h, pass.neighbours).filter(in_section) {
            sets.join(p, q);
        }
    }
    let mut sizes = vec![0_u64; plane.len()];
    for &p in &section {
        sizes[sets.of(p)] += 1;
    }
    sizes.iter().filter(|&&size| size >= u64::from(pass.area)).count() as u64
}

/// The neighbours of p that come after it in reading order: the next in its row, and one or three in the row below.
fn later_neighbours(p: usize, w: usize, h: usize, neighbours: u8) -> impl Iterator<Item = usize> {
    let (column, row) = (p % w, p / w);
    let reach = usize::from(neighbours == EIGHT);
    let columns = column.saturating_sub(reach)..(column + reach + 1).min(w);
    let next = (column + 1 < w).then_some(p + 1);
    let below = (row + 1 < h).then(|| columns.map(move |x| (row + 1) * w + x));
    next.into_iter().chain(below.into_iter().flatten())
}

/// The same summed over sound passes, each counted in the plane as the pass finds it.
pub fn sufficient_in_all(passes: &[Pass], first: &[u8], w: usize, h: usize) -> u64 {
    let mut plane = first.to_vec();
    let mut sum = 0;
    for pass in passes {
        sum += sufficient(&plane, w, h, pass);
        run(&mut plane, w, h, pass);
    }
    sum
}

/// Disjoint sets of pixels. A set is told by one of its pixels, to which the others lead.
struct Sets {
    above: Vec<usize>,
}

impl Sets {
    /// The pixel that tells the set of p. What leads there is made shorter on the way.
    fn of(&mut self, mut p: usize) -> usize {
        while self.above[p] != p {
            self.above[p] = self.above[self.above[p]];
            p = self.above[p];
        }
        p
    }

    /// Makes the sets of p and q one.
    fn join(&mut self, p: usize, q: usize) {
        let (p, q) = (self.of(p), self.of(q));
        self.above[p.max(q)] = p.min(q);
    }
}

#[cfg(test)]
mod tests {
    use super::*;
    use crate::random::Random;
    use crate::{Components, Rule};

    const FREE: Rule = Rule::Plain { low: 0, high: 25_500 };

    #[test]
    fn components_of_every_area() {
        // 1 1 9 1
        // 9 1 9 1
        // 1 9 9 9
        let plane = [1, 1, 9, 1, 9, 1, 9, 1, 1, 9, 9, 9];
        let by = |neighbours, a, b, area| sufficient(&plane, 4, 3, &Pass { a, b, area, rule: FREE, neighbours });
        let of = |a, b, area| by(4, a, b, area);
        assert_eq!([1, 2, 3, 4].map(|area| of(0, 8, area)), [3, 2, 1, 0]);
        assert_eq!([1, 2, 5, 6].map(|area| of(9, 9, area)), [2, 1, 1, 0]);
        assert_eq!([1, 12, 13].map(|area| of(0, 255, area)), [1, 1, 0]);
        assert_eq!(of(2, 8, 1), 0);
        // 1 below on the left joins the first three; 9 in the first column has one of the others at a corner.
        let of = |a, b, area| by(8, a, b, area);
        assert_eq!([1, 2, 3, 4, 5].map(|area| of(0, 8, area)), [2, 2, 1, 1, 0]);
        assert_eq!([1, 6, 7].map(|area| of(9, 9, area)), [1, 1, 0]);
        assert_eq!([1, 12, 13].map(|area| of(0, 255, area)), [1, 1, 0]);
        assert_eq!(of(2, 8, 1), 0);
    }

    #[test]
    fn a_list_is_counted_in_the_plane_as_each_pass_finds_it() {
        // The first pass leaves 64 127, so that the second finds nothing below 64 and the third everything above.
        let over = |(a, b)| Pass { a, b, area: 1, rule: FREE, neighbours: 4 };
        let passes = [(0, 127), (0, 63), (64, 127)].map(over);
        assert_eq!(sufficient_in_all(&passes, &[10, 20], 2, 1), 2);
        assert_eq!(sufficient_in_all(&passes[1..], &[10, 20], 2, 1), 1);
        assert_eq!(sufficient_in_all(&[], &[10, 20], 2, 1), 0);
    }

    /// The search of the passes finds as many.
    #[test]
    fn as_many_as_are_found() {
        let mut random = Random::new(4);
        for _ in 0..2_000 {
            let (w, h) = (random.between(1, 12), random.between(1, 12));
            let few = random.between(1, 5);
            let plane: Vec<u8> = (0..w * h).map(|_| 50 * random.below(few) as u8).collect();
            let (x, y) = (random.byte(), random.byte());
            let (a, b, area) = (x.min(y), x.max(y), random.between(1, 6) as u32);
            for neighbours in [4, 8] {
                let found = Components::new(w, h, neighbours).of_section(&plane, a, b);
                let large = found.iter().filter(|component| component.len() >= area as usize).count() as u64;
                assert_eq!(sufficient(&plane, w, h, &Pass { a, b, area, rule: FREE, neighbours }), large);
            }
        }
    }
}
