//! Components of sets of pixels, by four or by eight neighbours.

/// The two numbers of neighbours. With four, neighbours differ by one in one coordinate and agree in the other; with
/// eight, pixels that touch at a corner are neighbours too.
pub const FOUR: u8 = 4;
pub const EIGHT: u8 = 8;

/// Finds components in a plane of w columns and h rows, by so many neighbours. A pixel is its place in reading order.
pub struct Components {
    w: usize,
    h: usize,
    corners: bool,
    /// The pixels still to be taken by the search that runs. Between two searches there are none.
    waiting: Vec<bool>,
}

impl Components {
    /// The number of neighbours is 4 or 8.
    pub fn new(w: usize, h: usize, neighbours: u8) -> Self {
        assert!(matches!(neighbours, FOUR | EIGHT), "{neighbours} neighbours");
        Components { w, h, corners: neighbours == EIGHT, waiting: vec![false; w * h] }
    }

    /// The neighbours of p. No row and no column goes on at the other side of the plane.
    pub fn neighbours(&self, p: usize) -> impl Iterator<Item = usize> {
        let (w, column, row) = (self.w, p % self.w, p / self.w);
        let (left, right) = (column > 0, column + 1 < self.w);
        let (above, below) = (row > 0, row + 1 < self.h);
        [
            above.then(|| p - w),
            left.then(|| p - 1),
            right.then_some(p + 1),
            below.then_some(p + w),
            (self.corners && above && left).then(|| p - w - 1),
            (self.corners && above && right).then(|| p - w + 1),
            (self.corners && below && left).then(|| p + w - 1),
            (self.corners && below && right).then_some(p + w + 1),
        ]
        .into_iter()
        .flatten()
    }

    /// The components of a set of pixels given in reading order. They come in the reading order of their first
    /// pixels, and the pixels of each one in reading order.
    pub fn of(&mut self, set: &[usize]) -> Vec<Vec<usize>> {
        for &p in set {
            self.waiting[p] = true;
        }
        let mut components = Vec::new();
        for &start in set {
            if self.waiting[start] {
                components.push(self.take(start));
            }
        }
        components
    }

    /// Takes the component of a waiting pixel out of those that wait.
    fn take(&mut self, start: usize) -> Vec<usize> {
        self.waiting[start] = false;
        let mut component = vec![start];
        let mut done = 0;
        while done < component.len() {
            for q in self.neighbours(component[done]) {
                if self.waiting[q] {
                    self.waiting[q] = false;
                    component.push(q);
                }
            }
            done += 1;
        }
        component.sort_unstable();
        component
    }

    /// The components of the section [a, b] of a plane.
    pub fn of_section(&mut self, plane: &[u8], a: u8, b: u8) -> Vec<Vec<usize>> {
        let section: Vec<usize> = (0..plane.len()).filter(|&p| a <= plane[p] && plane[p] <= b).collect();
        self.of(&section)
    }
}

#[cfg(test)]
mod tests {
    use super::*;

    /// Four: the coordinates differ by one together. Eight: each differs by at most one, and they are not the same.
    #[test]
    fn neighbours_by_their_coordinates() {
        for (w, h) in (1..=5_usize).flat_map(|w| (1..=5).map(move |h| (w, h))) {
            for p in 0..w * h {
                let apart = |q: usize| ((p % w).abs_diff(q % w), (p / w).abs_diff(q / w));
                let four: Vec<usize> = (0..w * h).filter(|&q| apart(q).0 + apart(q).1 == 1).collect();
                let eight: Vec<usize> = (0..w * h).filter(|&q| apart(q).0.max(apart(q).1) == 1).collect();
                for (number, expected) in [(FOUR, four), (EIGHT, eight)] {
                    let mut found: Vec<usize> = Components::new(w, h, number).neighbours(p).collect();
                    found.sort_unstable();
                    assert_eq!(found, expected, "{number} neighbours of {p} in {w} by {h}");
                }
            }
        }
    }

    #[test]
    fn wires_are_one_by_eight_neighbours() {
        // 1 9 9 1
        // 9 1 1 9
        // 1 9 9 9
        let plane = [1, 9, 9, 1, 9, 1, 1, 9, 1, 9, 9, 9];
        let of = |number, v| Components::new(4, 3, number).of_section(&plane, v, v);
        assert_eq!(of(FOUR, 1), [vec![0], vec![3], vec![5, 6], vec![8]]);
        assert_eq!(of(EIGHT, 1), [vec![0, 3, 5, 6, 8]]);
        assert_eq!(of(FOUR, 9), [vec![1, 2], vec![4], vec![7, 9, 10, 11]]);
        assert_eq!(of(EIGHT, 9), [vec![1, 2, 4, 7, 9, 10, 11]]);
    }
}
