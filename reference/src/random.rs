//! A small generator of random numbers, so that every run of a test can be repeated from its seed.

/// What ends a comment of a header, with whitespace after it or not.
pub const COMMENT_ENDS: [&[u8]; 4] = [b"\n", b"\r", b"\r\n", b"\n\r"];

/// Splitmix64.
#[derive(Clone, Debug)]
pub struct Random(u64);

impl Random {
    pub fn new(seed: u64) -> Self {
        Random(seed)
    }

    /// The next 64 bits.
    pub fn bits(&mut self) -> u64 {
        self.0 = self.0.wrapping_add(0x9E37_79B9_7F4A_7C15);
        let mut z = self.0;
        z = (z ^ (z >> 30)).wrapping_mul(0xBF58_476D_1CE4_E5B9);
        z = (z ^ (z >> 27)).wrapping_mul(0x94D0_49BB_1331_11EB);
        z ^ (z >> 31)
    }

    /// A number below the bound, which is not 0.
    pub fn below(&mut self, bound: usize) -> usize {
        (self.bits() % bound as u64) as usize
    }

    /// A number from low to high.
    pub fn between(&mut self, low: usize, high: usize) -> usize {
        low + self.below(high - low + 1)
    }

    pub fn byte(&mut self) -> u8 {
        self.bits() as u8
    }

    /// One of the given things.
    pub fn one_of<T: Copy>(&mut self, things: &[T]) -> T {
        things[self.below(things.len())]
    }

    /// The pixels of a wire one pixel thin in a plane of w by h pixels: each touches the one before at a corner. It
    /// turns at the plane's edges, and seldom elsewhere. Where a side is 1, it is one pixel.
    pub fn wire(&mut self, w: usize, h: usize) -> Vec<usize> {
        let (mut x, mut y) = (self.below(w), self.below(h));
        let mut wire = vec![y * w + x];
        if w == 1 || h == 1 {
            return wire;
        }
        let (mut right, mut down) = (self.below(2) == 0, self.below(2) == 0);
        for _ in 0..self.between(1, w + h) {
            (x, right) = stepped(x, w, right ^ (self.below(6) == 0));
            (y, down) = stepped(y, h, down ^ (self.below(6) == 0));
            wire.push(y * w + x);
        }
        wire
    }

    /// A comment of a header without its end: a number sign and so many bytes of any kind, none of them LF or CR.
    pub fn open_comment(&mut self, length: usize) -> Vec<u8> {
        let mut comment = vec![b'#'];
        for _ in 0..length {
            let byte = if self.below(2) == 0 { self.one_of(b"0125 #P6\t\x0b\x0c\x00") } else { self.byte() };
            comment.push(if matches!(byte, b'\n' | b'\r') { b' ' } else { byte });
        }
        comment
    }

    /// A comment of a header with its end.
    pub fn comment(&mut self, length: usize) -> Vec<u8> {
        let mut comment = self.open_comment(length);
        comment.extend(self.one_of(&COMMENT_ENDS));
        comment
    }
}

/// The next place on a side of at least 2, and whether it lies forward: it does if it should and there is one.
fn stepped(at: usize, side: usize, forward: bool) -> (usize, bool) {
    let forward = if forward { at + 1 < side } else { at == 0 };
    (if forward { at + 1 } else { at - 1 }, forward)
}

#[cfg(test)]
mod tests {
    use super::*;

    #[test]
    fn wires_go_from_corner_to_corner() {
        let mut random = Random::new(5);
        for _ in 0..500 {
            let (w, h) = (random.between(1, 7), random.between(1, 7));
            let wire = random.wire(w, h);
            assert!(wire.iter().all(|&p| p < w * h) && (wire.len() > 1) == (w > 1 && h > 1));
            for pair in wire.windows(2) {
                let apart = |p: usize, q: usize| ((p % w).abs_diff(q % w), (p / w).abs_diff(q / w));
                assert_eq!(apart(pair[0], pair[1]), (1, 1));
            }
        }
    }
}
