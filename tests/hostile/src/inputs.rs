//! Damaged input: frames and headers, well-formed or nearly so, many of them with comments, and then changed at random
//! places. Every run can be repeated from its seed.

use mlhe_reference::random::Random;

/// Bytes that decide how a header is read: whitespace, digits, their neighbours in ASCII, and comment signs.
const TELLING: [u8; 24] = *b"\t\n\x0b\x0c\r \x08\x0e\x1f!/0159:P6#\0\x7f\x80\x85\xff";

/// Numbers at the limits, in the forms that a header may have them in.
const NUMBERS: [&[u8]; 28] = [
    b"0", b"1", b"2", b"3", b"4", b"5", b"7", b"16", b"127", b"128", b"129", b"254", b"255", b"256", b"4095", b"4096",
    b"4097", b"16384", b"65535", b"65536", b"99999", b"999999", b"1000000", b"0255", b"000255", b"0000255", b"000001",
    b"",
];

const WHITESPACE: [&[u8]; 10] = [b" ", b"\n", b"\t", b"\r", b"\x0b", b"\x0c", b"\r\n", b"  ", b" \n\t", b""];

/// Sides of the frames that are built, mostly small ones; 128 by 128 is the largest that the program takes.
const SIDES: [(usize, usize); 16] = [
    (1, 1),
    (2, 1),
    (1, 2),
    (3, 3),
    (5, 4),
    (4, 5),
    (8, 8),
    (7, 9),
    (16, 3),
    (1, 40),
    (40, 1),
    (12, 11),
    (20, 20),
    (32, 24),
    (24, 32),
    (61, 43),
];

/// Large sides, for one input in a hundred.
const LARGE: [(usize, usize); 6] = [(128, 128), (129, 128), (4096, 4), (4, 4096), (1, 4096), (4097, 1)];

/// An endless sequence of inputs.
pub struct Inputs {
    random: Random,
}

impl Inputs {
    pub fn new(seed: u64) -> Self {
        Inputs { random: Random::new(seed) }
    }

    /// The next input: a frame, a header of odd parts or one that ends in a comment, or noise; two in three of them
    /// changed afterwards.
    pub fn input(&mut self) -> Vec<u8> {
        let mut input = match self.random.below(20) {
            0..=11 => self.frame(),
            12..=16 => self.odd_header(),
            17 => self.unended(),
            18 => self.two_frames(),
            _ => self.noise(),
        };
        if self.random.below(3) != 0 {
            for _ in 0..self.random.between(1, 4) {
                self.damage(&mut input);
            }
        }
        if self.random.below(400) == 0 {
            self.lengthen(&mut input);
        }
        input
    }

    /// A frame that is well-formed, every other one with comments.
    fn frame(&mut self) -> Vec<u8> {
        let sides = if self.random.below(100) == 0 { self.random.one_of(&LARGE) } else { self.random.one_of(&SIDES) };
        let comments = self.random.below(2) == 0;
        let mut frame = b"P6".to_vec();
        for (number, white) in [(sides.0, b"\n"), (sides.1, b" "), (255, b"\n")] {
            if comments {
                frame.extend(self.gap());
            } else {
                frame.extend(white);
            }
            frame.extend(number.to_string().bytes());
        }
        frame.push(b'\n');
        frame.extend(self.raster(sides.0 * sides.1));
        frame
    }

    /// The length of a comment: mostly none or few bytes, seldom thousands.
    fn comment_length(&mut self) -> usize {
        match self.random.below(200) {
            0 => self.random.between(1_000, 9_000),
            1..=9 => self.random.between(20, 300),
            10..=59 => 0,
            _ => self.random.between(1, 8),
        }
    }

    /// Whitespace and comments as they may stand before a number: few, seldom hundreds of them.
    fn gap(&mut self) -> Vec<u8> {
        let mut gap = Vec::new();
        let parts = if self.random.below(300) == 0 { 300 } else { self.random.between(1, 3) };
        for _ in 0..parts {
            if self.random.below(2) == 0 {
                gap.push(self.random.one_of(b" \n\t\r\x0b\x0c"));
            } else {
                let length = self.comment_length();
                gap.extend(self.random.comment(length));
            }
        }
        gap
    }

    /// What may be taken for the whitespace before or after a number: a gap, a comment that is open at its end, or any
    /// of the usual or unusual kinds.
    fn odd_gap(&mut self) -> Vec<u8> {
        match self.random.below(12) {
            0..=2 => self.gap(),
            3 => {
                let length = self.comment_length();
                self.random.open_comment(length)
            }
            _ => self.random.one_of(&WHITESPACE).to_vec(),
        }
    }

    /// The beginning of a header, and a comment up to the end, which holds the rest.
    fn unended(&mut self) -> Vec<u8> {
        let mut input = b"P6".to_vec();
        for number in [b"3", b"2"] {
            if self.random.below(3) != 0 {
                input.extend(self.gap());
                input.extend(number);
            }
        }
        let length = self.comment_length();
        input.extend(self.random.open_comment(length));
        input.extend(self.random.one_of(&[&b""[..], b" ", b" 3 2 255 ", b"255 RGBRGBRGBRGBRGBRGB"]));
        input
    }

    /// The channels of so many pixels: one colour, a ramp, a few greys in patches, few colours, or noise.
    fn raster(&mut self, n: usize) -> Vec<u8> {
        let kind = self.random.below(6);
        let base = self.random.byte();
        let greys: Vec<u8> = (0..4).map(|_| self.random.byte()).collect();
        let step = self.random.between(1, 9);
        let mut raster = Vec::with_capacity(3 * n);
        for i in 0..n {
            match kind {
                0 => raster.extend([base; 3]),
                1 => raster.extend([(i * step) as u8; 3]),
                2 => raster.extend([greys[i / step % 4]; 3]),
                3 => raster.extend([greys[self.random.below(4)], base, greys[i % 4]]),
                4 => raster.extend([base.wrapping_add(self.random.below(16) as u8); 3]),
                _ => raster.extend([self.random.byte(), self.random.byte(), self.random.byte()]),
            }
        }
        raster
    }

    /// A header of numbers at the limits, whitespace and comments of every kind, before a raster that may fit it.
    fn odd_header(&mut self) -> Vec<u8> {
        let sides = self.random.one_of(&SIDES);
        let mut header = b"P6".to_vec();
        for usual in [sides.0.to_string(), sides.1.to_string(), "255".to_string()] {
            header.extend(self.odd_gap());
            if self.random.below(2) == 0 {
                header.extend(usual.bytes());
            } else {
                header.extend(self.random.one_of(&NUMBERS));
            }
        }
        if self.random.below(4) == 0 {
            header.extend(self.odd_gap());
        } else {
            header.extend(self.random.one_of(&WHITESPACE));
        }
        header.extend(self.raster(sides.0 * sides.1));
        header
    }

    fn two_frames(&mut self) -> Vec<u8> {
        let mut both = self.frame();
        both.extend(self.frame());
        both
    }

    fn noise(&mut self) -> Vec<u8> {
        (0..self.random.below(64)).map(|_| self.random.byte()).collect()
    }

    /// A byte, mostly one that decides how a header is read.
    fn byte(&mut self) -> u8 {
        if self.random.below(4) == 0 {
            self.random.byte()
        } else {
            self.random.one_of(&TELLING)
        }
    }

    /// A place in the input, more often than not in its first bytes, where the header is.
    fn place(&mut self, length: usize) -> usize {
        let near = length.min(self.random.one_of(&[16, 24, 48]));
        if self.random.below(3) == 0 {
            self.random.below(length)
        } else {
            self.random.below(near)
        }
    }

    /// One change: a byte or a bit of it, a byte more or less, a part doubled, or the end cut off or prolonged.
    fn damage(&mut self, input: &mut Vec<u8>) {
        if input.is_empty() {
            input.push(self.byte());
            return;
        }
        let at = self.place(input.len());
        match self.random.below(8) {
            0 => input[at] = self.byte(),
            1 => input[at] ^= 1 << self.random.below(8),
            2 => input.insert(at, self.byte()),
            3 => drop(input.remove(at)),
            4 => {
                let end = input.len().min(at + self.random.between(1, 8));
                let part = input[at..end].to_vec();
                input.splice(at..at, part);
            }
            5 => input.truncate(at),
            6 => input.truncate(input.len() - self.random.below(input.len().min(4))),
            _ => {
                for _ in 0..self.random.between(1, 3) {
                    input.push(self.byte());
                }
            }
        }
    }

    /// Lengthens the input to about 65,536 bytes, by whitespace or a comment in the header or by bytes at its end.
    fn lengthen(&mut self, input: &mut Vec<u8>) {
        let length = self.random.one_of(&[65_535, 65_536, 65_537, 65_600, 80_000]);
        let mut more = vec![b' '; length.max(input.len()) - input.len()];
        let at = if self.random.below(4) == 0 { input.len() } else { input.len().min(2) };
        if let [first, .., last] = &mut more[..] {
            if self.random.below(2) == 0 {
                *first = b'#';
                *last = self.random.one_of(b"\n\r ");
            }
        }
        input.splice(at..at, more);
    }
}
