//! Passes, their tone rules, and lists of passes.

use crate::{lent, Refusal};

/// A tone rule with its own numbers. A later version may have more rules.
#[derive(Clone, Copy, Debug, PartialEq, Eq, Hash)]
#[non_exhaustive]
pub enum Rule {
    /// Histogram equalisation; a component keeps its old values where they are all one, or where the ratio of the value
    /// ranges after and before is outside low to high, in hundredths. low ≤ high ≤ 25,500.
    Plain {
        /// The lower limit, in hundredths.
        low: u16,
        /// The upper limit, in hundredths, at most [`GREATEST_HIGH`](crate::GREATEST_HIGH).
        high: u16,
    },
    /// Contrast-limited equalisation; no component is kept back.
    Limited {
        /// The clip, in thousandths, at most [`GREATEST_CLIP`](crate::GREATEST_CLIP).
        k: u16,
    },
    /// Piecewise affine equalisation: the cumulative histogram is approximated by joined segments whose slopes are held
    /// between smin and smax, in hundredths. smin ≤ smax ≤ 10,000. Where the last segment ends above the interval, all
    /// are scaled to fit; where it ends below the interval's upper end, or the interval is of one value, a component
    /// keeps its old values.
    ///
    /// ```
    /// use mlhe::{Counts, Memory, Pass, Plane, Refusal, Rule};
    ///
    /// let mut plane = Plane::new(4, 1, vec![10, 10, 20, 30])?;
    /// let pass = |smax| Pass::new(0, 255, 1, Rule::Affine { segments: 2, smin: 100, smax });
    /// assert_eq!(plane.pass(&pass(300), &mut Memory::new())?, Counts { retoned: 0, kept: 1 });
    /// assert_eq!(plane.pass(&pass(10_000), &mut Memory::new())?, Counts { retoned: 1, kept: 0 });
    /// assert_eq!(plane.values(), [128, 128, 191, 255]);
    /// # Ok::<(), Refusal>(())
    /// ```
    Affine {
        /// The number of segments, 1 to [`GREATEST_SEGMENTS`](crate::GREATEST_SEGMENTS).
        segments: u8,
        /// The least slope of a segment, in hundredths.
        smin: u16,
        /// The greatest slope of a segment, in hundredths, at most [`GREATEST_SLOPE`](crate::GREATEST_SLOPE).
        smax: u16,
    },
}

impl Rule {
    /// The numbers that stand for the rule in a list: its code, first and second number, and the segments.
    fn numbers(self) -> (u8, u16, u16, u8) {
        match self {
            Rule::Plain { low, high } => (0, low, high, 0),
            Rule::Limited { k } => (1, k, 0, 0),
            Rule::Affine { segments, smin, smax } => (2, smin, smax, segments),
        }
    }

    /// The same numbers with that of the neighbours, as a C function is lent them.
    pub(crate) fn lent(self, neighbours: u8) -> [u16; 5] {
        let (code, first, second, segments) = self.numbers();
        [code.into(), first, second, segments.into(), neighbours.into()]
    }
}

/// A pass: every component of the pixels with values from `a` to `b` that has at least `area` pixels gets the rule. A
/// component is connected by four neighbours, which differ by one in one coordinate and agree in the other, or by
/// eight, which differ by at most one in each: with eight, pixels that touch at a corner belong together. A later
/// version may have more to tell a pass, so it is made by [`Pass::new`] and [`Pass::with_neighbours`].
///
/// ```
/// use mlhe::{Counts, Memory, Pass, Plane, Refusal, Rule};
///
/// // Two dark pixels that touch at a corner: two components of one value each, or one component of both.
/// let mut plane = Plane::new(2, 2, vec![10, 200, 200, 20])?;
/// let dark = Pass::new(0, 127, 1, Rule::Plain { low: 0, high: 25_500 });
/// let mut memory = Memory::new();
/// assert_eq!(plane.pass(&dark, &mut memory)?, Counts { retoned: 0, kept: 2 });
/// assert_eq!(plane.values(), [10, 200, 200, 20]);
/// assert_eq!(plane.pass(&dark.with_neighbours(8), &mut memory)?, Counts { retoned: 1, kept: 0 });
/// assert_eq!(plane.values(), [64, 200, 200, 127]);
/// assert_eq!(plane.pass(&dark.with_neighbours(6), &mut memory), Err(Refusal::Neighbours));
/// # Ok::<(), Refusal>(())
/// ```
#[derive(Clone, Copy, Debug, PartialEq, Eq, Hash)]
#[non_exhaustive]
pub struct Pass {
    /// The lower end of the interval of values.
    pub a: u8,
    /// The upper end of the interval of values, itself in it.
    pub b: u8,
    /// The least area of a component, 1 to [`GREATEST_PIXELS`](crate::GREATEST_PIXELS).
    pub area: u32,
    /// The tone rule.
    pub rule: Rule,
    /// How many neighbours a pixel has: 4 or 8.
    pub neighbours: u8,
}

impl Pass {
    /// A pass of these numbers, with four neighbours. A call refuses those that are out of range.
    #[must_use]
    pub const fn new(a: u8, b: u8, area: u32, rule: Rule) -> Pass {
        Pass { a, b, area, rule, neighbours: 4 }
    }

    /// The same with another number of neighbours: 4 or 8. A call refuses any other.
    #[must_use]
    pub const fn with_neighbours(self, neighbours: u8) -> Pass {
        Pass { neighbours, ..self }
    }

    /// The pass of a record, of either version, that the library accepts.
    fn of_record(record: &[u8]) -> Pass {
        let half = |at: usize| u16::from_le_bytes([record[at], record[at + 1]]);
        let rule = match record[2] {
            0 => Rule::Plain { low: half(8), high: half(10) },
            1 => Rule::Limited { k: half(8) },
            _ => Rule::Affine { segments: record[3], smin: half(8), smax: half(10) },
        };
        let area = u32::from_le_bytes([record[4], record[5], record[6], record[7]]);
        let pass = Pass::new(record[0], record[1], area, rule);
        record.get(RECORD_1).map_or(pass, |&neighbours| pass.with_neighbours(neighbours))
    }

    /// The record of the pass in version 2; its first bytes are the record in version 1, which has no place for the
    /// neighbours.
    fn to_record(self) -> [u8; RECORD_2] {
        let (code, first, second, segments) = self.rule.numbers();
        let ([f, g], [s, t]) = (first.to_le_bytes(), second.to_le_bytes());
        let [i, j, k, l] = self.area.to_le_bytes();
        [self.a, self.b, code, segments, i, j, k, l, f, g, s, t, self.neighbours, 0, 0, 0]
    }
}

/// The bytes before the first record of a list, and those of a record in version 1 and in version 2.
const HEAD: usize = 7;
const RECORD_1: usize = 12;
const RECORD_2: usize = 16;

/// Passes to run one after the other, checked: none of them is refused. At most
/// [`GREATEST_PASSES`](crate::GREATEST_PASSES).
///
/// A list has its file: of version 1, which means four neighbours, or of version 2, in which each pass has its own
/// number of them. Lists are equal if their files are.
///
/// ```
/// use mlhe::{Counts, Memory, Pass, PassList, Plane, Refusal, Rule};
///
/// let rule = Rule::Plain { low: 0, high: 25_500 };
/// let dark = Pass::new(0, 127, 1, rule);
/// let list = PassList::new(&[dark])?;
/// let mut plane = Plane::new(5, 1, vec![10, 20, 200, 10, 10])?;
/// assert_eq!(plane.run(&list, &mut Memory::new()), Counts { retoned: 1, kept: 1 });
/// assert_eq!(plane.values(), [64, 127, 200, 10, 10]);
///
/// // The file format, and back.
/// assert_eq!(PassList::from_bytes(list.bytes())?, list);
/// assert_eq!(PassList::from_bytes(b"MLQ\x01\0\0\0"), Err(Refusal::ListMark));
/// assert_eq!(PassList::new(&[Pass::new(9, 8, 1, rule)]), Err(Refusal::Interval));
///
/// // A list with eight neighbours is of version 2.
/// let mixed = PassList::new(&[dark, dark.with_neighbours(8)])?;
/// let mut plane = Plane::new(2, 2, vec![10, 200, 200, 20])?;
/// assert_eq!(plane.run(&mixed, &mut Memory::new()), Counts { retoned: 1, kept: 2 });
/// assert_eq!(plane.values(), [64, 200, 200, 127]);
/// assert_eq!((list.version(), mixed.version()), (1, 2));
/// assert_eq!(PassList::new(&[dark.with_neighbours(9)]), Err(Refusal::Neighbours));
/// # Ok::<(), Refusal>(())
/// ```
#[derive(Clone, Debug, PartialEq, Eq, Hash)]
pub struct PassList {
    passes: Vec<Pass>,
    bytes: Vec<u8>,
}

impl PassList {
    /// The list of these passes, of version 1 where all of them have four neighbours and of version 2 otherwise.
    /// Refusals, in order: [`Refusal::ListLength`] for more than [`GREATEST_PASSES`](crate::GREATEST_PASSES); then for
    /// each pass [`Refusal::Interval`], [`Refusal::Area`], [`Refusal::Limits`], [`Refusal::Clip`], [`Refusal::Slopes`],
    /// [`Refusal::Neighbours`].
    pub fn new(passes: &[Pass]) -> Result<PassList, Refusal> {
        let count = u16::try_from(passes.len()).map_err(|_| Refusal::ListLength)?;
        let all_four = passes.iter().all(|pass| pass.neighbours == 4);
        let (version, length) = if all_four { (1_u16, RECORD_1) } else { (2, RECORD_2) };
        let mut bytes = b"MLP".to_vec();
        bytes.extend(version.to_le_bytes());
        bytes.extend(count.to_le_bytes());
        passes.iter().for_each(|pass| bytes.extend(&pass.to_record()[..length]));
        PassList::of_file(bytes)
    }

    /// A list in its file format, of version 1 or 2. Refusals, in order: [`Refusal::ListLength`] for fewer than 7
    /// bytes, [`Refusal::ListMark`], [`Refusal::ListLength`]; then for each record [`Refusal::Rule`],
    /// [`Refusal::Interval`], [`Refusal::Area`], [`Refusal::Limits`], [`Refusal::Clip`], [`Refusal::Slopes`],
    /// [`Refusal::Neighbours`].
    pub fn from_bytes(bytes: &[u8]) -> Result<PassList, Refusal> {
        PassList::of_file(bytes.to_vec())
    }

    fn of_file(bytes: Vec<u8>) -> Result<PassList, Refusal> {
        // The library checks a whole list before it runs the first pass, so one pixel is enough to have it checked.
        lent::run_list(&bytes, &mut [0], &mut [0], &mut [0], 1, 1)?;
        let length = if version(&bytes) == 1 { RECORD_1 } else { RECORD_2 };
        let passes = bytes[HEAD..].chunks_exact(length).map(Pass::of_record).collect();
        Ok(PassList { passes, bytes })
    }

    /// The passes, in their order.
    #[must_use]
    pub fn passes(&self) -> &[Pass] {
        &self.passes
    }

    /// The list in its file format: as it was read, or as [`PassList::new`] says.
    #[must_use]
    pub fn bytes(&self) -> &[u8] {
        &self.bytes
    }

    /// The version of the file, 1 or 2.
    #[must_use]
    pub fn version(&self) -> u16 {
        version(&self.bytes)
    }

    /// The same passes in the other version, which run to the same plane and counts. Converted again, it is this list.
    /// [`Refusal::EightNeighbours`] where the other version is 1 and a pass has eight neighbours.
    ///
    /// ```
    /// use mlhe::{Pass, PassList, Refusal, Rule};
    ///
    /// let dark = Pass::new(0, 127, 1, Rule::Plain { low: 0, high: 25_500 });
    /// let list = PassList::new(&[dark])?;
    /// let second = list.converted()?;
    /// assert_eq!((second.version(), second.passes()), (2, list.passes()));
    /// assert_eq!(second.bytes(), [b"MLP\x02\0\x01\0", &list.bytes()[7..], &[4, 0, 0, 0]].concat());
    /// assert_eq!(second.converted()?, list);
    ///
    /// let eight = PassList::new(&[dark.with_neighbours(8)])?;
    /// assert_eq!(eight.converted(), Err(Refusal::EightNeighbours));
    /// # Ok::<(), Refusal>(())
    /// ```
    pub fn converted(&self) -> Result<PassList, Refusal> {
        let mut bytes = vec![0; HEAD + RECORD_2 * self.passes.len()];
        let length = lent::convert_list(&self.bytes, &mut bytes)?;
        bytes.truncate(length);
        Ok(PassList { passes: self.passes.clone(), bytes })
    }
}

/// The version that a file has, if it is a list.
fn version(bytes: &[u8]) -> u16 {
    u16::from_le_bytes([bytes[3], bytes[4]])
}
