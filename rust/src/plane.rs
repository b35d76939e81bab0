//! Planes of intensities.

use crate::{lent, Counts, Frame, Memory, Pass, PassList, Refusal, Rule};

/// A plane: w columns and h rows of values, row by row, left to right. Its sides are 1 to 4,096, and it has at most
/// 1,048,576 pixels. Passes never reverse two four-neighbours of it, part equal ones, or invent a regional maximum or
/// minimum, however many of them run; where all of them have eight neighbours, none of this by eight neighbours either.
#[derive(Clone, Debug, PartialEq, Eq, Hash)]
pub struct Plane {
    w: usize,
    h: usize,
    values: Vec<u8>,
}

impl Plane {
    /// A plane of these values. Refusals, in order: [`Refusal::Sides`], [`Refusal::Pixels`], [`Refusal::Lengths`].
    pub fn new(w: usize, h: usize, mut values: Vec<u8>) -> Result<Plane, Refusal> {
        // With no working memory at all the library gets as far as refusing just that, for a plane that is sound.
        let never = Pass::new(0, 0, 1, Rule::Limited { k: 0 });
        match lent::pass(&mut values, &mut [], &mut [], w, h, &never) {
            Err(Refusal::Memory) => Ok(Plane { w, h, values }),
            Err(refusal) => Err(refusal),
            Ok(_) => unreachable!("a plane has pixels"),
        }
    }

    /// The number of columns.
    #[must_use]
    pub fn width(&self) -> usize {
        self.w
    }

    /// The number of rows.
    #[must_use]
    pub fn height(&self) -> usize {
        self.h
    }

    /// The values: w × h bytes, row by row.
    #[must_use]
    pub fn values(&self) -> &[u8] {
        &self.values
    }

    /// The values, taken out of the plane.
    #[must_use]
    pub fn into_values(self) -> Vec<u8> {
        self.values
    }

    /// The plane as a grey frame, to keep it in a file: its intensity is this plane again.
    ///
    /// ```
    /// use mlhe::{Plane, Refusal};
    ///
    /// let plane = Plane::new(3, 1, vec![0, 43, 255])?;
    /// assert_eq!(plane.to_frame().bytes(), [0, 0, 0, 43, 43, 43, 255, 255, 255]);
    /// assert_eq!(plane.to_frame().intensity(), plane);
    /// # Ok::<(), Refusal>(())
    /// ```
    #[must_use]
    pub fn to_frame(&self) -> Frame {
        let bytes = self.values.iter().flat_map(|&value| [value; 3]).collect();
        Frame::new(self.w, self.h, bytes).expect("the frame has the plane's sides")
    }

    /// Runs one pass and answers the numbers of retoned and kept components. Refusals, in order: [`Refusal::Interval`],
    /// [`Refusal::Area`], [`Refusal::Limits`], [`Refusal::Clip`], [`Refusal::Slopes`], [`Refusal::Neighbours`].
    ///
    /// ```
    /// use mlhe::{Counts, Memory, Pass, Plane, Refusal, Rule};
    ///
    /// let mut plane = Plane::new(4, 1, vec![10, 10, 20, 30])?;
    /// let rule = Rule::Plain { low: 0, high: 25_500 };
    /// let mut memory = Memory::new();
    /// assert_eq!(plane.pass(&Pass::new(0, 255, 1, rule), &mut memory)?, Counts { retoned: 1, kept: 0 });
    /// assert_eq!(plane.values(), [128, 128, 191, 255]);
    /// assert_eq!(plane.pass(&Pass::new(0, 255, 0, rule), &mut memory), Err(Refusal::Area));
    /// # Ok::<(), Refusal>(())
    /// ```
    pub fn pass(&mut self, pass: &Pass, memory: &mut Memory) -> Result<Counts, Refusal> {
        let (marks, queue) = memory.lend(self.values.len());
        lent::pass(&mut self.values, marks, queue, self.w, self.h, pass)
    }

    /// Runs the passes of a list and answers the sums of their counts. A list is the chain of its passes, one after the
    /// other (theorem `lists_are_chains`), and was checked whole when it was made, so that all of it runs.
    pub fn run(&mut self, list: &PassList, memory: &mut Memory) -> Counts {
        let (marks, queue) = memory.lend(self.values.len());
        lent::run_list(list.bytes(), &mut self.values, marks, queue, self.w, self.h).expect("plane and list are sound")
    }
}
