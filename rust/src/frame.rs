//! Colour frames.

use crate::{lent, Counts, Memory, Plane, Refusal, Settings, GREATEST_HEADER};

/// A frame: w columns and h rows of pixels, each the bytes red, green, blue. Its sides are 1 to 4,096, and it has at
/// most 1,048,576 pixels.
#[derive(Clone, Debug, PartialEq, Eq, Hash)]
pub struct Frame {
    w: usize,
    h: usize,
    bytes: Vec<u8>,
}

/// What an enhancement leaves. A later version may leave more.
#[derive(Clone, Debug, PartialEq, Eq)]
#[non_exhaustive]
pub struct Enhanced {
    /// The frame, recoloured from the plane. Its own intensity is not the plane and keeps less: recolouring holds a
    /// channel at 255 and rounds.
    pub frame: Frame,
    /// The new intensity. What is guaranteed is guaranteed of this plane: match spots here.
    pub plane: Plane,
    /// The components that were retoned and those that were kept back, section by section on all levels: under the
    /// plain rule a component of one value is kept once at every level where its area is sufficient. Level 0 has no
    /// least area.
    pub counts: Counts,
}

impl Frame {
    /// A frame of these bytes. Refusals, in order: [`Refusal::Sides`], [`Refusal::Pixels`], [`Refusal::Lengths`].
    pub fn new(w: usize, h: usize, bytes: Vec<u8>) -> Result<Frame, Refusal> {
        // With no output at all the library gets as far as refusing just that, for a frame that is sound.
        match lent::write(&bytes, w, h, &mut []) {
            Err(Refusal::Output) => Ok(Frame { w, h, bytes }),
            Err(refusal) => Err(refusal),
            Ok(_) => unreachable!("a frame has bytes"),
        }
    }

    /// The frame of a P6 file. Comments in its header are skipped, as by [`lent::read`]. Refusals, in
    /// order: [`Refusal::Header`], [`Refusal::Sides`], [`Refusal::Pixels`], [`Refusal::Maxval`], [`Refusal::Raster`],
    /// [`Refusal::Trailing`].
    ///
    /// ```
    /// use mlhe::{Frame, Refusal};
    ///
    /// let frame = Frame::from_p6(b"P6 2 1 255 abcdef")?;
    /// assert_eq!((frame.width(), frame.height(), frame.bytes()), (2, 1, &b"abcdef"[..]));
    /// assert_eq!(frame.to_p6(), b"P6\n2 1\n255\nabcdef");
    /// assert_eq!(Frame::from_p6(b"P6\n# a comment\n2 1 255 abcdef")?, frame);
    /// assert_eq!(Frame::from_p6(b"P5 1 1 255 "), Err(Refusal::Header));
    /// # Ok::<(), Refusal>(())
    /// ```
    pub fn from_p6(file: &[u8]) -> Result<Frame, Refusal> {
        let header = lent::read(file)?;
        Ok(Frame { w: header.w, h: header.h, bytes: file[header.offset..].to_vec() })
    }

    /// The frame as a P6 file.
    #[must_use]
    pub fn to_p6(&self) -> Vec<u8> {
        let mut file = vec![0; GREATEST_HEADER + self.bytes.len()];
        let length = lent::write(&self.bytes, self.w, self.h, &mut file).expect("the frame is sound");
        file.truncate(length);
        file
    }

    /// The number of columns.
    #[must_use]
    pub fn width(&self) -> usize {
        self.w
    }

    /// The number of rows.
    #[must_use]
    pub fn height(&self) -> usize {
        self.h
    }

    /// The raster: 3 × w × h bytes.
    #[must_use]
    pub fn bytes(&self) -> &[u8] {
        &self.bytes
    }

    /// The raster, taken out of the frame.
    #[must_use]
    pub fn into_bytes(self) -> Vec<u8> {
        self.bytes
    }

    fn pixels(&self) -> usize {
        self.w * self.h
    }

    /// The intensities of the pixels: the rounded means of their channels.
    #[must_use]
    pub fn intensity(&self) -> Plane {
        let mut values = vec![0; self.pixels()];
        lent::intensity(&self.bytes, self.w, self.h, &mut values).expect("the frame is sound");
        Plane::new(self.w, self.h, values).expect("the plane has the frame's sides")
    }

    /// The frame, recoloured from new intensities. [`Refusal::Lengths`] where the plane has other sides.
    ///
    /// The channels of a pixel keep their order. Each is scaled alike and rounded, and held so that none is above 255;
    /// a pixel of intensity 0 becomes black. So the new frame's own intensity may differ from the plane.
    ///
    /// ```
    /// use mlhe::{Frame, Plane, Refusal};
    ///
    /// let frame = Frame::new(1, 1, vec![200, 100, 0])?;
    /// assert_eq!(frame.intensity().values(), [100]);
    /// assert_eq!(frame.recoloured(&Plane::new(1, 1, vec![120])?)?.bytes(), [240, 120, 0]);
    /// assert_eq!(frame.recoloured(&Plane::new(2, 1, vec![1, 2])?), Err(Refusal::Lengths));
    /// # Ok::<(), Refusal>(())
    /// ```
    pub fn recoloured(&self, plane: &Plane) -> Result<Frame, Refusal> {
        if (plane.width(), plane.height()) != (self.w, self.h) {
            return Err(Refusal::Lengths);
        }
        let mut bytes = vec![0; self.bytes.len()];
        lent::recolour(&self.bytes, self.w, self.h, plane.values(), &mut bytes)?;
        Ok(Frame { w: self.w, h: self.h, bytes })
    }

    /// The frame, enhanced. Refusals, in order: [`Refusal::Level`], [`Refusal::Area`], [`Refusal::Limits`],
    /// [`Refusal::Clip`], [`Refusal::Slopes`], [`Refusal::Neighbours`].
    ///
    /// ```
    /// use mlhe::{Counts, Frame, Memory, Refusal, Rule, Settings};
    ///
    /// let frame = Frame::new(2, 1, vec![10, 10, 10, 20, 20, 20])?;
    /// let settings = Settings::new(1, 1, Rule::Plain { low: 0, high: 25_500 });
    /// let enhanced = frame.enhanced(&settings, &mut Memory::new())?;
    /// assert_eq!(enhanced.plane.values(), [192, 255]);
    /// assert_eq!(enhanced.counts, Counts { retoned: 2, kept: 0 });
    /// # Ok::<(), Refusal>(())
    /// ```
    pub fn enhanced(&self, settings: &Settings, memory: &mut Memory) -> Result<Enhanced, Refusal> {
        let (mut values, mut bytes) = (vec![0; self.pixels()], vec![0; self.bytes.len()]);
        let (marks, queue) = memory.lend(self.pixels());
        let counts = lent::enhance(&self.bytes, self.w, self.h, settings, &mut values, marks, queue, &mut bytes)?;
        let plane = Plane::new(self.w, self.h, values).expect("the plane has the frame's sides");
        Ok(Enhanced { frame: Frame { w: self.w, h: self.h, bytes }, plane, counts })
    }
}
