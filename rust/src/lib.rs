//! Morpho-local histogram equalisation (MLHE) of frames: safe calls of the proved library.
//!
//! The library is written in Rattle and proved to do what its contracts say; this crate links it and gives its calls
//! the types that a Rust user expects.
//!
//! # What is guaranteed, and of what
//!
//! Of the **plane**: whatever passes a [`Plane`] goes through, one after the other, equal four-neighbours stay equal,
//! unequal ones are never reversed, and each regional maximum or minimum contains a whole one of the first plane; so
//! there are no more of either. Passes with four and with eight neighbours may be mixed. Where all of them have eight,
//! the same holds by eight neighbours too. An enhancement leaves such a plane of the frame's intensity,
//! [`Enhanced::plane`], by eight neighbours too where it has eight.
//!
//! Not of the recoloured frame, [`Enhanced::frame`]: recolouring holds a channel at 255 and rounds, so that its own
//! intensity is another plane, in which neighbours may be reversed and spots be new. **Match spots on the plane, not on
//! the recoloured frame.** Where all pixels of the frame are grey, the same holds of the recoloured frame's own
//! intensity too.
//!
//! # What there is
//!
//! - [`Frame`] and [`Plane`] own their bytes and always have the length of their sides.
//! - [`Pass`], [`Rule`] and [`Settings`] say what to do, and [`PassList`] is a list of passes that has been checked,
//!   with its file of version 1 or 2. With eight neighbours, by [`Pass::with_neighbours`] and
//!   [`Settings::with_neighbours`], pixels that touch at a corner belong together.
//! - [`Counts`] is what passes and enhancements count: the components that were retoned, and those that were kept back.
//! - [`Memory`] is working memory, to be used again from call to call.
//! - [`Refusal`] says why a call is turned down.
//! - [`GREATEST_SIDE`], [`GREATEST_PIXELS`] and the other constants are the greatest numbers that the calls take.
//! - [`lent`] has the same calls on memory that the caller lends, and [`ffi`] the C functions as they are.
//!
//! ```
//! use mlhe::{Frame, Memory, Refusal, Rule, Settings};
//!
//! let frame = Frame::from_p6(b"P6 2 1 255 \x0a\x0a\x0a\x14\x14\x14")?;
//! let settings = Settings::house().with_last(0).with_rule(Rule::Plain { low: 0, high: 25_500 });
//! let enhanced = frame.enhanced(&settings, &mut Memory::new())?;
//! assert_eq!(enhanced.plane.values(), [128, 255]);
//! # Ok::<(), Refusal>(())
//! ```

//! # Sections in parallel
//!
//! Accepted passes on intervals that have no value in common may run in any order from one plane, or each on a copy of
//! it, by threads that know nothing of each other: the last plane and the counts of each pass are the same. Copies are
//! put together pixel by pixel: the new value is that in the copy on which the pass ran whose interval has the **old**
//! value, and the old value where no interval has it. The sections of one level of an enhancement are such passes.
//!
//! ```
//! use mlhe::{Counts, Memory, Pass, Plane, Refusal, Rule};
//! use std::thread;
//!
//! let first = Plane::new(4, 1, vec![10, 20, 200, 220])?;
//! let rule = Rule::Plain { low: 0, high: 25_500 };
//! let run = |pass: Pass| {
//!     let mut copy = first.clone();
//!     copy.pass(&pass, &mut Memory::new()).map(|counts| (copy, counts))
//! };
//! let (dark, bright) = thread::scope(|scope| {
//!     let dark = scope.spawn(|| run(Pass::new(0, 127, 1, rule)));
//!     let bright = run(Pass::new(128, 255, 1, rule));
//!     (dark.join().expect("no panic"), bright)
//! });
//! let ((dark, one), (bright, other)) = (dark?, bright?);
//! let copies = dark.values().iter().zip(bright.values());
//! let pixel = |(&old, (&dark, &bright)): (&u8, (&u8, &u8))| if old <= 127 { dark } else { bright };
//! let together: Vec<u8> = first.values().iter().zip(copies).map(pixel).collect();
//! assert_eq!(together, [64, 127, 192, 255]);
//! assert_eq!([one, other], [Counts { retoned: 1, kept: 0 }; 2]);
//! # Ok::<(), Refusal>(())
//! ```

#![deny(missing_docs)]
#![warn(clippy::must_use_candidate, clippy::return_self_not_must_use)]

mod counts;
pub mod ffi;
mod frame;
pub mod lent;
mod memory;
mod pass;
mod plane;
mod refusal;
mod settings;
mod sizes;

pub use counts::Counts;
pub use frame::{Enhanced, Frame};
pub use memory::Memory;
pub use pass::{Pass, PassList, Rule};
pub use plane::Plane;
pub use refusal::Refusal;
pub use settings::Settings;
pub use sizes::{
    GREATEST_CLIP, GREATEST_HEADER, GREATEST_HIGH, GREATEST_LEVEL, GREATEST_LIST, GREATEST_PASSES, GREATEST_PIXELS,
    GREATEST_SEGMENTS, GREATEST_SIDE, GREATEST_SLOPE,
};
