//! Morpho-local histogram equalisation of frames: the second implementation.
//!
//! Every public call of the proved library is written here once more, apart from it and straight from the
//! requirements: clear and slow, with wide exact numbers. It shares no code and no table with the proved crates, so
//! that a test can hold the one against the other. The enhancement runs as the published recursion over components
//! (Algorithms 2 and 3), never as a list of passes; that both agree is tested here.
//!
//! | Call | Does | Refusals, in the order of the tests |
//! |---|---|---|
//! | [`intensity`] | fills a plane with the rounded mean of the channels | 1, 2, 3 |
//! | [`pass`] | retones the components of one section | 1 to 8, 18, 19 |
//! | [`recolour`] | carries new intensities over to the channels | 1, 2, 3, 14 |
//! | [`enhance`] | the eight-level recursion, then the colours | 1, 2, 3, 4, 14, 9, 6, 7, 8, 18, 19 |
//! | [`run_list`] | runs the passes of a list of bytes | 1 to 4, then those of the list |
//! | [`run_passes`] | runs the passes of a list in memory | 1 to 4, 16, passes 5 to 8, 18, 19 |
//! | [`convert`] | turns a list of bytes into the other version | those of the list, 20, 14 |
//! | [`read`] | reads the header of a P6 frame, comments too, and measures the rest | 10, 1, 2, 11, 12, 13 |
//! | [`write`] | writes a P6 frame | 1, 2, 3, 14 |
//! | [`program`] | standard input to standard output | 13 (long input), then as above |
//!
//! Those of a list of bytes are 16 (under 7 bytes), 15, 16, then for each record 17, 5 to 8, 18, 19.
//!
//! A pass and an enhancement carry the number of neighbours, [`FOUR`] or [`EIGHT`]. A list of bytes of version 1 means
//! four; one of version 2 has the number in each record.
//!
//! A pass, a list and an enhancement answer [`Counts`]: the components of sufficient area that were retoned, and those
//! that were kept back. [`sufficient`] counts both together, from the definition. A call that is turned down answers
//! the number of its refusal and changes no lent byte. Of the marks and the queue only the lengths matter here, so the
//! calls take the lengths alone.

pub mod cases;
mod colours;
mod components;
mod counts;
mod enhancement;
pub mod extrema;
mod lists;
mod netpbm;
mod passes;
pub mod pictures;
mod program;
pub mod random;
mod refusals;
mod sufficient;
mod tones;

pub use colours::{intensity, recolour};
pub use components::{Components, EIGHT, FOUR};
pub use counts::Counts;
pub use enhancement::{enhance, level_by_level, Settings};
pub use lists::{convert, list_bytes, list_bytes_of, list_passes, run_list, run_passes, Version, GREATEST_COUNT};
pub use netpbm::{header, read, write, Frame};
pub use passes::{pass, Pass};
pub use program::{program, PROGRAM_BYTES, PROGRAM_PIXELS};
pub use refusals::{Refusal, GREATEST_PIXELS, GREATEST_SIDE};
pub use sufficient::{sufficient, sufficient_in_all};
pub use tones::{retoned, Rule};
