//! What a call that counts is lent beside planes and frames.

use crate::calls::require;
use crate::guarded::Guarded;
use crate::inputs;
use mlhe_reference::random::Random;
use mlhe_reference::{Counts, Refusal};

/// Working memory and counts.
pub struct Work {
    pub marks: Guarded<u8>,
    pub queue: Guarded<u32>,
    pub counts: Guarded<usize>,
}

impl Work {
    /// Of any content, with lengths around n and around the two counts.
    pub fn new(random: &mut Random, n: usize) -> Work {
        let lengths = [n, n, 2].map(|needed| inputs::length(random, needed));
        Work::of(random, lengths)
    }

    /// Of any content, with the lengths that are needed.
    pub fn exact(random: &mut Random, n: usize) -> Work {
        Work::of(random, [n, n, 2])
    }

    fn of(random: &mut Random, [marks, queue, counts]: [usize; 3]) -> Work {
        let (marks, queue) = (Guarded::filled(marks, random), Guarded::filled(queue, random));
        Work { marks, queue, counts: Guarded::filled(counts, random) }
    }

    /// What a C function is to answer where the second implementation, which lends its counts itself, answers this: 14
    /// is tested after all else.
    pub fn judged(&self, answer: Result<Counts, Refusal>) -> Result<Counts, Refusal> {
        answer.and_then(|counts| if self.counts.len() < 2 { Err(14) } else { Ok(counts) })
    }

    /// After a call that is to answer this: where it was refused, nothing has changed. Otherwise marks and queue are
    /// kept from the n-th element on, and the counts are those expected, with what is beyond them kept.
    pub fn same(&self, expected: Result<Counts, Refusal>, n: usize) -> Result<(), String> {
        let Work { marks, queue, counts } = self;
        let Ok(expected) = expected else {
            require(marks.untouched() && queue.untouched(), "marks or queue are not kept")?;
            return require(counts.untouched(), "the counts of a refused call are not kept");
        };
        require(marks.kept_beyond(n) && queue.kept_beyond(n), "marks or queue are not kept")?;
        require(counts.kept_beyond(2), "what is beyond the counts is not kept")?;
        let (retoned, kept) = (counts.now()[0] as u64, counts.now()[1] as u64);
        let what = format!("the counts are {retoned} and {kept}, and should be {expected:?}");
        require(expected == Counts { retoned, kept }, &what)
    }
}
