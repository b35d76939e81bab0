//! What passes count.

/// How many components of sufficient area were retoned, and how many were kept back. A component is of sufficient area
/// if it has at least the least area of its pass; both numbers together are all of these, in the plane as each pass
/// finds it, summed over the passes.
///
/// [`Rule`](crate::Rule) says which components each rule keeps back. A component that gets the rule and comes out as it
/// was is retoned.
///
/// ```
/// use mlhe::{Counts, Memory, Pass, Plane, Refusal, Rule};
///
/// // Of the dark components, 10 20 is retoned, 10 10 is of one value, and 30 has less than the least area.
/// let mut plane = Plane::new(7, 1, vec![10, 20, 200, 10, 10, 200, 30])?;
/// let dark = Pass::new(0, 127, 2, Rule::Plain { low: 0, high: 25_500 });
/// assert_eq!(plane.pass(&dark, &mut Memory::new())?, Counts { retoned: 1, kept: 1 });
/// # Ok::<(), Refusal>(())
/// ```
#[derive(Clone, Copy, Debug, Default, PartialEq, Eq, Hash)]
pub struct Counts {
    /// The components that got the rule.
    pub retoned: u32,
    /// The components of sufficient area that were kept back.
    pub kept: u32,
}

impl Counts {
    /// What a C function left in lent counts. No sum over a list is above the greatest number of passes times that of
    /// pixels, so 32 bits hold each.
    pub(crate) fn of_lent([retoned, kept]: [usize; 2]) -> Counts {
        Counts { retoned: retoned as u32, kept: kept as u32 }
    }
}
