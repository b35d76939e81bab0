//! What passes count: components of sufficient area, retoned and kept back.

use std::iter::Sum;

/// What a pass, a list or an enhancement answers of the components of sufficient area that it came to: those with at
/// least the least area of their pass.
#[derive(Clone, Copy, Debug, Default, PartialEq, Eq)]
pub struct Counts {
    /// Those that had the rule, also where it left every value as it was.
    pub retoned: u64,
    /// Those that the rule kept back.
    pub kept: u64,
}

impl Counts {
    /// Both together: all components of sufficient area.
    pub fn together(self) -> u64 {
        self.retoned + self.kept
    }

    /// Counts one more component.
    pub(crate) fn count(&mut self, is_retoned: bool) {
        if is_retoned {
            self.retoned += 1;
        } else {
            self.kept += 1;
        }
    }
}

impl Sum for Counts {
    /// Each count summed by itself.
    fn sum<I: Iterator<Item = Counts>>(passes: I) -> Counts {
        passes.fold(Counts::default(), |sum, pass| Counts {
            retoned: sum.retoned + pass.retoned,
            kept: sum.kept + pass.kept,
        })
    }
}
