//! The settings of an enhancement.

use crate::Rule;

/// What an enhancement is told: the last level, the least area of a component, the rule, and the number of neighbours.
/// A later version may have more to tell, so settings are made by [`Settings::new`], or from the house setting:
///
/// ```
/// use mlhe::{Rule, Settings};
///
/// let settings = Settings::house().with_last(3).with_rule(Rule::Limited { k: 20 });
/// assert_eq!(settings, Settings::new(3, 20, Rule::Limited { k: 20 }));
/// assert_eq!(settings.with_neighbours(8).neighbours, 8);
/// ```
#[derive(Clone, Copy, Debug, PartialEq, Eq, Hash)]
#[non_exhaustive]
pub struct Settings {
    /// The last level, 0 to [`GREATEST_LEVEL`](crate::GREATEST_LEVEL).
    pub last: u8,
    /// The least area of a component from level 1 on, 1 to [`GREATEST_PIXELS`](crate::GREATEST_PIXELS).
    pub area: u32,
    /// The tone rule.
    pub rule: Rule,
    /// How many neighbours a pixel has, on all levels: 4 or 8, with which pixels that touch at a corner belong
    /// together.
    pub neighbours: u8,
}

impl Settings {
    /// The house setting: all levels, area 20, plain with low 80 and high 300, four neighbours.
    pub const HOUSE: Settings = Settings::new(7, 20, Rule::Plain { low: 80, high: 300 });

    /// Settings of these numbers, with four neighbours. A call refuses those that are out of range.
    #[must_use]
    pub const fn new(last: u8, area: u32, rule: Rule) -> Settings {
        Settings { last, area, rule, neighbours: 4 }
    }

    /// The house setting, [`Settings::HOUSE`].
    #[must_use]
    pub const fn house() -> Settings {
        Settings::HOUSE
    }

    /// The same with another last level.
    #[must_use]
    pub const fn with_last(self, last: u8) -> Settings {
        Settings { last, ..self }
    }

    /// The same with another least area.
    #[must_use]
    pub const fn with_area(self, area: u32) -> Settings {
        Settings { area, ..self }
    }

    /// The same with another rule.
    #[must_use]
    pub const fn with_rule(self, rule: Rule) -> Settings {
        Settings { rule, ..self }
    }

    /// The same with another number of neighbours: 4 or 8. A call refuses any other.
    #[must_use]
    pub const fn with_neighbours(self, neighbours: u8) -> Settings {
        Settings { neighbours, ..self }
    }
}

impl Default for Settings {
    /// The house setting.
    fn default() -> Self {
        Settings::HOUSE
    }
}
