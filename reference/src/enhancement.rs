//! Algorithms 2 and 3: the recursion over components, and the colours after it.

use crate::colours::{intensity, recolour};
use crate::components::{Components, FOUR};
use crate::counts::Counts;
use crate::passes::{retone, Pass};
use crate::refusals::{self, refuse_if, Refusal, GREATEST_PIXELS};
use crate::tones::Rule;

/// What an enhancement is told: the last level L, and of all its levels the least area, the tone rule and the number of
/// neighbours.
#[derive(Clone, Copy, Debug, PartialEq, Eq)]
pub struct Settings {
    pub last_level: u32,
    pub area: u32,
    pub rule: Rule,
    pub neighbours: u8,
}

impl Settings {
    /// The house setting.
    pub const HOUSE: Settings =
        Settings { last_level: 7, area: 20, rule: Rule::Plain { low: 80, high: 300 }, neighbours: FOUR };
}

/// Leaves the new intensities in the plane and the recoloured frame in the output. Answers how often a component was
/// retoned and how often one was kept back.
#[allow(clippy::too_many_arguments)]
pub fn enhance(
    frame: &[u8],
    w: usize,
    h: usize,
    settings: &Settings,
    plane: &mut [u8],
    marks_len: usize,
    queue_len: usize,
    output: &mut [u8],
) -> Result<Counts, Refusal> {
    let n = refusals::size(w, h, GREATEST_PIXELS)?;
    refuse_if(plane.len() != n || frame.len() != 3 * n, 3)?;
    refusals::memory(marks_len, queue_len, n)?;
    refuse_if(output.len() < 3 * n, 14)?;
    refuse_if(settings.last_level > 7, 9)?;
    refusals::area(settings.area)?;
    refusals::rule(&settings.rule)?;
    refusals::neighbours(settings.neighbours)?;

    intensity(frame, w, h, plane)?;
    let components = Components::new(w, h, settings.neighbours);
    let mut recursion = Recursion { plane, settings, components, counts: Counts::default() };
    let whole_plane: Vec<usize> = (0..n).collect();
    recursion.equalise(&whole_plane, 0, 255);
    let counts = recursion.counts;
    recolour(frame, w, h, plane, output)?;
    Ok(counts)
}

/// The plane as the recursion has it, and the components equalised so far.
struct Recursion<'a> {
    plane: &'a mut [u8],
    settings: &'a Settings,
    components: Components,
    counts: Counts,
}

impl Recursion<'_> {
    /// Algorithm 2: equalises one component of [a, b], then has the halves of the interval processed inside it, on
    /// the tones that it has now. A component that was kept back is split all the same.
    fn equalise(&mut self, component: &[usize], a: u8, b: u8) {
        self.counts.count(retone(self.plane, component, a, b, &self.settings.rule));
        let width = u32::from(b) - u32::from(a) + 1;
        let level = 8 - width.ilog2();
        if level + 1 > self.settings.last_level {
            return;
        }
        let middle = ((u32::from(a) + u32::from(b)) / 2) as u8;
        self.process_section(component, a, middle);
        self.process_section(component, middle + 1, b);
    }

    /// Algorithm 3: enters the components of [a, b] inside a component that have the least area.
    fn process_section(&mut self, inside: &[usize], a: u8, b: u8) {
        let section: Vec<usize> =
            inside.iter().copied().filter(|&p| a <= self.plane[p] && self.plane[p] <= b).collect();
        for component in self.components.of(&section) {
            if component.len() >= self.settings.area as usize {
                self.equalise(&component, a, b);
            }
        }
    }
}

/// The list of passes that an enhancement equals: level by level, lower section first, level 0 with area 1, all with
/// its number of neighbours. The enhancement above makes no use of it.
pub fn level_by_level(settings: &Settings) -> Vec<Pass> {
    let mut passes = Vec::new();
    for level in 0..=settings.last_level {
        let width = 256 >> level;
        for a in (0..256).step_by(width) {
            let area = if level == 0 { 1 } else { settings.area };
            let (a, b) = (a as u8, (a + width - 1) as u8);
            passes.push(Pass { a, b, area, rule: settings.rule, neighbours: settings.neighbours });
        }
    }
    passes
}
