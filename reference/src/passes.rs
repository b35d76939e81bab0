//! One pass over one section.

use crate::components::Components;
use crate::counts::Counts;
use crate::refusals::{self, refuse_if, Refusal, GREATEST_PIXELS};
use crate::tones::{retoned, Rule};

/// A pass: the section [a, b], the least area, the tone rule and the number of neighbours, 4 or 8.
#[derive(Clone, Copy, Debug, PartialEq, Eq)]
pub struct Pass {
    pub a: u8,
    pub b: u8,
    pub area: u32,
    pub rule: Rule,
    pub neighbours: u8,
}

/// Retones every component of [a, b] that has the least area and isn't kept back. Answers how many were retoned and how
/// many kept back.
pub fn pass(
    plane: &mut [u8],
    marks_len: usize,
    queue_len: usize,
    w: usize,
    h: usize,
    pass: &Pass,
) -> Result<Counts, Refusal> {
    lent_plane(plane, marks_len, queue_len, w, h)?;
    sound(pass)?;
    Ok(run(plane, w, h, pass))
}

/// 1 to 4, in this order: what a pass and a list are lent.
pub(crate) fn lent_plane(plane: &[u8], marks_len: usize, queue_len: usize, w: usize, h: usize) -> Result<(), Refusal> {
    let n = refusals::size(w, h, GREATEST_PIXELS)?;
    refuse_if(plane.len() != n, 3)?;
    refusals::memory(marks_len, queue_len, n)
}

/// 5 to 8, 18 and 19, in this order: the numbers of the pass.
pub(crate) fn sound(pass: &Pass) -> Result<(), Refusal> {
    refuse_if(pass.a > pass.b, 5)?;
    refusals::area(pass.area)?;
    refusals::rule(&pass.rule)?;
    refusals::neighbours(pass.neighbours)
}

/// The pass itself. All components are found before the first one is retoned.
pub(crate) fn run(plane: &mut [u8], w: usize, h: usize, pass: &Pass) -> Counts {
    let components = Components::new(w, h, pass.neighbours).of_section(plane, pass.a, pass.b);
    let mut counts = Counts::default();
    for component in components {
        if component.len() >= pass.area as usize {
            counts.count(retone(plane, &component, pass.a, pass.b, &pass.rule));
        }
    }
    counts
}

/// Gives the pixels of one component their new values. Answers no if the rule keeps it back.
pub(crate) fn retone(plane: &mut [u8], component: &[usize], a: u8, b: u8, rule: &Rule) -> bool {
    let values: Vec<u8> = component.iter().map(|&p| plane[p]).collect();
    match retoned(&values, a, b, rule) {
        None => false,
        Some(new) => {
            for (&p, v) in component.iter().zip(new) {
                plane[p] = v;
            }
            true
        }
    }
}
