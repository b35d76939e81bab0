//! The lines that the Rust crate's calls give to stored passes and enhancements.

use crate::stored::{hex, numbers};
use mlhe::{lent, Pass, Rule, Settings};
use mlhe_reference::cases::{Case, Kind, OUTPUT_FILL};

/// The line that answers a pass or an enhancement with a plane of its own.
pub fn line(case: &Case) -> String {
    let (mut marks, mut queue) = (vec![0; case.marks.into()], vec![0; case.queue.into()]);
    let (mut plane, mut output) = (case.plane.clone(), vec![OUTPUT_FILL; case.output.into()]);
    let (w, h) = (case.w as usize, case.h as usize);
    let [first, second] = case.numbers;
    let rule = match case.rule {
        0 => Rule::Plain { low: first, high: second },
        1 => Rule::Limited { k: first },
        _ => Rule::Affine { segments: case.segments, smin: first, smax: second },
    };
    if case.kind == Kind::Pass {
        let pass = Pass::new(case.a, case.b, case.area, rule).with_neighbours(case.neighbours);
        let answer = lent::pass(&mut plane, &mut marks, &mut queue, w, h, &pass);
        return format!("{} {} 0", numbers(answer), hex(&plane));
    }
    let settings = Settings::new(case.last_level, case.area, rule).with_neighbours(case.neighbours);
    let answer = lent::enhance(&case.bytes, w, h, &settings, &mut plane, &mut marks, &mut queue, &mut output);
    format!("{} {} {} 0", numbers(answer), hex(&plane), hex(&output))
}
