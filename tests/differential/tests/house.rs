//! The Rust crate's house setting is the library's: the stored cases with the house setting, which tell it from any
//! that differs slightly, have the same answers when they are run with `Settings::HOUSE`, refusals too.

mod stored;

use mlhe::{lent, Rule, Settings};
use mlhe_reference::cases::{Case, Kind, OUTPUT_FILL};
use stored::{agree, hex, numbers};

/// The line that answers a case.
fn line(case: &Case) -> String {
    let (mut marks, mut queue) = (vec![0; case.marks.into()], vec![0; case.queue.into()]);
    let (mut plane, mut output) = (case.plane.clone(), vec![OUTPUT_FILL; case.output.into()]);
    let (w, h) = (case.w as usize, case.h as usize);
    let house = Settings::HOUSE;
    let answer = lent::enhance(&case.bytes, w, h, &house, &mut plane, &mut marks, &mut queue, &mut output);
    let Rule::Plain { low, high } = house.rule else { panic!("the house setting is plain") };
    let [numbers, plane, output] = [numbers(answer), hex(&plane), hex(&output)];
    format!("{numbers} {plane} {output} 0 {} {} {low} {high} {}", house.last, house.area, house.neighbours)
}

#[test]
fn the_stored_cases_with_the_house_setting() {
    agree(|case| case.kind == Kind::House, line);
}
