//! The Rust crate's numbers of neighbours are the library's: the stored passes, enhancements and lists in memory that
//! have not four throughout have the same answers when they are run by the crate's calls, refusals too; and so have the
//! stored lists in files, on many of which eight tell or would tell.

mod lines;
mod stored;

use lines::line;
use mlhe::{Memory, Pass, PassList, Plane, Refusal, Rule, Settings};
use mlhe_reference::cases::{passes_of, Case, Kind};
use stored::{agree, hex, numbers};

#[test]
fn the_stored_cases_with_eight_neighbours() {
    for kind in [Kind::Pass, Kind::Enhance] {
        agree(|case| case.kind == kind && case.neighbours != 4 && !case.same_plane, line);
    }
}

/// Whether the plane has its sides' length, and marks and queue are long enough.
fn is_lent_well(case: &Case) -> bool {
    let n = u64::from(case.w) * u64::from(case.h);
    case.plane.len() as u64 == n && n > 0 && u64::from(case.marks.min(case.queue)) >= n
}

/// The line of a list that is made so and run on the case's plane.
fn listed(case: &Case, list: Result<PassList, Refusal>) -> String {
    let mut plane = Plane::new(case.w as usize, case.h as usize, case.plane.clone()).expect("a value for each pixel");
    let answer = list.map(|list| plane.run(&list, &mut Memory::new()));
    format!("{} {} 0", numbers(answer), hex(plane.values()))
}

/// The list of a case's passes in memory.
fn list_in_memory(case: &Case) -> Result<PassList, Refusal> {
    let short = |number: u32| u16::try_from(number).expect("a 16-bit number");
    let pass = |pass: &mlhe_reference::Pass| {
        let rule = match pass.rule {
            mlhe_reference::Rule::Plain { low, high } => Rule::Plain { low: short(low), high: short(high) },
            mlhe_reference::Rule::Limited { k } => Rule::Limited { k: short(k) },
            mlhe_reference::Rule::Affine { segments, smin, smax } => {
                let segments = u8::try_from(segments).expect("an 8-bit number");
                Rule::Affine { segments, smin: short(smin), smax: short(smax) }
            }
        };
        Pass::new(pass.a, pass.b, pass.area, rule).with_neighbours(pass.neighbours)
    };
    let passes: Vec<Pass> = passes_of(&case.bytes).iter().map(pass).collect();
    PassList::new(&passes)
}

#[test]
fn the_stored_passes_in_memory() {
    let not_four = |case: &Case| passes_of(&case.bytes).iter().any(|pass| pass.neighbours != 4);
    let chosen = |case: &Case| case.kind == Kind::Passes && is_lent_well(case) && not_four(case);
    agree(chosen, |case| listed(case, list_in_memory(case)));
}

#[test]
fn the_stored_lists_in_files() {
    let chosen = |case: &Case| case.kind == Kind::List && is_lent_well(case);
    agree(chosen, |case| listed(case, PassList::from_bytes(&case.bytes)));
}

/// 4 and 8 are accepted, and no other number.
#[test]
fn the_numbers() {
    let rule = Rule::Plain { low: 0, high: 25_500 };
    for neighbours in 0..=255 {
        let list = PassList::new(&[Pass::new(0, 255, 1, rule).with_neighbours(neighbours)]);
        assert_eq!(list.map(|_| ()), if matches!(neighbours, 4 | 8) { Ok(()) } else { Err(Refusal::Neighbours) });
    }
    assert_eq!(Refusal::Neighbours.number(), 19);
    assert_eq!((Pass::new(0, 255, 1, rule).neighbours, Settings::new(7, 20, rule).neighbours), (4, 4));
}
