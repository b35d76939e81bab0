//! The Rust crate's affine rule is the library's: the stored passes and enhancements with it have the same answers when
//! they are run with `Rule::Affine`, refusals too.

mod lines;
mod stored;

use lines::line;
use mlhe::{Pass, PassList, Refusal, Rule, GREATEST_SEGMENTS, GREATEST_SLOPE};
use mlhe_reference::cases::Kind;
use stored::agree;

#[test]
fn the_stored_cases_with_the_affine_rule() {
    for kind in [Kind::Pass, Kind::Enhance] {
        agree(|case| case.kind == kind && case.rule == 2 && !case.same_plane, line);
    }
}

/// The greatest numbers are accepted and those above them refused, in a list of the crate's own too.
#[test]
fn the_limits_of_its_numbers() {
    let list = |segments, smin, smax| {
        let rule = Rule::Affine { segments, smin, smax };
        let list = PassList::new(&[Pass::new(0, 255, 1, rule)])?;
        Ok(list.bytes()[9..].to_vec())
    };
    let [low, high] = GREATEST_SLOPE.to_le_bytes();
    let written = vec![2, GREATEST_SEGMENTS, 1, 0, 0, 0, low, high, low, high];
    assert_eq!(list(GREATEST_SEGMENTS, GREATEST_SLOPE, GREATEST_SLOPE), Ok(written));
    for (segments, smin, smax) in [(0, 0, 1), (GREATEST_SEGMENTS + 1, 0, 1), (1, 2, 1), (1, 0, GREATEST_SLOPE + 1)] {
        assert_eq!(list(segments, smin, smax), Err(Refusal::Slopes));
    }
}
