//! The Rust crate's lists and conversions are the library's: the stored ones have the same answers when they are run by
//! the crate's calls, refusals too.

mod stored;

use mlhe::{lent, PassList, Refusal};
use mlhe_reference::cases::{Case, Kind, OUTPUT_FILL};
use stored::{agree, hex, numbers};

/// The line that answers a list.
fn listed(case: &Case) -> String {
    let (mut marks, mut queue) = (vec![0; case.marks.into()], vec![0; case.queue.into()]);
    let mut plane = case.plane.clone();
    let answer = lent::run_list(&case.bytes, &mut plane, &mut marks, &mut queue, case.w as usize, case.h as usize);
    format!("{} {} 0", numbers(answer), hex(&plane))
}

/// The line that answers a conversion into an output.
fn converted(case: &Case) -> String {
    let mut output = vec![OUTPUT_FILL; case.output.into()];
    match lent::convert_list(&case.bytes, &mut output) {
        Ok(length) => format!("+{length} {}", hex(&output)),
        Err(refusal) => format!("-{} {}", refusal.number(), hex(&output)),
    }
}

/// The same by the crate's own lists, which need no output.
fn converted_list(case: &Case) -> String {
    let mut output = vec![OUTPUT_FILL; case.output.into()];
    match PassList::from_bytes(&case.bytes).and_then(|list| list.converted()) {
        Ok(list) => {
            output[..list.bytes().len()].copy_from_slice(list.bytes());
            format!("+{} {}", list.bytes().len(), hex(&output))
        }
        Err(refusal) => format!("-{} {}", refusal.number(), hex(&output)),
    }
}

#[test]
fn the_stored_lists() {
    agree(|case| case.kind == Kind::List, listed);
}

#[test]
fn the_stored_conversions() {
    agree(|case| case.kind == Kind::Convert, converted);
    assert_eq!(Refusal::EightNeighbours.number(), 20);
}

/// The stored conversions whose output is long enough.
#[test]
fn the_stored_conversions_of_lists() {
    agree(|case| case.kind == Kind::Convert && !converted(case).starts_with("-14 "), converted_list);
}
