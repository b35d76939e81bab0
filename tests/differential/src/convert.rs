//! The converter of lists: the library's call beside that of the second implementation.

use crate::calls::{encoded, listed, require, same_answer, same_content, Compared, Outcome};
use crate::guarded::Guarded;
use crate::inputs::{self, one_in};
use mlhe::ffi;
use mlhe_reference as reference;
use mlhe_reference::random::Random;
use mlhe_reference::Version;

/// A list of either version, converted and, if it is accepted, converted back, which restores it. Both versions leave
/// the same plane and the same counts.
pub fn there_and_back(random: &mut Random) -> Compared {
    let long = one_in(random, 60);
    let (w, h) = if long { (random.between(1, 3), 1) } else { inputs::sides(random) };
    let neighbours = random.one_of(&[&[4][..], &[4], &[4], &[4, 8], &[8]]);
    let list = if long { inputs::long_list(random) } else { inputs::list_bytes(random, 6, w * h, neighbours) };
    let list = Guarded::holding(&list, random);
    let output_length = if one_in(random, 12) { 0 } else { inputs::length(random, needed(list.now())) };
    let mut output = Guarded::filled(output_length, random);
    let mut outcome = Outcome::default();
    let answer = convert_call(&list, &mut output)?;
    outcome.answers.push(answer);
    let Ok(length) = usize::try_from(answer) else { return Ok(outcome) };

    let other = Guarded::holding(&output.now()[..length], random);
    let beyond = random.between(0, 9);
    let mut back = Guarded::filled(list.len() + beyond, random);
    outcome.answers.push(convert_call(&other, &mut back)?);
    require(back.now()[..list.len()] == *list.now(), "a list is another there and back")?;

    let first = inputs::values(random, w, w * h);
    let ours = listed(&list, &first, w, h, random)?;
    let others = listed(&other, &first, w, h, random)?;
    require(ours == others, "both versions of a list do not run alike")?;
    outcome.add(ours.1);
    outcome.add(others.1);
    Ok(outcome)
}

/// The length of the conversion of a list of bytes; any for bytes that are none.
fn needed(list: &[u8]) -> usize {
    let count = reference::list_passes(list).map_or(3, |passes| passes.len());
    let version = if list.get(3) == Some(&2) { Version::One } else { Version::Two };
    version.length(count)
}

fn convert_call(list: &Guarded<u8>, output: &mut Guarded<u8>) -> Result<i64, String> {
    let mut expected = output.now().to_vec();
    let answer = encoded(reference::convert(list.now(), &mut expected).map(|length| length as u64));
    // SAFETY: each pointer goes with the length of its own memory.
    let library = unsafe { ffi::mlhe_convert_list(list.ptr(), list.len(), output.mut_ptr(), output.len()) };
    same_answer(library, answer)?;
    same_content("output", output, &expected)?;
    require(list.untouched(), "the list is not kept")?;
    Ok(answer)
}
