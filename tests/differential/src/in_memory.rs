//! Lists in memory, which the Rust crate makes files of, beside those of the second implementation.

use crate::calls::{require, same_shapes, sufficient, Compared, Counted, Outcome};
use crate::inputs::{self, one_in};
use mlhe::{Memory, PassList, Plane};
use mlhe_reference as reference;
use mlhe_reference::random::Random;
use mlhe_reference::{Counts, Pass, Rule, Version, EIGHT, FOUR};

/// Passes with four neighbours, with eight or mixed, most of them sound, on a plane.
pub fn passes(random: &mut Random) -> Compared {
    let many = one_in(random, 60);
    let (w, h) = if many { (random.between(1, 3), random.between(1, 2)) } else { inputs::sides(random) };
    let first = inputs::values(random, w, w * h);
    let neighbours = inputs::neighbours(random);
    let passes = if many { inputs::many_passes(random) } else { inputs::memory_passes(random, 6, w * h, neighbours) };
    let (last, answer) = run(&passes, &first, w, h)?;
    let mut expected = first.clone();
    let by_reference = reference::run_passes(&passes, &mut expected, w * h, w * h, w, h);
    require(answer == by_reference, &format!("the answer is {answer:?} and should be {by_reference:?}"))?;
    require(last == expected, "the plane differs")?;
    let mut outcome = Outcome::counted(answer);
    if answer.is_ok() {
        let all_eight = passes.iter().all(|pass| pass.neighbours == EIGHT);
        outcome.by_eight = same_shapes(&first, &last, w, h, all_eight)?;
    }
    Ok(outcome)
}

/// The plane that the Rust crate's list of these passes leaves of a first plane, and its answer. Both counts together
/// are the components of sufficient area.
fn run(passes: &[Pass], first: &[u8], w: usize, h: usize) -> Result<(Vec<u8>, Counted), String> {
    let mut plane = Plane::new(w, h, first.to_vec()).map_err(|refusal| refusal.to_string())?;
    let list: Vec<mlhe::Pass> = passes.iter().map(pass_of).collect();
    let list = match PassList::new(&list) {
        Ok(list) => list,
        Err(refusal) => return Ok((first.to_vec(), Err(refusal.number()))),
    };
    same_file(&list, passes)?;
    let counts = plane.run(&list, &mut Memory::new());
    let counts = Counts { retoned: counts.retoned.into(), kept: counts.kept.into() };
    sufficient(counts, passes, first, w, h)?;
    Ok((plane.values().to_vec(), Ok(counts)))
}

/// A list has the file of its passes, of version 1 if all of them have four neighbours and else of version 2, which
/// reads back. It is converted, and back again, if they have four, and else refused with 20.
fn same_file(list: &PassList, passes: &[Pass]) -> Result<(), String> {
    let all_four = passes.iter().all(|pass| pass.neighbours == FOUR);
    let version = if all_four { Version::One } else { Version::Two };
    require(list.bytes() == reference::list_bytes_of(version, passes), "the list has another file")?;
    let back = PassList::from_bytes(list.bytes()).map_err(|refusal| refusal.to_string())?;
    require(back == *list, "the list does not read back")?;
    match list.converted() {
        Ok(other) => {
            let expected = all_four.then(|| reference::list_bytes_of(Version::Two, passes));
            require(Some(other.bytes()) == expected.as_deref(), "the converted list has another file")?;
            require(other.converted().as_ref() == Ok(list), "the list is not converted back")
        }
        Err(refusal) => require(!all_four && refusal.number() == 20, "the list is not converted"),
    }
}

/// The pass as the Rust crate has it.
pub fn pass_of(pass: &Pass) -> mlhe::Pass {
    let short = |number: u32| u16::try_from(number).expect("a 16-bit number");
    let rule = match pass.rule {
        Rule::Plain { low, high } => mlhe::Rule::Plain { low: short(low), high: short(high) },
        Rule::Limited { k } => mlhe::Rule::Limited { k: short(k) },
        Rule::Affine { segments, smin, smax } => {
            let segments = u8::try_from(segments).expect("an 8-bit number");
            mlhe::Rule::Affine { segments, smin: short(smin), smax: short(smax) }
        }
    };
    mlhe::Pass::new(pass.a, pass.b, pass.area, rule).with_neighbours(pass.neighbours)
}
