//! Passes on pairwise disjoint intervals through the library: in two orders, and on copies of the plane that are put
//! together; and one pass on two planes that agree on a component and around it.

use crate::calls::{require, same_shapes, Compared, Outcome};
use crate::in_memory::pass_of;
use crate::inputs;
use mlhe::{Memory, Plane};
use mlhe_reference as reference;
use mlhe_reference::random::Random;
use mlhe_reference::{Components, Counts, Pass, EIGHT};

/// A plane, and passes of any rules, areas and numbers of neighbours that no two values share.
pub fn orders(random: &mut Random) -> Compared {
    let (w, h) = inputs::sides(random);
    let first = inputs::values(random, w, w * h);
    let passes = inputs::disjoint_passes(random, w * h);
    let plane = Plane::new(w, h, first.clone()).map_err(|refusal| refusal.to_string())?;

    let order = shuffled(random, passes.len());
    let (last, counts) = in_order(&plane, &passes, &order)?;
    let other = shuffled(random, passes.len());
    require(in_order(&plane, &passes, &other)? == (last.clone(), counts.clone()), "another order ends otherwise")?;
    require(on_copies(random, &plane, &passes)? == (last.clone(), counts.clone()), "the copies put together differ")?;
    for (pass, counts) in passes.iter().zip(&counts) {
        require(by_reference(&first, w, h, pass).1 == *counts, "a pass does not count as on the first plane")?;
    }
    if let Some(pass) = passes.first() {
        alike(random, &plane, pass)?;
    }

    let mut outcome = Outcome::default();
    for counts in counts {
        outcome.add(Ok(counts));
    }
    let all_eight = passes.iter().all(|pass| pass.neighbours == EIGHT);
    outcome.by_eight = same_shapes(&first, last.values(), w, h, all_eight)?;
    Ok(outcome)
}

/// The numbers below the bound in any order.
fn shuffled(random: &mut Random, bound: usize) -> Vec<usize> {
    let mut order: Vec<usize> = (0..bound).collect();
    for at in (1..bound).rev() {
        order.swap(at, random.below(at + 1));
    }
    order
}

fn by_reference(first: &[u8], w: usize, h: usize, pass: &Pass) -> (Vec<u8>, Counts) {
    let mut plane = first.to_vec();
    let counts = reference::pass(&mut plane, w * h, w * h, w, h, pass).expect("accepted");
    (plane, counts)
}

/// A call of the library, which leaves and counts what the second implementation does.
fn call(plane: &mut Plane, pass: &Pass) -> Result<Counts, String> {
    let (expected, counts) = by_reference(plane.values(), plane.width(), plane.height(), pass);
    let answer = plane.pass(&pass_of(pass), &mut Memory::new()).map_err(|refusal| refusal.to_string())?;
    let answer = Counts { retoned: answer.retoned.into(), kept: answer.kept.into() };
    require(answer == counts && plane.values() == expected, "a pass differs")?;
    Ok(answer)
}

/// The last plane of the calls in an order, and what each pass counted.
fn in_order(first: &Plane, passes: &[Pass], order: &[usize]) -> Result<(Plane, Vec<Counts>), String> {
    let mut plane = first.clone();
    let mut counts = vec![Counts::default(); passes.len()];
    for &at in order {
        counts[at] = call(&mut plane, &passes[at])?;
    }
    Ok((plane, counts))
}

/// The same by workers with copies of their own, one to as many as there are passes: a pixel has the value that it has
/// in the copy of the worker whose pass has its old value, and its old value where no pass has it.
fn on_copies(random: &mut Random, first: &Plane, passes: &[Pass]) -> Result<(Plane, Vec<Counts>), String> {
    let workers = random.between(1, passes.len().max(1));
    let mut copies = vec![first.clone(); workers];
    let mut counts = vec![Counts::default(); passes.len()];
    let mut worker_of = [None; 256];
    for at in shuffled(random, passes.len()) {
        let worker = random.below(workers);
        counts[at] = call(&mut copies[worker], &passes[at])?;
        worker_of[usize::from(passes[at].a)..=usize::from(passes[at].b)].fill(Some(worker));
    }
    let pixel =
        |(at, &old): (usize, &u8)| worker_of[usize::from(old)].map_or(old, |worker| copies[worker].values()[at]);
    let values = first.values().iter().enumerate().map(pixel).collect();
    let together = Plane::new(first.width(), first.height(), values).map_err(|refusal| refusal.to_string())?;
    Ok((together, counts))
}

/// Takes a component of the pass's interval, and another plane that agrees on it and whose pixels next to it, by the
/// neighbours of the pass, are outside the interval. One pass leaves the component alike in both.
fn alike(random: &mut Random, first: &Plane, pass: &Pass) -> Result<(), String> {
    let (w, h) = (first.width(), first.height());
    let mut components = Components::new(w, h, pass.neighbours);
    let all = components.of_section(first.values(), pass.a, pass.b);
    if all.is_empty() || (pass.a == 0 && pass.b == 255) {
        return Ok(());
    }
    let component = &all[random.below(all.len())];
    let outside: Vec<u8> = (0..=255).filter(|value| !(pass.a..=pass.b).contains(value)).collect();
    let mut values: Vec<u8> = (0..w * h).map(|_| random.byte()).collect();
    for &p in component {
        for q in components.neighbours(p) {
            values[q] = random.one_of(&outside);
        }
    }
    for &p in component {
        values[p] = first.values()[p];
    }
    let mut one = first.clone();
    let mut other = Plane::new(w, h, values).map_err(|refusal| refusal.to_string())?;
    call(&mut one, pass)?;
    call(&mut other, pass)?;
    let same = component.iter().all(|&p| one.values()[p] == other.values()[p]);
    require(same, "a component is not left alike in two planes that agree on it and around it")
}
