//! Passes on disjoint intervals: every order and copies that are put together end alike, and one pass leaves a
//! component alike wherever else planes differ. Tried on all small planes of few values and on random ones, for the
//! passes of this implementation, which knows nothing of it. Where intervals overlap, and where the ring around a
//! component is not by the pass's own neighbours, examples end otherwise.

use mlhe_reference::random::Random;
use mlhe_reference::{enhance, level_by_level, pass, Components, Counts, Pass, Rule, Settings, EIGHT, FOUR};

const FREE: Rule = Rule::Plain { low: 0, high: 25_500 };

fn on(a: u8, b: u8, area: u32, rule: Rule, neighbours: u8) -> Pass {
    Pass { a, b, area, rule, neighbours }
}

/// A pass on a copy of the plane: the copy after it, and both counts.
fn passed(plane: &[u8], w: usize, one: &Pass) -> (Vec<u8>, Counts) {
    let (n, h) = (plane.len(), plane.len() / w);
    let mut copy = plane.to_vec();
    let counts = pass(&mut copy, n, n, w, h, one).expect("accepted");
    (copy, counts)
}

/// The last plane of passes in an order, and what each pass counted.
fn in_order(first: &[u8], w: usize, passes: &[Pass], order: &[usize]) -> (Vec<u8>, Vec<Counts>) {
    let mut plane = first.to_vec();
    let mut counts = vec![Counts::default(); passes.len()];
    for &at in order {
        (plane, counts[at]) = passed(&plane, w, &passes[at]);
    }
    (plane, counts)
}

/// All orders of so many things.
fn orders(many: usize) -> Vec<Vec<usize>> {
    if many == 0 {
        return vec![vec![]];
    }
    let put = |order: Vec<usize>, at: usize| [&order[..at], &[many - 1], &order[at..]].concat();
    orders(many - 1).into_iter().flat_map(|order| (0..many).map(move |at| put(order.clone(), at))).collect()
}

/// Every pass on a copy of its own, and the copies put together: a pixel has the value of the copy of the pass that has
/// its old value, and its old value where none has it.
fn on_copies(first: &[u8], w: usize, passes: &[Pass]) -> (Vec<u8>, Vec<Counts>) {
    let (copies, counts): (Vec<Vec<u8>>, Vec<Counts>) = passes.iter().map(|one| passed(first, w, one)).unzip();
    let of = |value: u8| passes.iter().position(|one| (one.a..=one.b).contains(&value));
    let together =
        first.iter().enumerate().map(|(at, &value)| of(value).map_or(value, |one| copies[one][at])).collect();
    (together, counts)
}

fn all_orders_agree(first: &[u8], w: usize, passes: &[Pass]) {
    let together = on_copies(first, w, passes);
    for order in orders(passes.len()) {
        assert_eq!(in_order(first, w, passes, &order), together, "{first:?}, {w} columns, {passes:?}, {order:?}");
    }
}

/// The plane of this number among all of so many pixels and these values.
fn nth(mut number: usize, pixels: usize, values: &[u8]) -> Vec<u8> {
    let mut plane = Vec::new();
    for _ in 0..pixels {
        plane.push(values[number % values.len()]);
        number /= values.len();
    }
    plane
}

#[test]
fn all_small_planes_in_all_orders() {
    let rules = [FREE, Rule::Limited { k: 0 }, Rule::Affine { segments: 2, smin: 0, smax: 10_000 }];
    let values = [0, 1, 3, 4, 5, 9];
    for (w, pixels) in [(3, 3), (2, 4), (1, 4), (4, 4)] {
        for number in 0..values.len().pow(pixels as u32) {
            let first = nth(number, pixels, &values);
            let passes =
                [on(0, 2, 1, rules[number % 3], FOUR), on(3, 4, 2, rules[1], EIGHT), on(5, 8, 1, rules[2], FOUR)];
            all_orders_agree(&first, w, &passes);
        }
    }
}

#[test]
fn random_planes_in_all_orders() {
    let mut random = Random::new(7);
    for _ in 0..300 {
        let (w, h) = (random.between(1, 7), random.between(1, 7));
        let base = random.below(200) as u8;
        let first: Vec<u8> = (0..w * h).map(|_| base + random.below(24) as u8).collect();
        let mut ends: Vec<u8> = (0..8).map(|_| base + random.below(24) as u8).collect();
        ends.sort_unstable();
        ends.dedup();
        let pass_on = |ends: &[u8], random: &mut Random| {
            let rule = random.one_of(&[FREE, Rule::Limited { k: 300 }, Rule::Plain { low: 80, high: 300 }]);
            on(ends[0], ends[1], random.between(1, 3) as u32, rule, random.one_of(&[FOUR, EIGHT]))
        };
        let passes: Vec<Pass> = ends.chunks_exact(2).map(|ends| pass_on(ends, &mut random)).collect();
        all_orders_agree(&first, w, &passes);
    }
}

/// The sections of a level are disjoint; handed out level by level they are the enhancement.
#[test]
fn level_by_level_on_copies() {
    let mut random = Random::new(8);
    for case in 0..40 {
        let (w, h) = (random.between(1, 9), random.between(1, 9));
        let n = w * h;
        let grey: Vec<u8> = (0..n).map(|_| if case % 2 == 0 { random.byte() } else { random.below(9) as u8 }).collect();
        let frame: Vec<u8> = grey.iter().flat_map(|&value| [value; 3]).collect();
        let neighbours = random.one_of(&[FOUR, EIGHT]);
        for last_level in 0..=7 {
            let settings = Settings { last_level, area: random.between(1, 4) as u32, rule: FREE, neighbours };
            let (mut plane, mut output) = (vec![0; n], vec![0; 3 * n]);
            let counts = enhance(&frame, w, h, &settings, &mut plane, n, n, &mut output).expect("accepted");
            let (mut handed, mut sums, passes) = (grey.clone(), Vec::new(), level_by_level(&settings));
            for level in 0..=last_level {
                let sections = &passes[(1 << level) - 1..(1 << (level + 1)) - 1];
                let (together, of_level) = on_copies(&handed, w, sections);
                handed = together;
                sums.extend(of_level);
            }
            assert_eq!((handed, sums.into_iter().sum::<Counts>()), (plane, counts), "{grey:?}, {settings:?}");
        }
    }
}

#[test]
fn the_dark_and_the_bright_half() {
    let (first, passes) = ([10, 20, 200, 220], [on(0, 127, 1, FREE, FOUR), on(128, 255, 1, FREE, EIGHT)]);
    all_orders_agree(&first, 4, &passes);
    let (together, counts) = on_copies(&first, 4, &passes);
    assert_eq!((together, counts), (vec![64, 127, 192, 255], vec![Counts { retoned: 1, kept: 0 }; 2]));
}

/// Two passes that overlap: 10 and 100 are one component of the first, and 100 alone one of the second.
#[test]
fn overlapping_intervals_do_not_change_places() {
    let passes = [on(0, 127, 1, FREE, FOUR), on(64, 255, 1, FREE, FOUR)];
    assert_eq!(in_order(&[10, 100], 2, &passes, &[0, 1]).0, [160, 255]);
    assert_eq!(in_order(&[10, 100], 2, &passes, &[1, 0]).0, [64, 127]);
}

/// Makes of a plane another that agrees on a component and whose pixels next to it are outside [a, b]; elsewhere it is
/// random.
fn elsewhere(random: &mut Random, plane: &[u8], w: usize, one: &Pass, component: &[usize]) -> Vec<u8> {
    let components = Components::new(w, plane.len() / w, one.neighbours);
    let outside: Vec<u8> = (0..=255).filter(|value| !(one.a..=one.b).contains(value)).collect();
    let mut other: Vec<u8> = plane.iter().map(|_| random.byte() % 16).collect();
    for &p in component {
        for q in components.neighbours(p) {
            other[q] = random.one_of(&outside);
        }
    }
    for &p in component {
        other[p] = plane[p];
    }
    other
}

#[test]
fn a_component_is_left_alike_wherever_else_planes_differ() {
    let mut random = Random::new(9);
    for _ in 0..2_000 {
        let (w, h) = (random.between(1, 6), random.between(1, 6));
        let plane: Vec<u8> = (0..w * h).map(|_| random.byte() % 16).collect();
        let (a, neighbours) = (random.below(12) as u8, random.one_of(&[FOUR, EIGHT]));
        let rule = random.one_of(&[FREE, Rule::Limited { k: 100 }, Rule::Affine { segments: 3, smin: 0, smax: 9_000 }]);
        let one = on(a, a + random.below(6) as u8, random.between(1, 3) as u32, rule, neighbours);
        let all = Components::new(w, h, neighbours).of_section(&plane, one.a, one.b);
        if let Some(component) = all.get(random.below(all.len().max(1))) {
            let other = elsewhere(&mut random, &plane, w, &one, component);
            let (here, there) = (passed(&plane, w, &one).0, passed(&other, w, &one).0);
            assert!(component.iter().all(|&p| here[p] == there[p]), "{plane:?}, {other:?}, {w} columns, {one:?}");
        }
    }
}

/// The ring has to be by the neighbours that the pass carries: both planes agree on the first pixel, and its four
/// neighbours are outside [0, 3] in both, but by eight neighbours 1 belongs to it in the second.
#[test]
fn the_ring_is_by_the_neighbours_of_the_pass() {
    let (one, other) = ([0, 254, 254, 254], [0, 254, 254, 1]);
    let by = |plane: &[u8], neighbours| passed(plane, 2, &on(0, 3, 1, FREE, neighbours)).0;
    assert_eq!((by(&one, EIGHT), by(&other, EIGHT)), (vec![0, 254, 254, 254], vec![2, 254, 254, 3]));
    assert_eq!((by(&one, FOUR)[0], by(&other, FOUR)[0]), (0, 0));
}
