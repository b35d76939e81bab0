//! Four neighbours and eight: what belongs together at corners and at a plane's edges, passes of both in one list, what
//! each keeps of the order, and the number of neighbours in C calls.

use mlhe::{ffi, Counts, Memory, Pass, PassList, Plane, Refusal, Rule, Settings};

const PLAIN: Rule = Rule::Plain { low: 0, high: 25_500 };
const DARK: Pass = Pass::new(0, 127, 1, PLAIN);

/// Two dark pixels that touch at a corner.
const CORNER: [u8; 4] = [10, 200, 200, 20];

fn counts(retoned: u32, kept: u32) -> Counts {
    Counts { retoned, kept }
}

/// What passes leave of a plane of this width, and the sums of their counts: as a list, and one by one.
fn passed(w: usize, values: &[u8], passes: &[Pass]) -> (Vec<u8>, Counts) {
    let first = Plane::new(w, values.len() / w, values.to_vec()).unwrap();
    let (mut plane, mut memory) = (first.clone(), Memory::new());
    let sums = plane.run(&PassList::new(passes).unwrap(), &mut memory);
    let (mut one_by_one, mut added) = (first, Counts::default());
    for pass in passes {
        let Counts { retoned, kept } = one_by_one.pass(pass, &mut memory).unwrap();
        added = counts(added.retoned + retoned, added.kept + kept);
    }
    assert_eq!((&plane, sums), (&one_by_one, added));
    (plane.into_values(), sums)
}

#[test]
fn pixels_that_touch_at_a_corner() {
    let eight = DARK.with_neighbours(8);
    assert_eq!(passed(2, &CORNER, &[DARK]), (CORNER.to_vec(), counts(0, 2)));
    assert_eq!(passed(2, &CORNER, &[eight]), (vec![64, 200, 200, 127], counts(1, 0)));
    assert_eq!(passed(2, &[200, 20, 10, 200], &[eight]), (vec![200, 127, 64, 200], counts(1, 0)));
    // What no pixel of the section touches is one component by itself.
    assert_eq!(passed(3, &[10, 200, 20, 200, 200, 200], &[eight]).1, counts(0, 2));
    // A row's last pixel is no neighbour of the next row's first, nor of the one after.
    assert_eq!(passed(3, &[200, 200, 10, 20, 200, 200], &[eight]).1, counts(0, 2));
    assert_eq!(passed(3, &[200, 200, 10, 200, 200, 200, 20, 200, 200], &[eight]).1, counts(0, 2));
    // Planes of one row or one column have no corners.
    for w in [1, 4] {
        assert_eq!(passed(w, &[10, 20, 200, 30], &[eight]), passed(w, &[10, 20, 200, 30], &[DARK]));
    }
}

/// A diagonal wire of one pixel in width is one component by eight neighbours, from edge to edge.
#[test]
fn thin_wires() {
    let (w, h) = (9, 9);
    for place in [|x: usize| x, |x: usize| 8 - x] {
        let mut values = vec![200; w * h];
        (0..w).for_each(|x| values[place(x) * w + x] = 10 * (x as u8 + 1));
        let wire = Pass::new(0, 127, 9, PLAIN);
        assert_eq!(passed(w, &values, &[wire]), (values.clone(), counts(0, 0)));
        let (left, sums) = passed(w, &values, &[wire.with_neighbours(8)]);
        assert_eq!(sums, counts(1, 0));
        let along: Vec<u8> = (0..w).map(|x| left[place(x) * w + x]).collect();
        assert_eq!(along, [14, 28, 42, 56, 71, 85, 99, 113, 127]);
    }
}

/// By eight neighbours equal ones stay equal where all passes have eight, and part where one has four.
#[test]
fn what_mixed_passes_keep() {
    let pass = Pass::new(1, 3, 2, Rule::Limited { k: 0 });
    let values = [0, 1, 1, 1, 0, 0];
    assert_eq!(passed(3, &values, &[pass]), (vec![0, 2, 2, 1, 0, 0], counts(1, 0)));
    assert_eq!(passed(3, &values, &[pass.with_neighbours(8)]), (vec![0, 2, 2, 2, 0, 0], counts(1, 0)));
}

#[test]
fn lists_of_both() {
    let eight = DARK.with_neighbours(8);
    assert_eq!(passed(2, &CORNER, &[DARK, eight, DARK]), (vec![64, 200, 200, 127], counts(1, 4)));
    for passes in [&[DARK, eight][..], &[eight], &[DARK, DARK]] {
        let list = PassList::new(passes).unwrap();
        assert_eq!(list.passes(), passes);
        assert_eq!(PassList::from_bytes(list.bytes()).unwrap().passes(), passes);
    }
    // Passes are checked in their order, each with the neighbours last.
    let wrong = |passes: &[Pass]| PassList::new(passes).unwrap_err();
    let affine = Pass::new(0, 255, 1, Rule::Affine { segments: 0, smin: 0, smax: 0 });
    assert_eq!(wrong(&[eight, DARK.with_neighbours(0), Pass::new(9, 8, 1, PLAIN)]), Refusal::Neighbours);
    assert_eq!(wrong(&[eight, Pass::new(9, 8, 1, PLAIN), DARK.with_neighbours(0)]), Refusal::Interval);
    assert_eq!(wrong(&[affine.with_neighbours(9)]), Refusal::Slopes);
    assert_eq!(wrong(&[Pass::new(0, 255, 0, PLAIN).with_neighbours(9)]), Refusal::Area);
}

/// An enhancement has the same neighbours on all its levels, and equals the list of passes that has them.
#[test]
fn enhancements() {
    let values = [[10, 90, 90, 90], [90, 20, 90, 90], [90, 90, 30, 90], [90, 90, 90, 40]].concat();
    let frame = Plane::new(4, 4, values).unwrap().to_frame();
    for neighbours in [4, 8] {
        let settings = Settings::new(2, 2, PLAIN).with_neighbours(neighbours);
        let enhanced = frame.enhanced(&settings, &mut Memory::new()).unwrap();
        let sections =
            [(0, 255, 1), (0, 127, 2), (128, 255, 2), (0, 63, 2), (64, 127, 2), (128, 191, 2), (192, 255, 2)];
        let passes = sections.map(|(a, b, area)| Pass::new(a, b, area, PLAIN).with_neighbours(neighbours));
        let mut plane = frame.intensity();
        let sums = plane.run(&PassList::new(&passes).unwrap(), &mut Memory::new());
        assert_eq!((enhanced.plane, enhanced.counts), (plane, sums));
    }
    let house = Settings::house();
    let enhanced = |settings: Settings| frame.enhanced(&settings, &mut Memory::new());
    assert_eq!(enhanced(house.with_neighbours(4)), enhanced(house));
    assert_ne!(enhanced(house.with_area(2).with_neighbours(8)), enhanced(house.with_area(2)));
    for neighbours in [0, 1, 3, 5, 6, 7, 9, 12, 255] {
        assert_eq!(enhanced(house.with_neighbours(neighbours)), Err(Refusal::Neighbours));
        assert_eq!(enhanced(house.with_last(8).with_neighbours(neighbours)), Err(Refusal::Level));
    }
}

/// What `mlhe_pass` answers and leaves of two dark pixels at a corner, with so many counts. A refusal has changed
/// nothing.
fn c_pass(rule: &[u16], lent: usize) -> (i64, [u8; 4]) {
    let (mut plane, mut marks, mut queue, mut counts) = (CORNER, [3; 4], [4; 4], [7; 2]);
    let (p, m, q, c) = (plane.as_mut_ptr(), marks.as_mut_ptr(), queue.as_mut_ptr(), counts.as_mut_ptr());
    let (r, length) = (rule.as_ptr(), rule.len());
    // SAFETY: each pointer goes with at most as many elements as there are.
    let answer = unsafe { ffi::mlhe_pass(p, 4, m, 4, q, 4, 2, 2, 0, 127, 1, r, length, c, lent) };
    assert!(answer == 0 || (plane, marks, queue, counts) == (CORNER, [3; 4], [4; 4], [7; 2]), "{rule:?}");
    (answer, plane)
}

/// What `mlhe_enhance` answers, on the same in grey.
fn c_enhance(rule: &[u16], lent: usize) -> i64 {
    let frame = CORNER.map(|value| [value; 3]).concat();
    let (mut plane, mut marks, mut queue, mut output, mut counts) = ([5; 4], [3; 4], [4; 4], [9; 12], [7; 2]);
    let (p, m, q, c) = (plane.as_mut_ptr(), marks.as_mut_ptr(), queue.as_mut_ptr(), counts.as_mut_ptr());
    let (f, o, r, length) = (frame.as_ptr(), output.as_mut_ptr(), rule.as_ptr(), rule.len());
    // SAFETY: each pointer goes with at most as many elements as there are.
    let answer = unsafe { ffi::mlhe_enhance(f, 12, 2, 2, 7, 1, r, length, p, 4, m, 4, q, 4, o, 12, c, lent) };
    let as_before = (plane, marks, queue, output, counts) == ([5; 4], [3; 4], [4; 4], [9; 12], [7; 2]);
    assert!(answer == 0 || as_before, "{rule:?}");
    answer
}

/// Both calls answer this.
fn both_answer(rule: &[u16], lent: usize, answer: i64) {
    assert_eq!((c_pass(rule, lent).0, c_enhance(rule, lent)), (answer, answer), "{rule:?}");
}

/// Four numbers mean four neighbours, and five say how many. 19 comes after 18, and before 14 for too few counts; a
/// number above 255 is not cut to a smaller one.
#[test]
fn numbers_of_c_calls() {
    assert_eq!(c_pass(&[0, 0, 25_500, 0], 2), (0, CORNER));
    assert_eq!(c_pass(&[0, 0, 25_500, 0, 4], 2), (0, CORNER));
    assert_eq!(c_pass(&[0, 0, 25_500, 0, 8], 2), (0, [64, 200, 200, 127]));
    both_answer(&[0, 0, 25_500, 0, 8], 2, 0);
    both_answer(&[0, 0, 25_500, 0, 8], 1, -14);
    for neighbours in [0, 1, 3, 5, 7, 9, 255, 256, 260, 264, 65_535] {
        for lent in 0..=2 {
            both_answer(&[0, 0, 25_500, 0, neighbours], lent, -19);
            both_answer(&[2, 0, 0, 0, neighbours], lent, -18);
            both_answer(&[1, 1_001, 0, 0, neighbours], lent, -8);
            both_answer(&[0, 1, 0, 0, neighbours], lent, -7);
        }
    }
    for wrong in [&[0, 0, 25_500][..], &[0, 0, 25_500, 0, 8, 0], &[3, 0, 0, 0, 9], &[0, 0, 25_500, 1, 9]] {
        both_answer(wrong, 2, -17);
    }
}
