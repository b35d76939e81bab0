//! What is turned down, through the safe types and through the C functions.

use mlhe::{ffi, lent, Counts, Frame, Memory, Pass, PassList, Plane, Refusal, Rule, Settings};
use mlhe::{
    GREATEST_CLIP, GREATEST_HEADER, GREATEST_HIGH, GREATEST_LEVEL, GREATEST_LIST, GREATEST_PASSES, GREATEST_PIXELS,
    GREATEST_SEGMENTS, GREATEST_SIDE, GREATEST_SLOPE,
};
use std::ptr::{null, null_mut};

const PLAIN: Rule = Rule::Plain { low: 0, high: 25_500 };
const WHOLE: Pass = Pass::new(0, 255, 1, PLAIN);

/// The numbers of that rule, as a C function is lent them.
const NUMBERS: [u16; 4] = [0, 0, 25_500, 0];

#[test]
fn frames_and_planes_have_the_length_of_their_sides() {
    assert_eq!(Frame::new(0, 1, vec![]), Err(Refusal::Sides));
    assert_eq!(Frame::new(1, 4_097, vec![0; 3 * 4_097]), Err(Refusal::Sides));
    assert_eq!(Frame::new(4_096, 257, vec![0; 3 * 4_096 * 257]), Err(Refusal::Pixels));
    assert_eq!(Frame::new(2, 1, vec![0; 5]), Err(Refusal::Lengths));
    assert_eq!(Plane::new(usize::MAX, usize::MAX, vec![]), Err(Refusal::Sides));
    assert_eq!(Plane::new(4_096, 257, vec![0; 4_096 * 257]), Err(Refusal::Pixels));
    assert_eq!(Plane::new(2, 1, vec![0; 3]), Err(Refusal::Lengths));
    assert_eq!(Plane::new(2, 1, vec![5, 6]).unwrap().values(), [5, 6]);
}

/// A comment is skipped before a number; elsewhere in a header a number sign is refused.
#[test]
fn number_signs_in_headers() {
    let read = |bytes: &[u8]| lent::read(bytes).map(|header| (header.w, header.h, header.offset));
    assert_eq!(read(b"P6# 3\n2#\r\n#\r1 # 255\n255 #bcdef"), Ok((2, 1, 24)));
    let file = b"P6\n# made by hand\n2 1\n255\nabcdef";
    assert_eq!(Frame::from_p6(file).map(|frame| frame.to_p6()), Ok(b"P6\n2 1\n255\nabcdef".to_vec()));
    for file in [&b"P6 # 2 1 255 abcdef"[..], b"P6 2 1 255#\nabcdef", b"#\nP6 2 1 255 abcdef", b"P#\n6 2 1 255 abcdef"]
    {
        assert_eq!(Frame::from_p6(file), Err(Refusal::Header));
    }
}

#[test]
fn a_plane_of_other_sides_does_not_recolour_a_frame() {
    let frame = Frame::new(2, 3, vec![9; 18]).unwrap();
    let turned = Plane::new(3, 2, vec![9; 6]).unwrap();
    assert_eq!(frame.recoloured(&turned), Err(Refusal::Lengths));
}

#[test]
fn numbers_are_refused_and_nothing_changes() {
    let mut plane = Plane::new(4, 1, vec![10, 10, 20, 30]).unwrap();
    let mut memory = Memory::new();
    let refused = [
        (Pass::new(9, 8, 1, PLAIN), Refusal::Interval),
        (Pass::new(0, 255, 1_048_577, PLAIN), Refusal::Area),
        (Pass::new(0, 255, 1, Rule::Plain { low: 81, high: 80 }), Refusal::Limits),
        (Pass::new(0, 255, 1, Rule::Limited { k: 1_001 }), Refusal::Clip),
        (Pass::new(0, 255, 1, Rule::Affine { segments: 0, smin: 0, smax: 0 }), Refusal::Slopes),
        (Pass::new(0, 255, 1, Rule::Affine { segments: 1, smin: 5, smax: 4 }), Refusal::Slopes),
        (WHOLE.with_neighbours(6), Refusal::Neighbours),
    ];
    for (pass, refusal) in refused {
        assert_eq!(plane.pass(&pass, &mut memory), Err(refusal));
        assert_eq!(PassList::new(&[WHOLE, pass]), Err(refusal));
        assert_eq!(plane.values(), [10, 10, 20, 30]);
    }
    let frame = Frame::new(1, 1, vec![1, 2, 3]).unwrap();
    let settings = Settings::house().with_last(8);
    assert_eq!(frame.enhanced(&settings, &mut memory), Err(Refusal::Level));
}

/// The constants are the library's own: each is accepted, and the next number is refused.
#[test]
fn the_sizes_are_those_of_the_library() {
    let row = |w: usize| Frame::new(w, 1, vec![0; 3 * w]).map(|frame| frame.width());
    assert_eq!(row(GREATEST_SIDE), Ok(GREATEST_SIDE));
    assert_eq!(row(GREATEST_SIDE + 1), Err(Refusal::Sides));
    let plane = |w: usize, h: usize| Plane::new(w, h, vec![0; w * h]).map(|plane| plane.values().len());
    assert_eq!(plane(GREATEST_SIDE, GREATEST_PIXELS / GREATEST_SIDE), Ok(GREATEST_PIXELS));
    assert_eq!(plane(1_025, 1_024), Err(Refusal::Pixels));
    let longest = Frame::new(GREATEST_SIDE / 4, GREATEST_SIDE / 4, vec![0; 3 * GREATEST_PIXELS]).unwrap();
    assert_eq!(longest.to_p6().len(), GREATEST_HEADER + 3 * GREATEST_PIXELS);

    let list = |pass: Pass, count: usize| PassList::new(&vec![pass; count]).map(|list| list.bytes().len());
    assert_eq!(list(WHOLE, GREATEST_PASSES), Ok(7 + 12 * GREATEST_PASSES));
    assert_eq!(list(WHOLE.with_neighbours(8), GREATEST_PASSES), Ok(GREATEST_LIST));
    assert_eq!(list(WHOLE, GREATEST_PASSES + 1), Err(Refusal::ListLength));
    let frame = Frame::new(1, 1, vec![1, 2, 3]).unwrap();
    let enhanced = |settings: Settings| frame.enhanced(&settings, &mut Memory::new()).map(|enhanced| enhanced.counts);
    let once = Ok(Counts { retoned: 0, kept: 1 });
    let house = Settings::house();
    assert_eq!(enhanced(house.with_last(GREATEST_LEVEL)), once);
    assert_eq!(enhanced(house.with_last(GREATEST_LEVEL + 1)), Err(Refusal::Level));
    let area = u32::try_from(GREATEST_PIXELS).unwrap();
    assert_eq!(enhanced(house.with_area(area)), once);
    assert_eq!(enhanced(house.with_area(area + 1)), Err(Refusal::Area));
    let plain = |high| enhanced(house.with_rule(Rule::Plain { low: 0, high }));
    assert_eq!((plain(GREATEST_HIGH), plain(GREATEST_HIGH + 1)), (once, Err(Refusal::Limits)));
    let affine = |segments, smax| enhanced(house.with_rule(Rule::Affine { segments, smin: 0, smax }));
    assert_eq!(affine(GREATEST_SEGMENTS, GREATEST_SLOPE), once);
    assert_eq!(affine(GREATEST_SEGMENTS + 1, GREATEST_SLOPE), Err(Refusal::Slopes));
    assert_eq!(affine(GREATEST_SEGMENTS, GREATEST_SLOPE + 1), Err(Refusal::Slopes));
    let limited = |k| enhanced(house.with_area(2).with_rule(Rule::Limited { k }));
    let once = Ok(Counts { retoned: 1, kept: 0 });
    assert_eq!((limited(GREATEST_CLIP), limited(GREATEST_CLIP + 1)), (once, Err(Refusal::Clip)));
}

#[test]
fn a_list_has_at_most_320_passes() {
    for length in [319, 320] {
        for pass in [WHOLE, WHOLE.with_neighbours(8)] {
            let list = PassList::new(&vec![pass; length]).unwrap();
            assert_eq!(list.passes().len(), length);
            assert_eq!(PassList::from_bytes(list.bytes()), Ok(list));
        }
    }
    for length in [321, 1_024, 65_535, 65_536] {
        for pass in [WHOLE, WHOLE.with_neighbours(8), WHOLE.with_neighbours(9)] {
            assert_eq!(PassList::new(&vec![pass; length]), Err(Refusal::ListLength));
        }
    }
}

#[test]
fn memory_serves_planes_of_any_size() {
    let mut memory = Memory::new();
    for side in [1, 40, 3, 100] {
        let values: Vec<u8> = (0..side * side).map(|p| p as u8).collect();
        let mut plane = Plane::new(side, side, values.clone()).unwrap();
        let mut again = Plane::new(side, side, values).unwrap();
        assert_eq!(plane.pass(&WHOLE, &mut memory), again.pass(&WHOLE, &mut Memory::with_pixels(side * side)));
        assert_eq!(plane, again);
    }
}

#[test]
fn lent_memory_that_is_too_short_is_refused() {
    let (mut plane, mut marks, mut queue) = ([1, 2], [0; 2], [0; 2]);
    assert_eq!(lent::pass(&mut plane, &mut marks[..1], &mut queue, 2, 1, &WHOLE), Err(Refusal::Memory));
    assert_eq!(lent::pass(&mut plane, &mut marks, &mut queue[..1], 2, 1, &WHOLE), Err(Refusal::Memory));
    assert_eq!(lent::recolour(&[0; 6], 2, 1, &plane, &mut [0; 5]), Err(Refusal::Output));
    assert_eq!(lent::write(&[0; 6], 2, 1, &mut [0; 16]), Err(Refusal::Output));
    assert_eq!(lent::write(&[0; 6], 2, 1, &mut [0; 17]), Ok(17));
}

#[test]
fn no_memory_at_all_is_refused() {
    // SAFETY: each pointer goes with the number of elements that there are, a null pointer with 0.
    unsafe {
        let mut numbers = [7; 3];
        assert_eq!(ffi::mlhe_read(null(), 0, numbers.as_mut_ptr(), 3), -10);
        assert_eq!(ffi::mlhe_read(b"P6 1 1 255 abc".as_ptr(), 14, null_mut(), 0), -14);
        assert_eq!(numbers, [7; 3]);
        assert_eq!(ffi::mlhe_write(null(), 0, 1, 1, null_mut(), 0), -3);
        assert_eq!(ffi::mlhe_intensity(null(), 0, 1, 1, null_mut(), 0), -3);
        let none = null_mut();
        assert_eq!(ffi::mlhe_run_list(null(), 0, none, 0, none, 0, null_mut(), 0, 1, 1, null_mut(), 0), -3);
        let (mut plane, mut marks, mut queue) = ([1], [0], [0]);
        let (p, m, q) = (plane.as_mut_ptr(), marks.as_mut_ptr(), queue.as_mut_ptr());
        assert_eq!(ffi::mlhe_run_list(null(), 0, p, 1, m, 1, q, 1, 1, 1, null_mut(), 0), -16);
        assert_eq!(ffi::mlhe_convert_list(null(), 0, null_mut(), 0), -16);
        let empty = *b"MLP\x02\0\0\0";
        assert_eq!(ffi::mlhe_convert_list(empty.as_ptr(), empty.len(), null_mut(), 0), -14);
        assert_eq!(ffi::mlhe_pass(p, 1, m, 1, q, 1, 1, 1, 0, 255, 1, null(), 0, null_mut(), 0), -17);
    }
}

/// What a C function answers, and what it leaves of the row 10 20 and of three counts that were 7.
type Left = (i64, [u8; 2], [usize; 3]);

/// A pass over the whole section with this least area, which is lent so many counts.
fn counted_pass(area: u8, lent: usize) -> Left {
    let (mut plane, mut marks, mut queue, mut counts) = ([10, 20], [0; 2], [0; 2], [7; 3]);
    let (p, m, q, c) = (plane.as_mut_ptr(), marks.as_mut_ptr(), queue.as_mut_ptr(), counts.as_mut_ptr());
    let (r, area) = (NUMBERS.as_ptr(), area.into());
    // SAFETY: each pointer goes with at most as many elements as there are.
    let answer = unsafe { ffi::mlhe_pass(p, 2, m, 2, q, 2, 2, 1, 0, 255, area, r, 4, c, lent) };
    (answer, plane, counts)
}

/// The same as a list.
fn counted_list(area: u8, lent: usize) -> Left {
    let mut list = PassList::new(&[WHOLE]).unwrap().bytes().to_vec();
    list[11] = area;
    let (mut plane, mut marks, mut queue, mut counts) = ([10, 20], [0; 2], [0; 2], [7; 3]);
    let (p, m, q, c) = (plane.as_mut_ptr(), marks.as_mut_ptr(), queue.as_mut_ptr(), counts.as_mut_ptr());
    // SAFETY: each pointer goes with at most as many elements as there are.
    let answer = unsafe { ffi::mlhe_run_list(list.as_ptr(), list.len(), p, 2, m, 2, q, 2, 2, 1, c, lent) };
    (answer, plane, counts)
}

/// The same as an enhancement, which writes its output too or leaves that as well.
fn counted_enhancement(area: u8, lent: usize) -> Left {
    let frame = [10, 10, 10, 20, 20, 20];
    let (mut plane, mut marks, mut queue, mut output, mut counts) = ([10, 20], [0; 2], [0; 2], frame, [7; 3]);
    let (p, m, q, c) = (plane.as_mut_ptr(), marks.as_mut_ptr(), queue.as_mut_ptr(), counts.as_mut_ptr());
    let (f, o, r, area) = (frame.as_ptr(), output.as_mut_ptr(), NUMBERS.as_ptr(), area.into());
    // SAFETY: each pointer goes with at most as many elements as there are.
    let answer = unsafe { ffi::mlhe_enhance(f, 6, 2, 1, 0, area, r, 4, p, 2, m, 2, q, 2, o, 6, c, lent) };
    assert_eq!(output, [plane[0], plane[0], plane[0], plane[1], plane[1], plane[1]]);
    (answer, plane, counts)
}

/// Counts that are too short are refused after all else, and nothing changes; counts beyond the two stay.
#[test]
fn counts_that_are_too_short_are_refused_last() {
    for call in [counted_pass as fn(u8, usize) -> Left, counted_list, counted_enhancement] {
        for lent in 0..=3 {
            assert_eq!(call(0, lent), (-6, [10, 20], [7; 3]));
            let expected = if lent < 2 { (-14, [10, 20], [7; 3]) } else { (0, [128, 255], [1, 0, 7]) };
            assert_eq!(call(1, lent), expected);
        }
    }
}
