//! The examples of the requirements (docs/REQUIREMENTS.md), but for S and T, which stand in counts.rs, those with eight
//! neighbours, which stand in neighbours.rs, and those of lists of version 2, which stand in versions.rs.

use mlhe_reference::{enhance, intensity, level_by_level, pass, program, recolour, run_list, run_passes};
use mlhe_reference::{list_bytes, list_passes, Counts, Pass, Rule, Settings};

const FREE: Rule = Rule::Plain { low: 0, high: 25_500 };

/// Both counts: of the retoned and of the kept components.
fn both(retoned: u64, kept: u64) -> Counts {
    Counts { retoned, kept }
}

/// Runs one pass on a plane of w columns. Answers the plane and both counts.
fn run(plane: &[u8], w: usize, a: u8, b: u8, area: u32, rule: Rule) -> (Vec<u8>, Counts) {
    let (n, h) = (plane.len(), plane.len() / w);
    let mut plane = plane.to_vec();
    let counts = pass(&mut plane, n, n, w, h, &Pass { a, b, area, rule, neighbours: 4 }).expect("accepted");
    (plane, counts)
}

/// Enhances a row of grey pixels. Answers the new intensities, both counts and the output.
fn enhanced(greys: &[u8], last_level: u32, area: u32, rule: Rule) -> (Vec<u8>, Counts, Vec<u8>) {
    let n = greys.len();
    let frame: Vec<u8> = greys.iter().flat_map(|&v| [v, v, v]).collect();
    let (mut plane, mut output) = (vec![0; n], vec![0; 3 * n]);
    let settings = Settings { last_level, area, rule, neighbours: 4 };
    let counts = enhance(&frame, n, 1, &settings, &mut plane, n, n, &mut output).expect("accepted");
    (plane, counts, output)
}

#[test]
fn a_and_b_plain() {
    let a = [10, 10, 20, 30];
    assert_eq!(run(&a, 4, 0, 255, 1, FREE), (vec![128, 128, 191, 255], both(1, 0)));
    assert_eq!(run(&a, 4, 0, 255, 1, Rule::Plain { low: 0, high: 300 }), (a.to_vec(), both(0, 1)));
}

#[test]
fn c_and_d_two_values() {
    assert_eq!(run(&[0, 1], 2, 0, 1, 1, FREE), (vec![1, 1], both(1, 0)));
    assert_eq!(run(&[0, 1], 2, 0, 1, 1, Rule::Plain { low: 80, high: 25_500 }), (vec![0, 1], both(0, 1)));
}

#[test]
fn e_and_f_components_and_area() {
    let plane = [10, 20, 200, 10, 10];
    assert_eq!(run(&plane, 5, 0, 127, 1, FREE), (vec![64, 127, 200, 10, 10], both(1, 1)));
    assert_eq!(run(&plane, 5, 0, 127, 3, FREE), (plane.to_vec(), both(0, 0)));
}

/// No example has a component exactly as large as the least area.
#[test]
fn a_component_of_the_least_area_is_retoned() {
    assert_eq!(run(&[10, 20, 200, 10, 10], 5, 0, 127, 2, FREE), (vec![64, 127, 200, 10, 10], both(1, 1)));
}

#[test]
fn g_h_and_i_limited() {
    let a = [10, 10, 20, 30];
    assert_eq!(run(&a, 4, 0, 255, 1, Rule::Limited { k: 10 }), (vec![13, 13, 25, 38], both(1, 0)));
    assert_eq!(run(&a, 4, 0, 255, 1, Rule::Limited { k: 1_000 }), (vec![128, 128, 191, 255], both(1, 0)));
    assert_eq!(run(&a, 4, 0, 255, 1, Rule::Limited { k: 0 }), (vec![11, 11, 21, 31], both(1, 0)));
}

/// A component of one value has the limited rule like any other, and is retoned; the plain rule keeps it back.
#[test]
fn a_limited_component_is_never_kept() {
    assert_eq!(run(&[9, 9, 9], 3, 9, 9, 1, Rule::Limited { k: 10 }), (vec![9, 9, 9], both(1, 0)));
    assert_eq!(run(&[9, 9, 9], 3, 9, 9, 1, FREE), (vec![9, 9, 9], both(0, 1)));
}

#[test]
fn u_affine() {
    let a = [10, 10, 20, 30];
    let affine = |segments, smin, smax| Rule::Affine { segments, smin, smax };
    assert_eq!(run(&a, 4, 0, 255, 1, affine(2, 100, 10_000)), (vec![128, 128, 191, 255], both(1, 0)));
    assert_eq!(run(&a, 4, 0, 255, 1, affine(2, 100, 300)), (a.to_vec(), both(0, 1)));
    assert_eq!(run(&[7, 7], 2, 0, 255, 1, affine(1, 0, 10_000)), (vec![255, 255], both(1, 0)));
    assert_eq!(run(&[8, 10], 2, 0, 10, 1, affine(2, 200, 10_000)), (vec![8, 10], both(1, 0)));
}

/// Each component by itself, and only those of the least area: 10 and 20 become 64 and 127; 10 10 is kept back.
#[test]
fn affine_components_and_area() {
    let plane = [10, 20, 200, 10, 10];
    let affine = Rule::Affine { segments: 2, smin: 0, smax: 10_000 };
    assert_eq!(run(&plane, 5, 0, 127, 1, affine), (vec![64, 127, 200, 10, 10], both(1, 1)));
    assert_eq!(run(&plane, 5, 0, 127, 3, affine), (plane.to_vec(), both(0, 0)));
    let straight = Rule::Affine { segments: 1, smin: 0, smax: 10_000 };
    assert_eq!(run(&plane, 5, 0, 127, 1, straight), (vec![64, 127, 200, 127, 127], both(2, 0)));
}

/// 10 and 20 become the ends of [128, 255], which stay as they are: retoned at level 1, and kept back below it, where
/// each is alone in its section.
#[test]
fn affine_enhancement() {
    let rule = Rule::Affine { segments: 2, smin: 0, smax: 10_000 };
    let (plane, counts, _) = enhanced(&[10, 20], 0, 20, rule);
    assert_eq!((plane, counts), (vec![128, 255], both(1, 0)));
    let (plane, counts, _) = enhanced(&[10, 20], 1, 1, rule);
    assert_eq!((plane, counts), (vec![128, 255], both(2, 0)));
    let (plane, counts, _) = enhanced(&[10, 20], 7, 1, rule);
    assert_eq!((plane, counts), (vec![128, 255], both(2, 12)));
}

#[test]
fn j_diagonals_are_apart() {
    assert_eq!(run(&[10, 200, 200, 20], 2, 0, 127, 1, FREE), (vec![10, 200, 200, 20], both(0, 2)));
}

#[test]
fn k_l_and_m_enhancement() {
    let (plane, counts, output) = enhanced(&[10, 20], 0, 20, FREE);
    assert_eq!((plane, counts), (vec![128, 255], both(1, 0)));
    assert_eq!(output, [128, 128, 128, 255, 255, 255]);
    let (plane, counts, _) = enhanced(&[10, 20], 1, 1, FREE);
    assert_eq!((plane, counts), (vec![192, 255], both(2, 0)));
    let (plane, counts, _) = enhanced(&[10, 20], 7, 1, FREE);
    assert_eq!((plane, counts), (vec![255, 255], both(8, 0)));
}

/// At level 0 the range would fall from 215 to 170, so the plane is kept back; its dark half is retoned, and its bright
/// pixel kept back again.
#[test]
fn a_kept_component_is_split_all_the_same() {
    let rule = Rule::Plain { low: 80, high: 300 };
    let (plane, counts, _) = enhanced(&[40, 100, 255], 0, 1, rule);
    assert_eq!((plane, counts), (vec![40, 100, 255], both(0, 1)));
    let (plane, counts, _) = enhanced(&[40, 100, 255], 1, 1, rule);
    assert_eq!((plane, counts), (vec![64, 127, 255], both(1, 2)));
    let (plane, counts, _) = enhanced(&[40, 100, 255], 1, 2, rule);
    assert_eq!((plane, counts), (vec![64, 127, 255], both(1, 1)));
}

/// After level 0, which asks for no area, the bright half has three pixels.
#[test]
fn small_components_are_not_entered() {
    let (plane, counts, _) = enhanced(&[10, 20, 30, 40], 1, 5, FREE);
    assert_eq!((plane, counts), (vec![64, 128, 191, 255], both(1, 0)));
    let (plane, counts, _) = enhanced(&[10, 20, 30, 40], 1, 3, FREE);
    assert_eq!((plane, counts), (vec![64, 170, 213, 255], both(2, 0)));
}

#[test]
fn n_and_o_colours() {
    let recoloured = |pixel: [u8; 3], j: u8| {
        let mut output = [0; 3];
        recolour(&pixel, 1, 1, &[j], &mut output).expect("accepted");
        output
    };
    assert_eq!(recoloured([200, 100, 0], 120), [240, 120, 0]);
    assert_eq!(recoloured([200, 100, 0], 150), [255, 128, 0]);
    for j in 0..=255 {
        assert_eq!(recoloured([0, 0, 1], j), [0, 0, 0]);
    }
}

#[test]
fn p_program() {
    let mut input = b"P6\n2 1\n255\n".to_vec();
    input.extend([10, 10, 10, 20, 20, 20]);
    assert_eq!(input.len(), 17);
    assert_eq!(program(&input), input);
}

#[test]
fn q_list() {
    let list = [
        0x4D, 0x4C, 0x50, 0x01, 0x00, 0x01, 0x00, 0x00, 0x7F, 0x00, 0x00, 0x01, 0x00, 0x00, 0x00, 0x00, 0x00, 0x9C,
        0x63,
    ];
    let mut plane = [10, 20, 200, 10, 10];
    assert_eq!(run_list(&list, &mut plane, 5, 5, 5, 1), Ok(both(1, 1)));
    assert_eq!(plane, [64, 127, 200, 10, 10]);

    let passes = [Pass { a: 0, b: 127, area: 1, rule: FREE, neighbours: 4 }];
    assert_eq!(list_bytes(&passes), list);
    let mut plane = [10, 20, 200, 10, 10];
    assert_eq!(run_passes(&passes, &mut plane, 5, 5, 5, 1), Ok(both(1, 1)));
    assert_eq!(plane, [64, 127, 200, 10, 10]);
}

/// A record of the affine rule has N after the rule, and the slopes where the others have their numbers.
#[test]
fn a_list_with_the_affine_rule() {
    let list = *b"MLP\x01\0\x01\0\x00\xFF\x02\x02\x01\0\0\0\x64\x00\x10\x27";
    let mut plane = [10, 10, 20, 30];
    assert_eq!(run_list(&list, &mut plane, 4, 4, 4, 1), Ok(both(1, 0)));
    assert_eq!(plane, [128, 128, 191, 255]);

    let rule = Rule::Affine { segments: 2, smin: 100, smax: 10_000 };
    let passes = [Pass { a: 0, b: 255, area: 1, rule, neighbours: 4 }];
    assert_eq!(list_bytes(&passes), list);
    assert_eq!(list_passes(&list), Ok(passes.to_vec()));
    let mut plane = [10, 10, 20, 30];
    assert_eq!(run_passes(&passes, &mut plane, 4, 4, 4, 1), Ok(both(1, 0)));
    assert_eq!(plane, [128, 128, 191, 255]);
}

#[test]
fn w_list_of_all_rules() {
    let affine = Rule::Affine { segments: 2, smin: 100, smax: 10_000 };
    let over = |(a, b, rule)| Pass { a, b, area: 1, rule, neighbours: 4 };
    let passes = [(0, 127, FREE), (128, 255, Rule::Limited { k: 10 }), (0, 255, affine)].map(over);
    let mut plane = [10, 20, 200, 10, 10];
    assert_eq!(run_list(&list_bytes(&passes), &mut plane, 5, 5, 5, 1), Ok(both(3, 1)));
    assert_eq!(plane, [123, 184, 255, 19, 19]);
}

/// Lists of all three rules read back as they were written.
#[test]
fn lists_read_back() {
    let rules = [
        Rule::Plain { low: 80, high: 300 },
        Rule::Limited { k: 1_000 },
        Rule::Affine { segments: 1, smin: 0, smax: 0 },
        Rule::Affine { segments: 16, smin: 10_000, smax: 10_000 },
        FREE,
    ];
    let passes = rules.map(|rule| Pass { a: 1, b: 254, area: 1_048_576, rule, neighbours: 4 });
    assert_eq!(list_passes(&list_bytes(&passes)), Ok(passes.to_vec()));
}

/// The whole recursion is a list of 255 passes that can be run.
#[test]
fn the_recursion_as_a_list() {
    let passes = level_by_level(&Settings { last_level: 7, area: 1, rule: FREE, neighbours: 4 });
    assert_eq!(passes.len(), 255);
    let mut plane = [10, 20];
    assert_eq!(run_list(&list_bytes(&passes), &mut plane, 2, 2, 2, 1), Ok(both(8, 0)));
    assert_eq!(plane, [255, 255]);
}

/// All 766 sums of channels.
#[test]
fn thirds_are_rounded_to_the_nearest() {
    for sum in 0..=765_i32 {
        let red = sum.min(255);
        let green = (sum - red).min(255);
        let blue = sum - red - green;
        let mut plane = [0];
        intensity(&[red as u8, green as u8, blue as u8], 1, 1, &mut plane).expect("accepted");
        assert!((3 * i32::from(plane[0]) - sum).abs() <= 1, "sum {sum}");
    }
}

/// Algorithm 6 by comparing fractions, on a coarse net of colours.
#[test]
fn recolouring_takes_the_smaller_factor() {
    let steps = [0_u8, 1, 2, 3, 100, 127, 128, 254, 255];
    for (r, g, b) in steps.iter().flat_map(|&r| steps.iter().flat_map(move |&g| steps.map(|b| (r, g, b)))) {
        let (sum, most) = (i64::from(r) + i64::from(g) + i64::from(b), i64::from(r.max(g).max(b)));
        let i = (2 * sum + 3) / 6;
        for j in 0..=255_u8 {
            let mut output = [0; 3];
            recolour(&[r, g, b], 1, 1, &[j], &mut output).expect("accepted");
            for (channel, new) in [r, g, b].into_iter().zip(output) {
                let (c, new, j) = (i64::from(channel), i64::from(new), i64::from(j));
                if i == 0 {
                    assert_eq!(new, 0);
                } else if j * most <= 255 * i {
                    assert!(2 * c * j - i < 2 * i * new + 1 && 2 * i * new <= 2 * c * j + i);
                } else {
                    assert!(2 * 255 * c - most < 2 * most * new + 1 && 2 * most * new <= 2 * 255 * c + most);
                }
            }
        }
    }
}
