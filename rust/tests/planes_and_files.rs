//! The guarantee is about the plane that an enhancement leaves, not about the recoloured frame: recolouring holds a
//! channel at 255 and rounds. The example is that of docs/CLAIMS.md.

use mlhe::{Frame, Memory, Settings};

/// In a row of values: how many runs of one value are higher than what is beside them, and how many are lower.
fn spots(row: &[u8]) -> (usize, usize) {
    let mut runs = row.to_vec();
    runs.dedup();
    let count = |beyond: fn(&u8, &u8) -> bool| {
        let alone = |i: usize, j: usize| runs.get(j).is_none_or(|beside| beyond(&runs[i], beside));
        (0..runs.len()).filter(|&i| alone(i, i.wrapping_sub(1)) && alone(i, i + 1)).count()
    };
    (count(u8::gt), count(u8::lt))
}

/// How many pairs of neighbours in a row have the one that was higher lower now.
fn reversed(first: &[u8], last: &[u8]) -> usize {
    let pairs = first.windows(2).zip(last.windows(2));
    pairs.filter(|(a, b)| (a[0] < a[1] && b[0] > b[1]) || (a[0] > a[1] && b[0] < b[1])).count()
}

fn row(pixels: &[[u8; 3]]) -> Frame {
    Frame::new(pixels.len(), 1, pixels.concat()).expect("a frame")
}

#[test]
fn a_plane_keeps_what_the_recoloured_frame_does_not() {
    let frame = row(&[[0; 3], [67; 3], [67; 3], [0, 0, 204], [100; 3], [100; 3]]);
    let first = frame.intensity();
    assert_eq!(first.values(), [0, 67, 67, 68, 100, 100]);

    let enhanced = frame.enhanced(&Settings::HOUSE, &mut Memory::new()).expect("accepted");
    let last = enhanced.plane.values();
    assert_eq!(last, [43, 128, 128, 170, 255, 255]);
    assert_eq!(reversed(first.values(), last), 0);
    assert_eq!((spots(first.values()), spots(last)), ((1, 1), (1, 1)));

    assert_eq!(enhanced.frame, row(&[[0; 3], [128; 3], [128; 3], [0, 0, 255], [255; 3], [255; 3]]));
    let own = enhanced.frame.intensity();
    assert_eq!(own.values(), [0, 128, 128, 85, 255, 255]);
    assert_eq!(reversed(first.values(), own.values()), 1);
    assert_eq!(spots(own.values()), (2, 2));
}

#[test]
fn of_a_grey_frame_the_file_keeps_it_too() {
    let greys = [0, 0, 67, 67, 68, 100, 90, 255];
    let enhanced = row(&greys.map(|v| [v; 3])).enhanced(&Settings::HOUSE, &mut Memory::new()).expect("accepted");
    let mut own = enhanced.plane.values().to_vec();
    own[..2].fill(0);
    assert_eq!(enhanced.frame.bytes(), own.iter().flat_map(|&v| [v; 3]).collect::<Vec<u8>>());
    assert_eq!(enhanced.frame.intensity().values(), own);
    assert_eq!(reversed(&greys, &own), 0);
}
