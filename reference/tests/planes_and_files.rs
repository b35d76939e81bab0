//! What holds of the plane that an enhancement leaves need not hold of the intensity of the frame that is recoloured
//! from it: recolouring holds a channel at 255 and rounds. Of a grey frame it does.

use mlhe_reference::extrema::{keeps_shapes, regional_maxima, regional_minima, reversed_neighbours};
use mlhe_reference::{enhance, intensity, recolour, Settings};

/// The intensity of a frame of one row.
fn intensity_of(frame: &[u8]) -> Vec<u8> {
    let mut plane = vec![0; frame.len() / 3];
    intensity(frame, frame.len() / 3, 1, &mut plane).expect("accepted");
    plane
}

/// The plane and the frame that an enhancement with the house setting leaves of a frame of one row.
fn enhanced(frame: &[u8]) -> (Vec<u8>, Vec<u8>) {
    let n = frame.len() / 3;
    let (mut plane, mut output) = (vec![0; n], vec![0; 3 * n]);
    enhance(frame, n, 1, &Settings::HOUSE, &mut plane, n, n, &mut output).expect("accepted");
    (plane, output)
}

/// The example of docs/CLAIMS.md.
#[test]
fn a_plane_keeps_what_the_recoloured_frame_does_not() {
    let frame = [0, 0, 0, 67, 67, 67, 67, 67, 67, 0, 0, 204, 100, 100, 100, 100, 100, 100];
    let first = intensity_of(&frame);
    assert_eq!(first, [0, 67, 67, 68, 100, 100]);

    let (plane, output) = enhanced(&frame);
    assert_eq!(plane, [43, 128, 128, 170, 255, 255]);
    assert!(keeps_shapes(&first, &plane, 6, 1, 4));

    assert_eq!(output, [0, 0, 0, 128, 128, 128, 128, 128, 128, 0, 0, 255, 255, 255, 255, 255, 255, 255]);
    let own = intensity_of(&output);
    assert_eq!(own, [0, 128, 128, 85, 255, 255]);
    assert_eq!(reversed_neighbours(&first, &own, 6, 1, 4), 1);
    assert_eq!([&first, &own].map(|plane| regional_maxima(plane, 6, 1, 4).len()), [1, 2]);
    assert_eq!([&first, &own].map(|plane| regional_minima(plane, 6, 1, 4).len()), [1, 2]);
}

/// All grey rows of four pixels over some values: each channel is the plane's value, but black stays black.
#[test]
fn of_a_grey_frame_the_file_keeps_it_too() {
    let values = [0, 1, 2, 100, 128, 255];
    let count = values.len();
    for chosen in 0..count.pow(4) {
        let greys: Vec<u8> = (0..4).map(|place| values[chosen / count.pow(place) % count]).collect();
        let frame: Vec<u8> = greys.iter().flat_map(|&v| [v; 3]).collect();
        assert_eq!(intensity_of(&frame), greys);
        let (plane, output) = enhanced(&frame);
        let black_kept = |(&grey, &new): (&u8, &u8)| if grey == 0 { 0 } else { new };
        let own: Vec<u8> = greys.iter().zip(&plane).map(black_kept).collect();
        assert_eq!(output, own.iter().flat_map(|&v| [v; 3]).collect::<Vec<u8>>());
        assert_eq!(intensity_of(&output), own);
        assert!(keeps_shapes(&greys, &own, 4, 1, 4));
    }
}

/// Any plane recolours a grey frame so, not only that of an enhancement.
#[test]
fn a_grey_pixel_takes_the_value_of_the_plane() {
    for (old, new) in (1..=255).flat_map(|old| (0..=255).map(move |new| (old, new))) {
        let mut output = [0; 3];
        recolour(&[old; 3], 1, 1, &[new], &mut output).expect("accepted");
        assert_eq!(output, [new; 3]);
    }
}
