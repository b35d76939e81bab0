//! What four and eight neighbours make of thin diagonal wires.

use crate::{counts, frame_of, hundredths, pictures, Counts};
use mlhe::{Frame, Memory, Plane, Settings};
use mlhe_reference::{Components, EIGHT, FOUR};

/// The places of a wire, in its order.
type Wire = Vec<(i64, i64)>;

/// The pictures: a name, and the wires.
fn scenes() -> [(&'static str, Vec<Wire>); 3] {
    let down = |in_row: i64, columns: &[i64]| columns.iter().map(|&x| pictures::wire(x, 0, in_row, true)).collect();
    let mut net: Vec<Wire> = down(1, &[8, 56, 104, 152]);
    net.extend([247, 199, 151, 103].map(|x| pictures::wire(x, 0, 1, false)));
    [("one wire", down(1, &[30])), ("wires that cross", net), ("wires in steps of three", down(3, &[0, 60, 120]))]
}

/// The least value of the wires, above every value of the sky.
const LEAST: u8 = 128;

/// What is measured along wires.
#[derive(Debug, PartialEq, Eq)]
struct Along {
    /// How many values there are.
    tones: usize,
    /// The greatest value less the least.
    range: u8,
    /// The mean difference of pixels that follow each other, in hundredths.
    difference: usize,
}

fn value_at(plane: &Plane, (x, y): (i64, i64)) -> u8 {
    plane.values()[y as usize * plane.width() + x as usize]
}

fn values_on(wires: &[Wire], plane: &Plane) -> Vec<u8> {
    wires.iter().flatten().map(|&place| value_at(plane, place)).collect()
}

fn along(wires: &[Wire], plane: &Plane) -> Along {
    let mut tones = values_on(wires, plane);
    tones.sort_unstable();
    tones.dedup();
    let pairs = || wires.iter().flat_map(|wire| wire.windows(2));
    let differing = |pair: &[(i64, i64)]| value_at(plane, pair[0]).abs_diff(value_at(plane, pair[1]));
    let sum: usize = pairs().map(differing).map(usize::from).sum();
    let (range, number) = (tones[tones.len() - 1] - tones[0], pairs().count());
    Along { tones: tones.len(), range, difference: (100 * sum + number / 2) / number }
}

/// How many components the wires are by so many neighbours, and how many pixels the largest has.
fn pieces(plane: &Plane, neighbours: u8) -> (usize, usize) {
    let (w, h) = (plane.width(), plane.height());
    let components = Components::new(w, h, neighbours).of_section(plane.values(), LEAST, 255);
    (components.len(), components.iter().map(Vec::len).max().unwrap_or(0))
}

/// The house setting with so many neighbours, on a frame.
fn enhanced(frame: &Frame, neighbours: u8) -> mlhe::Enhanced {
    let settings = Settings::HOUSE.with_neighbours(neighbours);
    frame.enhanced(&settings, &mut Memory::new()).expect("the settings are sound")
}

/// The rows of one scene: the picture, and each number of neighbours.
fn rows(name: &str, wires: &[Wire]) -> String {
    let frame = frame_of(pictures::wires(wires));
    let first = frame.intensity();
    let cells = |plane: &Plane| {
        let Along { tones, range, difference } = along(wires, plane);
        format!("{tones} | {range} | {}", hundredths(difference))
    };
    let mut rows = format!("| {name} | (the picture) | | | {} | | | | | |\n", cells(&first));
    for (number, neighbours) in [("four", FOUR), ("eight", EIGHT)] {
        let (components, largest) = pieces(&first, neighbours);
        let done = enhanced(&frame, neighbours);
        let Counts { invented, reversed, parted, .. } = counts(&first, &done.plane, EIGHT);
        let mlhe::Counts { retoned, kept } = done.counts;
        rows += &format!("|  | {number} | {components} | {largest} | {} ", cells(&done.plane));
        rows += &format!("| {invented} | {reversed} | {parted} | {retoned} | {kept} |\n");
    }
    rows
}

pub fn table() -> String {
    let mut table = String::from("| Picture | Neighbours | Components | largest | Tones | Range | Difference ");
    table.push_str("| Invented | reversed | parted | Retoned | Kept |\n");
    table.push_str("|---|---|---:|---:|---:|---:|---:|---:|---:|---:|---:|---:|\n");
    for (name, wires) in scenes() {
        table.push_str(&rows(name, &wires));
    }
    table
}

#[cfg(test)]
mod tests {
    use super::*;

    /// The values of the wires in the picture, and after the levels up to `last` with so many neighbours.
    fn values(wires: &[Wire], neighbours: u8, last: u8) -> [Vec<u8>; 2] {
        let frame = frame_of(pictures::wires(wires));
        let settings = Settings::HOUSE.with_neighbours(neighbours).with_last(last);
        let done = frame.enhanced(&settings, &mut Memory::new()).expect("the settings are sound");
        [frame.intensity(), done.plane].map(|plane| values_on(wires, &plane))
    }

    #[test]
    fn wires_are_measured_along() {
        let plane = Plane::new(3, 2, vec![7, 1, 4, 1, 5, 1]).expect("a value for each pixel");
        let wires = [vec![(0, 0), (1, 1), (2, 0)], vec![(2, 0), (1, 1)]];
        assert_eq!(along(&wires, &plane), Along { tones: 3, range: 3, difference: 133 });
    }

    #[test]
    fn wires_are_joined_by_eight_neighbours_alone() {
        let [one, _, steps] = scenes().map(|(_, wires)| frame_of(pictures::wires(&wires)).intensity());
        assert_eq!((pieces(&one, FOUR), pieces(&one, EIGHT)), ((192, 1), (1, 192)));
        assert_eq!((pieces(&steps, FOUR).1, pieces(&steps, EIGHT).0), (3, 3));
    }

    /// As the page says.
    #[test]
    fn levels_that_keep_the_wires() {
        for (name, wires) in scenes() {
            let [first, last] = values(&wires, FOUR, 7);
            assert_eq!(first, last, "{name}");
            let [first, last] = values(&wires, EIGHT, 1);
            assert_eq!(first, last, "{name}");
            let [first, last] = values(&wires, EIGHT, 2);
            assert_ne!(first, last, "{name}");
        }
    }

    /// As the page says.
    #[test]
    fn skies_and_pictures() {
        for (name, wires) in scenes() {
            let frame = frame_of(pictures::wires(&wires));
            let first = frame.intensity();
            let (w, h, values) = (first.width(), first.height(), first.values());
            let skies = |number| Components::new(w, h, number).of_section(values, 0, LEAST - 1).len();
            assert!(skies(FOUR) > 1 && skies(EIGHT) == 1, "{name}");
            assert!(values_on(&wires, &first).iter().all(|value| (130..=160).contains(value)), "{name}");
            assert!(values.iter().filter(|&&value| value < LEAST).all(|&value| value <= 125), "{name}");
        }
    }

    /// By four neighbours nothing is invented, reversed or parted, whatever the number; by eight nothing with eight.
    #[test]
    fn what_is_proved() {
        for (name, wires) in scenes() {
            let frame = frame_of(pictures::wires(&wires));
            for (neighbours, by) in [(FOUR, FOUR), (EIGHT, FOUR), (EIGHT, EIGHT)] {
                let found = counts(&frame.intensity(), &enhanced(&frame, neighbours).plane, by);
                assert_eq!([found.invented, found.reversed, found.parted], [0; 3], "{name}");
            }
        }
    }
}
