//! Sound calls, which a case changes where it wants to.

use mlhe_reference::cases::{Case, Kind};
use mlhe_reference::{header, Rule};

/// The plain rule that keeps back nothing but single values.
pub const FREE: [u16; 2] = [0, 25_500];

/// A plane of five columns whose section [0, 127] has four components: one of four values, and one, three and four
/// pixels of one value each.
pub const ISLANDS: [u8; 20] = [40, 40, 200, 10, 20, 40, 40, 200, 30, 20, 200, 200, 200, 200, 200, 60, 200, 70, 70, 70];

/// A call on w by h pixels that is lent exactly what it needs.
pub fn sound(kind: Kind, w: usize, h: usize, bytes: Vec<u8>, plane: Vec<u8>) -> Case {
    let n = w * h;
    let output = match kind {
        Kind::Recolour | Kind::Enhance | Kind::House => 3 * n,
        Kind::Write => header(w, h).len() + 3 * n,
        _ => 0,
    };
    let memory = match kind {
        Kind::Pass | Kind::Enhance | Kind::House | Kind::List | Kind::Passes => n,
        _ => 0,
    };
    Case {
        kind,
        a: 0,
        b: 255,
        rule: 0,
        segments: 0,
        numbers: FREE,
        neighbours: 4,
        area: 1,
        last_level: 7,
        same_plane: false,
        marks: memory as u16,
        queue: memory as u16,
        output: output as u16,
        w: w as u32,
        h: h as u32,
        limit: 1_048_576,
        bytes,
        plane,
    }
}

/// The call with this rule.
pub fn ruled(case: Case, rule: Rule) -> Case {
    let (rule, segments, numbers) = match rule {
        Rule::Plain { low, high } => (0, 0, [low, high]),
        Rule::Limited { k } => (1, 0, [k, 0]),
        Rule::Affine { segments, smin, smax } => (2, segments, [smin, smax]),
    };
    let numbers = numbers.map(|number| u16::try_from(number).expect("a 16-bit number"));
    Case { rule, segments: u8::try_from(segments).expect("an 8-bit number"), numbers, ..case }
}

/// A pass on a plane of w columns.
pub fn pass_on(plane: &[u8], w: usize, section: [u8; 2], area: u32, rule: u8, numbers: [u16; 2]) -> Case {
    let case = sound(Kind::Pass, w, plane.len() / w, Vec::new(), plane.to_vec());
    Case { a: section[0], b: section[1], area, rule, numbers, ..case }
}

/// The enhancement of a grey frame of w columns. The plane lent is full of other values.
pub fn enhance_grey(greys: &[u8], w: usize, last_level: u8, area: u32, rule: u8, numbers: [u16; 2]) -> Case {
    let frame = greys.iter().flat_map(|&v| [v, v, v]).collect();
    let plane = greys.iter().map(|&v| v ^ 0x5A).collect();
    Case { last_level, area, rule, numbers, ..sound(Kind::Enhance, w, greys.len() / w, frame, plane) }
}

/// The same enhancement with the house setting. The settings of the head are not its own, and every one of them would
/// be refused.
pub fn house_grey(greys: &[u8], w: usize) -> Case {
    Case { kind: Kind::House, neighbours: 0, ..enhance_grey(greys, w, 8, 0, 0, [81, 80]) }
}
