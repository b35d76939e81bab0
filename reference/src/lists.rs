//! Lists of passes, as bytes in two versions and in memory, and the converter from the one version to the other.

use crate::components::{EIGHT, FOUR};
use crate::counts::Counts;
use crate::passes::{lent_plane, run, sound, Pass};
use crate::refusals::{refuse_if, Refusal};
use crate::tones::Rule;

/// The greatest number of passes in a list, in a file of either version and in memory.
pub const GREATEST_COUNT: usize = 320;

/// The bytes before the first record: mark, version and count.
const HEAD: usize = 7;

/// The version of a list of bytes. Records of version 1 mean four neighbours. Those of version 2 say how many: they are
/// the 12 bytes of version 1, the number of neighbours and three zero bytes.
#[derive(Clone, Copy, Debug, PartialEq, Eq)]
pub enum Version {
    One,
    Two,
}

impl Version {
    pub const BOTH: [Version; 2] = [Version::One, Version::Two];

    /// The number that stands for it in a list.
    fn number(self) -> u16 {
        match self {
            Version::One => 1,
            Version::Two => 2,
        }
    }

    /// The bytes of a record.
    fn record(self) -> usize {
        match self {
            Version::One => 12,
            Version::Two => 16,
        }
    }

    pub fn other(self) -> Version {
        match self {
            Version::One => Version::Two,
            Version::Two => Version::One,
        }
    }

    /// The length of a list of so many passes.
    pub fn length(self, count: usize) -> usize {
        HEAD + self.record() * count
    }
}

/// Runs the passes of a list in its file format. All records are checked before the first pass runs. Answers the sums
/// of the passes' counts.
pub fn run_list(
    bytes: &[u8],
    plane: &mut [u8],
    marks_len: usize,
    queue_len: usize,
    w: usize,
    h: usize,
) -> Result<Counts, Refusal> {
    lent_plane(plane, marks_len, queue_len, w, h)?;
    Ok(run_all(&list_passes(bytes)?, plane, w, h))
}

/// The passes of a list in its file format, all of them sound. Refusals: 16 (under 7 bytes), 15, 16, then for each
/// record 17, 5, 6, 7, 8, 18, 19.
pub fn list_passes(bytes: &[u8]) -> Result<Vec<Pass>, Refusal> {
    checked(bytes).map(|(_, passes)| passes)
}

/// Writes the list in the other version and answers its length. Output bytes from that length on stay. Refusals: those
/// of a list's bytes, then 20 where a record with eight neighbours is to become version 1, then 14.
pub fn convert(list: &[u8], output: &mut [u8]) -> Result<usize, Refusal> {
    let (version, passes) = checked(list)?;
    let by_eight = passes.iter().any(|pass| pass.neighbours == EIGHT);
    refuse_if(version == Version::Two && by_eight, 20)?;
    let bytes = list_bytes_of(version.other(), &passes);
    refuse_if(output.len() < bytes.len(), 14)?;
    output[..bytes.len()].copy_from_slice(&bytes);
    Ok(bytes.len())
}

/// The version and the passes of a list of bytes, with all its refusals.
fn checked(bytes: &[u8]) -> Result<(Version, Vec<Pass>), Refusal> {
    refuse_if(bytes.len() < HEAD, 16)?;
    refuse_if(&bytes[..3] != b"MLP", 15)?;
    let version = match number16(bytes, 3) {
        1 => Version::One,
        2 => Version::Two,
        _ => return Err(15),
    };
    let count = number16(bytes, 5) as usize;
    refuse_if(count > GREATEST_COUNT || bytes.len() != version.length(count), 16)?;
    let mut passes = Vec::new();
    for record in bytes[HEAD..].chunks(version.record()) {
        let pass = record_pass(version, record)?;
        sound(&pass)?;
        passes.push(pass);
    }
    Ok((version, passes))
}

/// Runs the passes of a list in memory, with the same outcome.
pub fn run_passes(
    passes: &[Pass],
    plane: &mut [u8],
    marks_len: usize,
    queue_len: usize,
    w: usize,
    h: usize,
) -> Result<Counts, Refusal> {
    lent_plane(plane, marks_len, queue_len, w, h)?;
    refuse_if(passes.len() > GREATEST_COUNT, 16)?;
    for pass in passes {
        sound(pass)?;
    }
    Ok(run_all(passes, plane, w, h))
}

fn run_all(passes: &[Pass], plane: &mut [u8], w: usize, h: usize) -> Counts {
    passes.iter().map(|pass| run(plane, w, h, pass)).sum()
}

/// 17, and the pass that a record stands for. The byte after the rule is N of the affine rule, and 0 for the others.
fn record_pass(version: Version, record: &[u8]) -> Result<Pass, Refusal> {
    let segments = u32::from(record[3]);
    let (first, second) = (number16(record, 8), number16(record, 10));
    let (rule, zeros) = match record[2] {
        0 => (Rule::Plain { low: first, high: second }, segments == 0),
        1 => (Rule::Limited { k: first }, segments == 0 && second == 0),
        2 => (Rule::Affine { segments, smin: first, smax: second }, true),
        _ => return Err(17),
    };
    let (neighbours, last_zeros) = match version {
        Version::One => (FOUR, true),
        Version::Two => (record[12], record[13..] == [0; 3]),
    };
    refuse_if(!zeros || !last_zeros, 17)?;
    let area = number16(record, 4) + 65_536 * number16(record, 6);
    Ok(Pass { a: record[0], b: record[1], area, rule, neighbours })
}

/// The 16-bit number at a place, low byte first.
fn number16(bytes: &[u8], at: usize) -> u32 {
    u32::from(bytes[at]) + 256 * u32::from(bytes[at + 1])
}

/// A list of version 1, as `list_bytes_of` writes it.
pub fn list_bytes(passes: &[Pass]) -> Vec<u8> {
    list_bytes_of(Version::One, passes)
}

/// The file format of a list. Version 1 has no place for the number of neighbours, which must be 4. The numbers of the
/// rules must be below 65,536, N below 256, and there must be fewer than 65,536 passes; nothing else is tested.
pub fn list_bytes_of(version: Version, passes: &[Pass]) -> Vec<u8> {
    fn short(number: usize) -> [u8; 2] {
        u16::try_from(number).expect("a 16-bit number").to_le_bytes()
    }
    let mut bytes = b"MLP".to_vec();
    bytes.extend(version.number().to_le_bytes());
    bytes.extend(short(passes.len()));
    for pass in passes {
        let (rule, segments, first, second) = match pass.rule {
            Rule::Plain { low, high } => (0, 0, low, high),
            Rule::Limited { k } => (1, 0, k, 0),
            Rule::Affine { segments, smin, smax } => (2, segments, smin, smax),
        };
        bytes.extend([pass.a, pass.b, rule, u8::try_from(segments).expect("an 8-bit number")]);
        bytes.extend(pass.area.to_le_bytes());
        bytes.extend(short(first as usize));
        bytes.extend(short(second as usize));
        match version {
            Version::One => assert_eq!(pass.neighbours, FOUR, "version 1 means four neighbours"),
            Version::Two => bytes.extend([pass.neighbours, 0, 0, 0]),
        }
    }
    bytes
}
