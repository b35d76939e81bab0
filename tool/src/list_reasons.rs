//! What is wrong with a list file that is refused. The library decides that it is refused and by which number; the
//! words here are found by looking at the bytes once more.

use crate::reasons::{grouped, is_text};
use mlhe::{PassList, Refusal, GREATEST_PASSES};

/// The bytes before the first record: mark, version and count.
const HEAD: usize = 7;

/// Why a list is refused, and what to do.
pub fn reason(refusal: Refusal, bytes: &[u8]) -> String {
    match refusal {
        Refusal::ListMark => no_list(bytes),
        Refusal::ListLength => wrong_length(bytes),
        Refusal::EightNeighbours => no_place(bytes),
        _ => refused_record(bytes).map_or(refusal.reason().to_owned(), |record| record.reason(refusal)),
    }
}

/// So many passes, in words.
pub fn counted(count: usize) -> String {
    if count == 1 {
        return "1 pass".to_owned();
    }
    format!("{} passes", grouped(count))
}

/// Why so many passes are no list.
pub fn too_many(count: usize) -> String {
    format!("it is to have {}, and {} fit", counted(count), grouped(GREATEST_PASSES))
}

/// The 16-bit number at a place of the head.
fn number(bytes: &[u8], at: usize) -> usize {
    usize::from(u16::from_le_bytes([bytes[at], bytes[at + 1]]))
}

/// The bytes of a record in a version.
fn record_length(version: usize) -> Option<usize> {
    match version {
        1 => Some(12),
        2 => Some(16),
        _ => None,
    }
}

fn no_list(bytes: &[u8]) -> String {
    if bytes.starts_with(b"MLP") {
        return format!("its version is {}, and lists of version 1 and 2 are read", number(bytes, 3));
    }
    if is_text(bytes) {
        return "no pass list but text: zopykue list --text LINES --to FILE makes a list of it".to_owned();
    }
    "no pass list, for it does not begin with MLP".to_owned()
}

fn wrong_length(bytes: &[u8]) -> String {
    if bytes.is_empty() {
        return "the file is empty: copy it again".to_owned();
    }
    if bytes.len() < HEAD {
        return format!("the file ends in the head of a list, after {} of {HEAD} bytes: copy it again", bytes.len());
    }
    let (version, count) = (number(bytes, 3), number(bytes, 5));
    if count > GREATEST_PASSES {
        return too_many(count);
    }
    let due = grouped(HEAD + count * record_length(version).unwrap_or_default());
    let there = grouped(bytes.len());
    format!("{due} bytes are due for {} in version {version}, and {there} are there: copy it again", counted(count))
}

/// The first pass with eight neighbours, which keeps a list from version 1.
fn no_place(bytes: &[u8]) -> String {
    let place =
        PassList::from_bytes(bytes).ok().and_then(|list| list.passes().iter().position(|pass| pass.neighbours == 8));
    let pass = place.map_or("a pass".to_owned(), |place| format!("pass {}", place + 1));
    format!("{pass} has eight neighbours, for which version 1 has no place")
}

/// A record that is refused.
struct Record<'a> {
    /// The number of its pass, from 1 on.
    pass: usize,
    /// The place of its first byte.
    at: usize,
    bytes: &'a [u8],
}

/// The first record of a list that is refused by itself.
fn refused_record(bytes: &[u8]) -> Option<Record<'_>> {
    if bytes.len() < HEAD {
        return None;
    }
    let length = record_length(number(bytes, 3))?;
    let is_refused = |record: &[u8]| PassList::from_bytes(&[&bytes[..5], &[1, 0], record].concat()).is_err();
    let mut records = bytes[HEAD..].chunks_exact(length).enumerate();
    let (place, record) = records.find(|(_, record)| is_refused(record))?;
    Some(Record { pass: place + 1, at: HEAD + place * length, bytes: record })
}

impl Record<'_> {
    fn reason(&self, refusal: Refusal) -> String {
        let Record { pass, bytes, .. } = self;
        match refusal {
            Refusal::Rule if bytes[2] > 2 => {
                let rules = "0 is plain, 1 limited, 2 affine";
                format!("pass {pass} has the rule {}, {}: {rules}", bytes[2], self.place(2))
            }
            Refusal::Rule => match self.set() {
                Some(at) => format!("pass {pass} has {} {}, where 0 is due", bytes[at], self.place(at)),
                None => format!("pass {pass}: {}", refusal.reason()),
            },
            Refusal::Neighbours => {
                format!("pass {pass} has {} neighbours, {}: 4 or 8 are possible", bytes[12], self.place(12))
            }
            _ => format!("pass {pass}: {}", refusal.reason()),
        }
    }

    /// The first byte that has to be 0 and is not: that of the segments for plain and limited, limited's second number,
    /// and the last bytes in version 2.
    fn set(&self) -> Option<usize> {
        let zeros: &[usize] = match self.bytes[2] {
            0 => &[3],
            1 => &[3, 10, 11],
            _ => &[],
        };
        zeros.iter().copied().chain(13..self.bytes.len()).find(|&at| self.bytes[at] != 0)
    }

    /// The place of one of its bytes in the file.
    fn place(&self, at: usize) -> String {
        format!("at byte {}", grouped(self.at + at + 1))
    }
}

#[cfg(test)]
mod tests {
    use super::*;

    /// Two passes on [0, 127], the first plain and the second limited, in version 2.
    const LIST: [u8; 39] = *b"MLP\x02\0\x02\0\0\x7f\0\0\x01\0\0\0\0\0\x9c\x63\x04\0\0\0\
        \0\x7f\x01\0\x01\0\0\0\x0a\0\0\0\x08\0\0\0";

    fn of(changes: &[(usize, u8)]) -> String {
        let mut bytes = LIST;
        changes.iter().for_each(|&(at, byte)| bytes[at] = byte);
        reason(PassList::from_bytes(&bytes).unwrap_err(), &bytes)
    }

    #[test]
    fn heads() {
        let of = |bytes: &[u8]| reason(PassList::from_bytes(bytes).unwrap_err(), bytes);
        assert_eq!(of(b""), "the file is empty: copy it again");
        assert_eq!(of(b"MLP\x01\0"), "the file ends in the head of a list, after 5 of 7 bytes: copy it again");
        assert_eq!(of(b"MLP\x03\0\0\0"), "its version is 3, and lists of version 1 and 2 are read");
        assert_eq!(of(b"MLP\x02\x01\0\0"), "its version is 258, and lists of version 1 and 2 are read");
        assert_eq!(of(b"MLQ\x01\0\0\0"), "no pass list, for it does not begin with MLP");
        assert!(of(b"0 127 20 limited 40\n").starts_with("no pass list but text: zopykue list --text "));
        assert_eq!(of(b"MLP\x01\0\x41\x01"), "it is to have 321 passes, and 320 fit");
        assert_eq!(of(b"MLP\x02\0\0\x04"), "it is to have 1,024 passes, and 320 fit");
        let due = |words: &str| format!("{words} are there: copy it again");
        assert_eq!(of(b"MLP\x01\0\x01\0"), due("19 bytes are due for 1 pass in version 1, and 7"));
        assert_eq!(of(&LIST[..38]), due("39 bytes are due for 2 passes in version 2, and 38"));
        assert_eq!(of(b"MLP\x02\0\x40\x01"), due("5,127 bytes are due for 320 passes in version 2, and 7"));
    }

    #[test]
    fn records() {
        assert_eq!(of(&[(9, 3)]), "pass 1 has the rule 3, at byte 10: 0 is plain, 1 limited, 2 affine");
        assert_eq!(of(&[(25, 255)]), "pass 2 has the rule 255, at byte 26: 0 is plain, 1 limited, 2 affine");
        assert_eq!(of(&[(10, 1)]), "pass 1 has 1 at byte 11, where 0 is due");
        assert_eq!(of(&[(34, 7)]), "pass 2 has 7 at byte 35, where 0 is due");
        assert_eq!(of(&[(37, 1), (38, 2)]), "pass 2 has 1 at byte 38, where 0 is due");
        assert_eq!(of(&[(35, 6)]), "pass 2 has 6 neighbours, at byte 36: 4 or 8 are possible");
        assert_eq!(of(&[(19, 0), (35, 6)]), "pass 1 has 0 neighbours, at byte 20: 4 or 8 are possible");
        assert_eq!(of(&[(23, 200)]), "pass 2: the interval's lower end is above its upper end");
        assert_eq!(of(&[(11, 0)]), "pass 1: the least area is 0 or above 1,048,576");
        let mut first = *b"MLP\x01\0\x01\0\0\x7f\x01\0\x01\0\0\0\x0a\0\0\x02";
        assert_eq!(reason(Refusal::Rule, &first), "pass 1 has 2 at byte 19, where 0 is due");
        first[9] = 4;
        assert_eq!(reason(Refusal::Rule, &first), "pass 1 has the rule 4, at byte 10: 0 is plain, 1 limited, 2 affine");
    }

    #[test]
    fn eight_neighbours() {
        let list = PassList::from_bytes(&LIST).unwrap();
        let words = reason(list.converted().unwrap_err(), &LIST);
        assert_eq!(words, "pass 2 has eight neighbours, for which version 1 has no place");
    }
}
