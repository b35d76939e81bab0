//! Test cases in files: how a case is stored and which line answers it. `src/bin/vectors` makes the stored ones.
//!
//! # A case
//!
//! A file is a sequence of cases with nothing before, between or after them. A case has a head of 38 bytes, then
//! `bytes`, then `plane`; the next case starts at 38 + length of bytes + length of plane. Numbers are stored low byte
//! first. A call uses the fields that it needs; the others are there and mean nothing.
//!
//! | At | Size | Field |
//! |---|---|---|
//! | 0 | 1 | kind: 0 to 10, as the table of the lines below has them |
//! | 1 | 1 | a |
//! | 2 | 1 | b |
//! | 3 | 1 | rule: 0 plain, 1 limited, 2 affine; no other number occurs |
//! | 4 | 2 | low of the plain rule, k of the limited rule, or smin of the affine rule |
//! | 6 | 2 | high of the plain rule, 0, or smax of the affine rule |
//! | 8 | 4 | least area |
//! | 12 | 1 | L, the last level |
//! | 13 | 1 | same plane: 1 if the plane is the one that the case before left, else 0 |
//! | 14 | 2 | length of marks |
//! | 16 | 2 | length of queue |
//! | 18 | 2 | length of output |
//! | 20 | 4 | w |
//! | 24 | 4 | h |
//! | 28 | 4 | pixel limit of the reader |
//! | 32 | 2 | length of bytes, at most 16,416 |
//! | 34 | 2 | length of plane, at most 288 |
//! | 36 | 1 | N of the affine rule, else 0 |
//! | 37 | 1 | number of neighbours |
//! | 38 | | bytes: the frame (0, 2, 3, 9), the list (4, 10), the passes (5), the input (6, 8) or the raster (7) |
//! | | | plane: the plane's bytes before the call (0 to 5, 9) |
//!
//! An enhancement with the house setting (kind 9) has no settings in its head: it is made with those that the house
//! setting's constructor gives, and its line ends with what the house setting's constants are. The head's own settings
//! would be refused.
//!
//! Passes in memory (kind 5) are given by 13 bytes each: a, b, rule (0 to 2), N of the affine rule or 0, area (4
//! bytes), then low and high, k and 0, or smin and smax (2 bytes each), and the number of neighbours (1 byte). The
//! list in memory has as many passes as `bytes` has thirteens. A list of bytes (kinds 4 and 10) is of either version,
//! and has its numbers of neighbours in its own bytes.
//!
//! # Running a case
//!
//! 1. If `same plane` is 0, the plane becomes the case's plane; its length is the length of that field. If it is 1,
//!    the field is empty, and the plane and its length are as the case before left them. The first case has 0.
//! 2. marks gets its length (at most 320), entry i being (i + 1) mod 256; queue its length (at most 320), entry i
//!    being 3 × i + 5; output its length (at most 3,200, for kind 10 at most 16,400), every byte being 170.
//! 3. The call is made with parts of exactly these lengths.
//! 4. A line is printed, ended by LF:
//!
//! | Kind | Line after acceptance | Line after refusal N |
//! |---|---|---|
//! | 0 intensity | `+0 PLANE` | `-N PLANE` |
//! | 1 pass, 4 list, 5 passes | `+RETONED KEPT PLANE STRAYS` | `-N PLANE STRAYS` |
//! | 2 recolour | `+0 OUTPUT` | `-N OUTPUT` |
//! | 3 enhance | `+RETONED KEPT PLANE OUTPUT STRAYS` | `-N PLANE OUTPUT STRAYS` |
//! | 6 read | `+W H OFFSET` | `-N` |
//! | 7 write, 10 convert | `+LENGTH OUTPUT` | `-N OUTPUT` |
//! | 8 program | `OUTPUT` | `OUTPUT` |
//! | 9 house | `+RETONED KEPT PLANE OUTPUT STRAYS HOUSE` | `-N PLANE OUTPUT STRAYS HOUSE` |
//!
//! One space stands between the parts, also where a part is empty. Numbers are decimal. RETONED and KEPT are the two
//! counts of the components of sufficient area: those retoned, and those kept back. PLANE and OUTPUT are all bytes of
//! the lent plane and of the lent output after the call, as two lower-case hexadecimal digits each; the program's
//! OUTPUT is what it would print, be it a frame or `refused N` and LF. STRAYS is the number of entries of marks and
//! queue that had to stay and did not: after acceptance those from w × h on, after refusal all of them. It is 0. HOUSE
//! is `L AREA LOW HIGH NEIGHBOURS`, the numbers of the house setting.

use crate::{convert, enhance, intensity, list_bytes_of, pass, program, read, recolour, run_list, run_passes, write};
use crate::{Counts, Pass, Rule, Settings, Version};

/// The length of a case's head.
pub const HEAD: usize = 38;

/// The length of a pass in memory.
pub const PASS: usize = 13;

/// The greatest lengths that a case may have. The last two are those of an output, of `convert` and of other calls.
pub const GREATEST_BYTES: usize = 16_416;
pub const GREATEST_PLANE: usize = 288;
pub const GREATEST_MEMORY: usize = 320;
pub const GREATEST_CONVERTED: usize = 16_400;
pub const GREATEST_OUTPUT: usize = 3_200;

/// What every byte of an output is before the call.
pub const OUTPUT_FILL: u8 = 170;

/// The call that a case makes. The stored number is the place in this list, from 0 on.
#[derive(Clone, Copy, Debug, PartialEq, Eq, PartialOrd, Ord)]
pub enum Kind {
    Intensity,
    Pass,
    Recolour,
    Enhance,
    List,
    Passes,
    Read,
    Write,
    Program,
    House,
    Convert,
}

impl Kind {
    pub const ALL: [Kind; 11] = [
        Kind::Intensity,
        Kind::Pass,
        Kind::Recolour,
        Kind::Enhance,
        Kind::List,
        Kind::Passes,
        Kind::Read,
        Kind::Write,
        Kind::Program,
        Kind::House,
        Kind::Convert,
    ];
}

/// One case. A call uses the fields that it needs.
#[derive(Clone, Debug, PartialEq, Eq)]
pub struct Case {
    pub kind: Kind,
    pub a: u8,
    pub b: u8,
    pub rule: u8,
    pub segments: u8,
    pub numbers: [u16; 2],
    pub neighbours: u8,
    pub area: u32,
    pub last_level: u8,
    pub same_plane: bool,
    pub marks: u16,
    pub queue: u16,
    pub output: u16,
    pub w: u32,
    pub h: u32,
    pub limit: u32,
    pub bytes: Vec<u8>,
    pub plane: Vec<u8>,
}

/// The case as it is stored.
pub fn encode(case: &Case) -> Vec<u8> {
    let kind = Kind::ALL.iter().position(|&kind| kind == case.kind).expect("a kind");
    let length = |bytes: &[u8]| u16::try_from(bytes.len()).expect("a 16-bit length").to_le_bytes();
    let mut stored = vec![kind as u8, case.a, case.b, case.rule];
    stored.extend(case.numbers[0].to_le_bytes());
    stored.extend(case.numbers[1].to_le_bytes());
    stored.extend(case.area.to_le_bytes());
    stored.extend([case.last_level, u8::from(case.same_plane)]);
    stored.extend(case.marks.to_le_bytes());
    stored.extend(case.queue.to_le_bytes());
    stored.extend(case.output.to_le_bytes());
    stored.extend(case.w.to_le_bytes());
    stored.extend(case.h.to_le_bytes());
    stored.extend(case.limit.to_le_bytes());
    stored.extend(length(&case.bytes));
    stored.extend(length(&case.plane));
    stored.extend([case.segments, case.neighbours]);
    assert_eq!(stored.len(), HEAD);
    stored.extend(&case.bytes);
    stored.extend(&case.plane);
    stored
}

/// The first case of a file and the rest of the file. Files are made by `encode`, so what is wrong here is a mistake
/// of the test and ends it.
pub fn decode(file: &[u8]) -> (Case, &[u8]) {
    let short = |at: usize| u16::from_le_bytes([file[at], file[at + 1]]);
    let long = |at: usize| u32::from(short(at)) + 65_536 * u32::from(short(at + 2));
    let bytes_end = HEAD + usize::from(short(32));
    let plane_end = bytes_end + usize::from(short(34));
    let case = Case {
        kind: Kind::ALL[usize::from(file[0])],
        a: file[1],
        b: file[2],
        rule: file[3],
        segments: file[36],
        numbers: [short(4), short(6)],
        neighbours: file[37],
        area: long(8),
        last_level: file[12],
        same_plane: file[13] == 1,
        marks: short(14),
        queue: short(16),
        output: short(18),
        w: long(20),
        h: long(24),
        limit: long(28),
        bytes: file[HEAD..bytes_end].to_vec(),
        plane: file[bytes_end..plane_end].to_vec(),
    };
    (case, &file[plane_end..])
}

/// All cases of a file.
pub fn cases(file: &[u8]) -> Vec<Case> {
    let mut cases = Vec::new();
    let mut rest = file;
    while !rest.is_empty() {
        let (case, after) = decode(rest);
        cases.push(case);
        rest = after;
    }
    cases
}

/// The lines that answer the cases of a file.
pub fn answers(file: &[u8]) -> String {
    let mut plane = Vec::new();
    cases(file).iter().map(|case| answer(case, &mut plane) + "\n").collect()
}

/// The line that answers a case. The plane is the one that the case before left.
fn answer(case: &Case, plane: &mut Vec<u8>) -> String {
    if !case.same_plane {
        plane.clone_from(&case.plane);
    }
    let mut output = vec![OUTPUT_FILL; usize::from(case.output)];
    let (w, h) = (case.w as usize, case.h as usize);
    let (marks, queue) = (usize::from(case.marks), usize::from(case.queue));
    let (rule, neighbours) = (rule_of(case.rule, case.segments, case.numbers), case.neighbours);
    // Here marks and queue are lengths alone, so no entry of them can have changed.
    let strays = 0;
    match case.kind {
        Kind::Intensity => {
            let done = intensity(&case.bytes, w, h, plane).map(|()| 0);
            format!("{} {}", number(done), hex(plane))
        }
        Kind::Pass => {
            let settings = Pass { a: case.a, b: case.b, area: case.area, rule, neighbours };
            let answer = pass(plane, marks, queue, w, h, &settings);
            format!("{} {} {strays}", counts(answer), hex(plane))
        }
        Kind::Recolour => {
            let done = recolour(&case.bytes, w, h, plane, &mut output).map(|()| 0);
            format!("{} {}", number(done), hex(&output))
        }
        Kind::Enhance => {
            let settings = Settings { last_level: u32::from(case.last_level), area: case.area, rule, neighbours };
            let answer = enhance(&case.bytes, w, h, &settings, plane, marks, queue, &mut output);
            format!("{} {} {} {strays}", counts(answer), hex(plane), hex(&output))
        }
        Kind::List => {
            let answer = run_list(&case.bytes, plane, marks, queue, w, h);
            format!("{} {} {strays}", counts(answer), hex(plane))
        }
        Kind::Passes => {
            let answer = run_passes(&passes_of(&case.bytes), plane, marks, queue, w, h);
            format!("{} {} {strays}", counts(answer), hex(plane))
        }
        Kind::Read => match read(&case.bytes, case.limit as usize) {
            Ok(frame) => format!("+{} {} {}", frame.w, frame.h, frame.offset),
            Err(refusal) => format!("-{refusal}"),
        },
        Kind::Write => {
            let length = write(&case.bytes, w, h, &mut output).map(|length| length as u64);
            format!("{} {}", number(length), hex(&output))
        }
        Kind::Program => hex(&program(&case.bytes)),
        Kind::House => {
            let answer = enhance(&case.bytes, w, h, &Settings::HOUSE, plane, marks, queue, &mut output);
            format!("{} {} {} {strays} {}", counts(answer), hex(plane), hex(&output), numbers(&Settings::HOUSE))
        }
        Kind::Convert => {
            let length = convert(&case.bytes, &mut output).map(|length| length as u64);
            format!("{} {}", number(length), hex(&output))
        }
    }
}

/// The tone rule that a case or a pass in memory has.
pub fn rule_of(rule: u8, segments: u8, numbers: [u16; 2]) -> Rule {
    let [first, second] = numbers.map(u32::from);
    match rule {
        0 => Rule::Plain { low: first, high: second },
        1 => Rule::Limited { k: first },
        2 => Rule::Affine { segments: segments.into(), smin: first, smax: second },
        _ => panic!("no case has the rule {rule}"),
    }
}

/// The passes of a list in memory, from their bytes.
pub fn passes_of(bytes: &[u8]) -> Vec<Pass> {
    bytes.chunks(PASS).map(pass_of).collect()
}

/// A pass of a list in memory, from its 13 bytes.
fn pass_of(bytes: &[u8]) -> Pass {
    let short = |at: usize| u16::from_le_bytes([bytes[at], bytes[at + 1]]);
    let area = u32::from(short(4)) + 65_536 * u32::from(short(6));
    let rule = rule_of(bytes[2], bytes[3], [short(8), short(10)]);
    Pass { a: bytes[0], b: bytes[1], area, rule, neighbours: bytes[12] }
}

/// The bytes of the passes of a list in memory: of each a record of version 2 without its zero bytes at the end.
pub fn passes_bytes(passes: &[Pass]) -> Vec<u8> {
    let record = |&pass: &Pass| list_bytes_of(Version::Two, &[pass])[7..][..PASS].to_vec();
    passes.iter().flat_map(record).collect()
}

/// The numbers of settings with the plain rule, which the house setting is.
fn numbers(settings: &Settings) -> String {
    match settings.rule {
        Rule::Plain { low, high } => {
            format!("{} {} {low} {high} {}", settings.last_level, settings.area, settings.neighbours)
        }
        _ => panic!("the house setting is plain"),
    }
}

/// The two counts of an answer, or its refusal, with a sign.
fn counts(answer: Result<Counts, u8>) -> String {
    match answer {
        Ok(Counts { retoned, kept }) => format!("+{retoned} {kept}"),
        Err(refusal) => format!("-{refusal}"),
    }
}

/// The number of an answer, with its sign.
fn number(answer: Result<u64, u8>) -> String {
    match answer {
        Ok(number) => format!("+{number}"),
        Err(refusal) => format!("-{refusal}"),
    }
}

/// Two lower-case hexadecimal digits for each byte.
fn hex(bytes: &[u8]) -> String {
    bytes.iter().map(|byte| format!("{byte:02x}")).collect()
}
