//! What a person can do about a frame that is refused. The library decides that it is refused and by which number; the
//! words here are found by looking at the bytes once more.

use mlhe::Refusal;

/// First bytes of files that are no P6 frames.
const KINDS: [(&[u8], &str); 16] = [
    (b"\x89PNG", "a PNG picture"),
    (b"\xff\xd8\xff", "a JPEG picture"),
    (b"GIF8", "a GIF picture"),
    (b"II*\0", "a TIFF picture"),
    (b"MM\0*", "a TIFF picture"),
    (b"v/1\x01", "an OpenEXR picture"),
    (b"SDPX", "a DPX picture"),
    (b"XPDS", "a DPX picture"),
    (b"P1", "a PBM bitmap in text (P1)"),
    (b"P2", "a grey PGM picture in text (P2)"),
    (b"P3", "a PPM frame in text (P3)"),
    (b"P4", "a PBM bitmap (P4)"),
    (b"P5", "a grey PGM picture (P5)"),
    (b"P7", "a PAM picture (P7)"),
    (b"\xef\xbb\xbfP6", "one behind a byte order mark"),
    (b"\x1f\x8b", "compressed by gzip"),
];

/// How far a P6 header goes.
#[derive(Debug, PartialEq)]
pub enum Header {
    /// Width, height, the third number, and the place of the first byte after it.
    Whole { w: usize, h: usize, maxval: usize, offset: usize },
    /// The bytes end in the comment that begins here.
    Unended(usize),
    /// A number sign stands here, right after the third number.
    Comment(usize),
    /// The bytes end, and not in a comment.
    Ends,
    /// A byte that a header does not have here.
    Odd(usize),
}

/// Reads the header of bytes that begin with P6.
pub fn header(bytes: &[u8]) -> Header {
    let mut at = 2;
    let mut numbers = [0; 3];
    for number in &mut numbers {
        let after_number = at;
        at = match after_gap(bytes, at) {
            Ok(place) => place,
            Err(comment) => return Header::Unended(comment),
        };
        let digits = count(&bytes[at..], |byte| byte.is_ascii_digit());
        match bytes.get(at) {
            None => return Header::Ends,
            _ if at == after_number || digits == 0 || digits > 6 => return Header::Odd(at),
            _ => *number = bytes[at..at + digits].iter().fold(0, |sum, digit| 10 * sum + usize::from(digit - b'0')),
        }
        at += digits;
    }
    let [w, h, maxval] = numbers;
    match bytes.get(at) {
        None => Header::Ends,
        Some(b'#') => Header::Comment(at),
        Some(&byte) if is_white(byte) => Header::Whole { w, h, maxval, offset: at + 1 },
        _ => Header::Odd(at),
    }
}

/// Whether the bytes begin with P6 and end in the header.
pub fn ends_in_header(bytes: &[u8]) -> bool {
    bytes.starts_with(b"P6") && matches!(header(bytes), Header::Ends | Header::Unended(_))
}

/// The place after whitespace and comments, or that of a comment that does not end.
fn after_gap(bytes: &[u8], mut at: usize) -> Result<usize, usize> {
    loop {
        at += count(&bytes[at..], is_white);
        if bytes.get(at) != Some(&b'#') {
            return Ok(at);
        }
        at += comment(&bytes[at..]).ok_or(at)?;
    }
}

/// The length of the comment that the bytes begin with, up to and including its LF or CR.
fn comment(bytes: &[u8]) -> Option<usize> {
    let rest = bytes.strip_prefix(b"#")?;
    rest.iter().position(|&byte| matches!(byte, b'\n' | b'\r')).map(|end| end + 2)
}

fn count(bytes: &[u8], holds: impl Fn(u8) -> bool) -> usize {
    bytes.iter().take_while(|&&byte| holds(byte)).count()
}

fn is_white(byte: u8) -> bool {
    matches!(byte, b'\t'..=b'\r' | b' ')
}

/// Why a file is refused, and what to do. The length is that of the whole file, of which the bytes are the first ones.
pub fn reason(refusal: Refusal, bytes: &[u8], length: u64) -> String {
    let known = if bytes.starts_with(b"P6") { Some(header(bytes)) } else { None };
    match (refusal, known) {
        (Refusal::Header, known) => no_header(bytes, known),
        (Refusal::Maxval, Some(Header::Whole { maxval: maxval @ 256..=65_535, .. })) => {
            format!("16-bit: save with 8 bits (the third number is {maxval}, and has to be 255)")
        }
        (Refusal::Maxval, Some(Header::Whole { maxval, .. })) => {
            format!("the third number is {maxval}, and has to be 255: save with 8 bits")
        }
        (Refusal::Sides, Some(Header::Whole { w, h, .. })) => {
            format!("{w} x {h}: sides are 1 to 4,096; nothing is done for other frames")
        }
        (Refusal::Pixels, Some(Header::Whole { w, h, .. })) => format!(
            "{w} x {h} is {} pixels, and 1,048,576 fit, as 1280 x 720 or 1024 x 1024: scale it down; tiles would break \
             the guarantee",
            grouped(w * h)
        ),
        (Refusal::Raster, Some(Header::Whole { w, h, offset, .. })) => format!(
            "cut: {} of {} bytes are there; copy it again",
            grouped(length as usize),
            grouped(3 * w * h + offset)
        ),
        (Refusal::Trailing, Some(Header::Whole { w, h, offset, .. })) => {
            let rest = length as usize - (3 * w * h + offset);
            if comment(&bytes[offset..]) == Some(rest) {
                let words = "a comment (#) after the third number, where the raster begins";
                return format!("{words}: save it without that comment");
            }
            trailing(&bytes[3 * w * h + offset..], rest)
        }
        (refusal, _) => refusal.reason().to_owned(),
    }
}

fn no_header(bytes: &[u8], known: Option<Header>) -> String {
    let saving = "save it as binary PPM (P6) with 8 bits";
    if bytes.is_empty() {
        return "the file is empty: copy it again".to_owned();
    }
    match known {
        Some(Header::Unended(at)) => {
            let words = format!("the comment (#) at byte {} never ends", grouped(at + 1));
            return format!("{words}: copy it again, or save it with an end of line (LF or CR) after the comment");
        }
        Some(Header::Comment(at)) => {
            let words = format!("a comment (#) at byte {}, right after the third number", grouped(at + 1));
            return format!("{words}, where one whitespace byte is due: save it without that comment");
        }
        Some(Header::Ends) => return "the file ends in its header: copy it again".to_owned(),
        Some(Header::Odd(at)) => {
            let byte = bytes[at].escape_ascii();
            return format!("malformed header, '{byte}' at byte {}: {saving}", grouped(at + 1));
        }
        _ => {}
    }
    let kind = KINDS.iter().find(|(first, _)| bytes.starts_with(first)).map(|&(_, kind)| kind);
    match kind {
        Some("compressed by gzip") => "no P6 frame but compressed by gzip: unpack it".to_owned(),
        Some(kind) => format!("no P6 frame but {kind}: {saving}"),
        None if is_behind_comment(bytes) => {
            "a comment (#) before P6, with which a file has to begin: save it without that comment".to_owned()
        }
        None if is_text(bytes) => "no P6 frame but text".to_owned(),
        None => format!("no P6 frame, of an unknown kind: {saving}"),
    }
}

/// Whether comments stand before P6, with whitespace or without.
fn is_behind_comment(bytes: &[u8]) -> bool {
    bytes.starts_with(b"#") && after_gap(bytes, 0).is_ok_and(|at| bytes[at..].starts_with(b"P6"))
}

/// Whether the first bytes are text: no control codes but white space, and characters as UTF-8 has them.
pub fn is_text(bytes: &[u8]) -> bool {
    let first = &bytes[..bytes.len().min(512)];
    let sound = match std::str::from_utf8(first) {
        Ok(_) => true,
        Err(error) => error.error_len().is_none() && bytes.len() > first.len(),
    };
    sound && first.iter().all(|&byte| is_white(byte) || (byte >= b' ' && byte != 0x7f))
}

fn trailing(rest: &[u8], length: usize) -> String {
    if rest.starts_with(b"P6") {
        return "more than one frame in the file: split it".to_owned();
    }
    let bytes = if length == 1 { "1 byte stands".to_owned() } else { format!("{} bytes stand", grouped(length)) };
    format!("{bytes} after the raster: save it again")
}

/// A number with commas.
pub fn grouped(number: usize) -> String {
    let digits = number.to_string();
    let groups: Vec<String> =
        digits.as_bytes().rchunks(3).rev().map(|group| group.escape_ascii().to_string()).collect();
    groups.join(",")
}

#[cfg(test)]
mod tests {
    use super::*;
    use mlhe::Frame;

    fn of(bytes: &[u8]) -> String {
        reason(Frame::from_p6(bytes).unwrap_err(), bytes, bytes.len() as u64)
    }

    #[test]
    fn headers_are_told_apart() {
        assert_eq!(header(b"P6 2 3 255 "), Header::Whole { w: 2, h: 3, maxval: 255, offset: 11 });
        assert_eq!(header(b"P6 2 3 255"), Header::Ends);
        assert_eq!(header(b"P6"), Header::Ends);
        assert_eq!(header(b"P6\n# made\n2 3 255 "), Header::Whole { w: 2, h: 3, maxval: 255, offset: 18 });
        assert_eq!(header(b"P6#\r\n#\n2#x\r3#3 255 \n15 #"), Header::Whole { w: 2, h: 3, maxval: 15, offset: 23 });
        assert_eq!(header(b"P6#\n"), Header::Ends);
        assert_eq!(header(b"P6#\n2 "), Header::Ends);
        assert_eq!(header(b"P6#"), Header::Unended(2));
        assert_eq!(header(b"P6 #\n2 # 3 255 "), Header::Unended(7));
        assert_eq!(header(b"P6 2 3 255#\n"), Header::Comment(10));
        assert_eq!(header(b"P6 #\n,2 3 255 "), Header::Odd(5));
        assert_eq!(header(b"P62 3 255 "), Header::Odd(2));
        assert_eq!(header(b"P6 2,3 255 "), Header::Odd(4));
        assert_eq!(header(b"P6 1234567 3 255 "), Header::Odd(3));
    }

    #[test]
    fn a_person_is_told_what_to_do() {
        for (bytes, words) in [
            (&b""[..], "the file is empty"),
            (b"\x89PNG\r\n\x1a\n", "a PNG picture: save it as binary PPM (P6)"),
            (b"\xff\xd8\xff\xe0", "a JPEG picture"),
            (b"P3 1 1 255 1 2 3", "a PPM frame in text (P3)"),
            (b"P5 1 1 255 a", "a grey PGM picture (P5)"),
            (b"notes on the shot\n", "but text"),
            (b"\x00\x01\x02", "of an unknown kind"),
            (b"P6\n# made by hand 1 1 255 abc", "the comment (#) at byte 4 never ends: copy it again"),
            (b"P6 1 1 #", "the comment (#) at byte 8 never ends"),
            (b"P6 1 1 255# made\nabc", "a comment (#) at byte 11, right after the third number, where one whitespace"),
            (b"P6 1 1 255\n# made\nabc", "a comment (#) after the third number, where the raster begins"),
            (b"P6 1 1 255\n# made\nabcd", "8 bytes stand after the raster"),
            (b"# made\n# by hand\r\nP6 1 1 255 abc", "a comment (#) before P6"),
            (b"# P6 1 1 255 abc", "but text"),
            (b"P6 # made\n1 1 25", "the file ends in its header"),
            (b"P6 # made\n1;1 255 abc", "malformed header, ';' at byte 12"),
            (b"P6 # made\n1 1 65535 abcdef", "16-bit: save with 8 bits"),
            (b"P6 # made\n2 1 255 abc", "cut: 21 of 24 bytes are there"),
            (b"P6 1 1 25", "the file ends in its header"),
            (b"P6 1;1 255 abc", "malformed header, ';' at byte 5"),
            (b"P6 1 1 65535 abcdef", "16-bit: save with 8 bits"),
            (b"P6 1 1 15 abc", "the third number is 15, and has to be 255: save with 8 bits"),
            (b"P6 1920 1080 255 ", "1920 x 1080 is 2,073,600 pixels, and 1,048,576 fit, as 1280 x 720 or 1024 x 1024"),
            (b"P6 5000 1 255 ", "5000 x 1: sides are 1 to 4,096"),
            (b"P6 2 1 255 abc", "cut: 14 of 17 bytes are there"),
            (b"P6 1 1 255 abcP6 1 1 255 abc", "more than one frame in the file"),
            (b"P6 1 1 255 abc\n", "1 byte stands after the raster"),
        ] {
            let reason = of(bytes);
            assert!(reason.contains(words), "{reason}: {words}");
        }
    }
}
