//! Small planes for tests and stored cases, written as pictures.

/// The columns and the values of a picture, whose rows have one length. A digit is ten times itself, a point 200 and a
/// comma 220.
pub fn drawn(picture: &[&str]) -> (usize, Vec<u8>) {
    let value = |byte: u8| match byte {
        b'.' => 200,
        b',' => 220,
        digit => 10 * (digit - b'0'),
    };
    (picture[0].len(), picture.iter().flat_map(|row| row.bytes().map(value)).collect())
}
