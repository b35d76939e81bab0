//! Cases of `read`, and frames that the program reads too.

use crate::chance::{random_plane, random_sides};
use crate::sound::sound;
use mlhe_reference::cases::{Case, Kind};
use mlhe_reference::header;
use mlhe_reference::random::Random;

/// A reading of these bytes.
fn reading(bytes: &[u8], limit: u32) -> Case {
    Case { limit, ..sound(Kind::Read, 0, 0, bytes.to_vec(), Vec::new()) }
}

/// Headers that no rule of the grammar makes, and some that look odd and are sound.
pub const HEADERS: [&[u8]; 44] = [
    b"",
    b"P",
    b"P6",
    b"P6 ",
    b"P6 1",
    b"P6 1 ",
    b"P6 1 1",
    b"P6 1 1 ",
    b"P6 1 1 255",
    b"P6 1 1 255 ",
    b"P5 1 1 255",
    b"P5 1 1 255 RGB",
    b"p6 1 1 255 RGB",
    b"6P 1 1 255 RGB",
    b" P6 1 1 255 RGB",
    b"P61 1 255 RGB",
    b"P6x1 1 255 RGB",
    b"P6\n1 1\n255\nRGB",
    b"P6\n1 1\n255\r\nGB",
    b"P6\n1 1\n255\r\nRGB",
    b"P6 \t\n\x0b\x0c\r1\r000001\x0c0255\x0bRGB",
    b"P6 01 001 000255 RGB",
    b"P6 1 1 0000255 RGB",
    b"P6 0000001 1 255 RGB",
    b"P6 1000000 1 255 RGB",
    b"P6 100000 1 255 RGB",
    b"P6 -1 1 255 RGB",
    b"P6 +1 1 255 RGB",
    b"P6 1,1 255 RGB",
    b"P6 1.0 1 255 RGB",
    b"P6 1 x 255 RGB",
    b"P6 # a\n1 1 255 RGB",
    b"P6\n#\n1 1 255 RGB",
    b"P6 1 1#255 RGB",
    b"P6 1 1 255#RGB",
    b"P6 1 1 255R",
    b"P6 1 1 \x08255 RGB",
    b"P6 1 1\x0e255 RGB",
    b"P6 1 1\x00255 RGB",
    b"P6 1 1\xA0255 RGB",
    b"P6 1 1:255 RGB",
    b"P6 1 1/255 RGB",
    b"P6 0 0 0 ",
    b"P6 999999 999999 999999 ",
];

/// Headers with number signs: comments of every kind at every place, and number signs that open none.
pub const COMMENTS: [&[u8]; 86] = [
    // At each place alone, glued to what is before it or not, and at all of them.
    b"P6#a\n1 1 255 RGB",
    b"P6\n#a\n1 1 255 RGB",
    b"P6 1#a\n1 255 RGB",
    b"P6 1 #a\n1 255 RGB",
    b"P6 1 1#a\n255 RGB",
    b"P6 1 1 #a\n255 RGB",
    b"P6#a\n1#b\n1#c\n255 RGB",
    b"P6 # a\n 1 # b\n 1 # c\n 255 RGB",
    b"P6 3# x\n2 24 ",
    b"P6 3# x\n2 255 RGBRGBRGBRGBRGBRGB",
    // Empty ones, several, and whitespace between them.
    b"P6#\n1 1 255 RGB",
    b"P6#\r1#\r1#\r255\rRGB",
    b"P6 #a\n#b\n1 1 255 RGB",
    b"P6#\n#\r#\n#\r1 1 255 RGB",
    b"P6 1#a\n#b\r#c\n1 255 RGB",
    b"P6 \t#a\n \x0b\x0c\r\n#b\r\n\t1 1 255 RGB",
    // What a comment holds: digits, headers, number signs, whitespace that ends none, NUL, bytes above 127.
    b"P6 # 7 9 255 \n1 1 255 RGB",
    b"P6 #P6 2 2 255 RGB\n1 1 255 RGB",
    b"P6 1 #1 255 RGB\n1 255 RGB",
    b"P6 ####\n1 1 255 RGB",
    b"P6 # # #\n1 1 255 RGB",
    b"P6 #\t\x0b\x0c 2\n1 1 255 RGB",
    b"P6 #\x00\x01\x08\x0e\x1f\x7f\n1 1 255 RGB",
    b"P6 #\x80\x85\x8a\x8d\xa0\xff\n1 1 255 RGB",
    // What ends one: CR alone, CR and LF, LF and CR.
    b"P6 #a\r1 1 255 RGB",
    b"P6 #a\r\n1 1 255 RGB",
    b"P6 #a\n\r1 1 255 RGB",
    b"P6 1 1#a\r\n255\r\nGB",
    b"P6 1 1#a\r\n255\r\nRGB",
    b"P6 #a\r#b\n1 1 255 RGB",
    b"P6 #a\r2 2\n1 1 255 RGB",
    // Ones that never end, at each place.
    b"P6#",
    b"P6 #",
    b"P6 ##",
    b"P6# 1 1 255 RGB",
    b"P6 # 1 1 255 RGB",
    b"P6 1#",
    b"P6 1 #",
    b"P6 1# 1 255 RGB",
    b"P6 1 # 1 255 RGB",
    b"P6 1 1#",
    b"P6 1 1 #",
    b"P6 1 1#255 RGB\t\x0b\x0c",
    b"P6 #a\n#b",
    b"P6 #a\n1 #b\r1 #c 255 RGB",
    // No number behind them, or none of 1 to 6 digits.
    b"P6 #a\n",
    b"P6#a\n#b\r",
    b"P6 1 #a\n",
    b"P6 1 1 #a\n",
    b"P6 1 1 #a\n ",
    b"P6 #a\nx1 1 255 RGB",
    b"P6 #a\n-1 1 255 RGB",
    b"P6 1#a\n,1 255 RGB",
    b"P6 #a\n0000001 1 255 RGB",
    b"P6 1 1 #a\n0000255 RGB",
    b"P6 0000001#a\n1 255 RGB",
    b"P6 000001#a\n000001#b\r000255 RGB",
    // Digits before and behind one are two numbers.
    b"P6 12#x\n3456 255 RGB",
    b"P6 1#x\n2 255 RGBRGB",
    b"P6 1#2\n2 255 RGBRGB",
    b"P6 1 1 2#x\n55 RGB",
    b"P6 1 1 25#\n5 RGB",
    b"P6 123#\n456 7#\n255 RGB",
    // After the third number.
    b"P6 1 1 255#",
    b"P6 1 1 255# ",
    b"P6 1 1 255#\n",
    b"P6 1 1 255#x\nRGB",
    b"P6 1 1 255# RGB",
    b"P6#\n1#\n1#\n255#\nRGB",
    // After the byte that ends the header there is raster.
    b"P6 1 1 255 #",
    b"P6 1 1 255 #GB",
    b"P6 1 1 255\n#x\n",
    b"P6 1 1 255\n#x\nRGB",
    b"P6 1 1 255\n###",
    // Before and in P6.
    b"#a\nP6 1 1 255 RGB",
    b"#P6 1 1 255 RGB",
    b"P#6 1 1 255 RGB",
    b"P#a\n6 1 1 255 RGB",
    b"P5#a\n1 1 255 RGB",
    // Bytes that open none.
    b"P6 ;a\n1 1 255 RGB",
    b"P6 \"a\n1 1 255 RGB",
    b"P6 $a\n1 1 255 RGB",
    b"P6 \xa3a\n1 1 255 RGB",
    // Numbers at their limits behind them.
    b"P6#\n0#\n0#\n0 ",
    b"P6#\n999999#\n999999#\n999999 ",
    b"P6#\n4097#\n1#\n15#",
];

/// Frames of one pixel with hundreds of comments and with a long one, and a long one that never ends.
pub fn long_comments() -> [Vec<u8>; 4] {
    let [first, second, third] = ["# a\r\n", "#\r \n", "#7\n"].map(|comment| comment.repeat(150));
    [
        format!("P6{}1 1 255 RGB", "#\n".repeat(700)),
        format!("P6{first}1{second}1{third}255 RGB"),
        format!("P6 #{}\n1 1 255 RGB", "P6".repeat(2_000)),
        format!("P6 1 1 #{}", " 255".repeat(1_000)),
    ]
    .map(String::into_bytes)
}

pub fn cases() -> Vec<Case> {
    let most = 1_048_576;
    let mut cases: Vec<Case> = HEADERS.iter().map(|bytes| reading(bytes, most)).collect();
    // Sides, third number, what follows it, and the raster, each right and wrong.
    let sides = ["1 1", "0 1", "1 0", "4097 1", "1 4097", "4096 257", "129 128", "128 128"];
    for sides in sides {
        for third in ["255", "15", "256"] {
            for (end, raster) in [(" ", "RGB"), (" ", ""), (" ", "RG"), (" ", "RGBR"), ("", ""), ("x", "RGB")] {
                cases.push(reading(format!("P6 {sides} {third}{end}{raster}").as_bytes(), 16_384));
            }
        }
    }
    for limit in [0, 1, 5, 6, 7] {
        let mut bytes = b"P6 3 2 255 ".to_vec();
        bytes.extend([9; 18]);
        cases.push(reading(&bytes, limit));
    }
    cases.push(reading(&[header(1_000, 1), vec![1; 3_000]].concat(), most));
    cases.push(reading(&[header(1, 1_000), vec![1; 2_999]].concat(), most));
    let mut random = Random::new(80);
    for _ in 0..400 {
        cases.push(reading(&random_frame(&mut random, false), most));
    }
    cases.extend(COMMENTS.iter().map(|bytes| reading(bytes, most)));
    cases.extend(long_comments().iter().map(|bytes| reading(bytes, most)));
    // Each refusal behind comments, at its place in the order.
    for [w, h] in [["1", "1"], ["0", "1"], ["4097", "1"], ["4096", "257"], ["129", "128"]] {
        for third in ["255", "15"] {
            for end in [" RGB", " RG", " RGBR", " ", "", "#", "#\nRGB"] {
                cases.push(reading(format!("P6#\n{w}# 1\n{h} #\r\n{third}{end}").as_bytes(), 16_384));
            }
        }
    }
    let mut random = Random::new(81);
    for _ in 0..300 {
        cases.push(reading(&random_frame(&mut random, true), most));
    }
    cases
}

/// A frame of at most 4 by 3 pixels with an unusual header, sound or damaged at some places; with comments or without.
pub fn random_frame(random: &mut Random, comments: bool) -> Vec<u8> {
    let (w, h) = random_sides(random, 4, 3);
    let mut bytes = b"P6".to_vec();
    for number in [w, h, 255] {
        for _ in 0..random.one_of(&[1, 1, 1, 2, 3]) {
            if comments && random.below(2) == 0 {
                let length = random.one_of(&[0, 1, 2, 5]);
                bytes.extend(random.comment(length));
            } else {
                bytes.push(random.one_of(b" \t\n\x0b\x0c\r"));
            }
        }
        let zeros = random.one_of(&[0, 0, 0, 1, 2, 5]).min(6 - number.to_string().len());
        bytes.extend(vec![b'0'; zeros]);
        bytes.extend(number.to_string().bytes());
    }
    bytes.push(random.one_of(b" \t\n\x0b\x0c\r"));
    let head = bytes.len();
    bytes.extend(random_plane(random, w, 3 * w * h));
    for _ in 0..random.one_of(&[0, 0, 1, 1, 1, 2]) {
        let at = random.below(head.min(bytes.len()));
        let byte = random.one_of(b" \t\n\x0b\x0c\r\x00\x08\x0e\xFF#+-./0123456789:P6x");
        match random.below(5) {
            0 => drop(bytes.remove(at)),
            1 => bytes.insert(at, byte),
            2 => bytes.truncate(bytes.len() - random.between(1, 3)),
            3 => bytes.push(byte),
            _ => bytes[at] = byte,
        }
    }
    bytes
}
