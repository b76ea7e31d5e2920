//! Strings of a file: characters of one to four bytes, and what is not UTF-8.

use super::rng::Rng;

/// The first and the last character of one, two, three and four bytes; those of three bytes have the surrogates among
/// them, which are no characters.
const CHARACTERS: [[char; 2]; 5] = [
    ['\u{1}', '\u{7f}'],
    ['\u{80}', '\u{7ff}'],
    ['\u{800}', '\u{d7ff}'],
    ['\u{e000}', '\u{ffff}'],
    ['\u{10000}', '\u{10ffff}'],
];

/// Not UTF-8, whatever characters stand before and behind.
const FAULTS: [&[u8]; 32] = [
    // the later bytes of a character alone
    b"\x80",
    b"\xbf",
    b"\x9f\x90\x80",
    // characters cut short
    b"\xc2",
    b"\xdf",
    b"\xe0\xa0",
    b"\xe9",
    b"\xed\x9f",
    b"\xef\xbf",
    b"\xf0\x90\x80",
    b"\xf1\xbf",
    b"\xf4\x8f\xbf",
    // longer than need be
    b"\xc0\x80",
    b"\xc0\xaf",
    b"\xc1\xbf",
    b"\xe0\x80\x80",
    b"\xe0\x81\xbf",
    b"\xe0\x9f\xbf",
    b"\xf0\x80\x80\x80",
    b"\xf0\x80\x81\xbf",
    b"\xf0\x8f\xbf\xbf",
    // surrogates, alone and as a pair
    b"\xed\xa0\x80",
    b"\xed\xaf\xbf",
    b"\xed\xb0\x80",
    b"\xed\xbf\xbf",
    b"\xed\xa0\xbd\xed\xb8\x80",
    // above U+10FFFF
    b"\xf4\x90\x80\x80",
    b"\xf5\x80\x80\x80",
    b"\xf7\xbf\xbf\xbf",
    b"\xf8\x88\x80\x80\x80",
    b"\xfe",
    b"\xff",
];

/// The bytes of a string, none of them 0: mostly UTF-8, seldom with one fault, seldom any bytes.
pub fn text(rng: &mut Rng) -> Vec<u8> {
    let length = rng.pick(&[0, 1, 3, 8, 15, 40]);
    match rng.below(8) {
        0 => (0..length).map(|_| rng.between(1, 255) as u8).collect(),
        1 => {
            let before = rng.between(0, length);
            [utf8(rng, before), rng.pick(&FAULTS).to_vec(), utf8(rng, length - before)].concat()
        }
        _ => utf8(rng, length),
    }
}

/// So many characters, in half of the cases hardly any but ASCII.
fn utf8(rng: &mut Rng, length: usize) -> Vec<u8> {
    let plain = rng.one_in(2);
    let mut one = || {
        let [first, last] = if plain && !rng.one_in(12) { CHARACTERS[0] } else { rng.pick(&CHARACTERS) };
        match rng.below(4) {
            0 => first,
            1 => last,
            _ => char::from_u32(rng.between(first as usize, last as usize) as u32).expect("none is a surrogate"),
        }
    };
    (0..length).map(|_| one()).collect::<String>().into_bytes()
}
