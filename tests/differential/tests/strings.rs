//! The library and the reader over strings: all of one and of two bytes, and all of three and of four at the edges of
//! RFC 3629's ranges. How many of them are UTF-8 was counted by hand.

use differential::gen::large;
use differential::{by_reader, ffi};

/// The first and the last byte of each range of the grammar but NUL, their neighbours outside, and the greatest byte.
const EDGES: [u8; 24] = [
    0x01, 0x7f, 0x80, 0x8f, 0x90, 0x9f, 0xa0, 0xbf, 0xc0, 0xc1, 0xc2, 0xdf, 0xe0, 0xe1, 0xec, 0xed, 0xee, 0xef, 0xf0,
    0xf1, 0xf3, 0xf4, 0xf5, 0xff,
];

/// All strings of so many of these bytes.
fn strings(of: &[u8], length: usize) -> Vec<Vec<u8>> {
    if length == 0 {
        return vec![Vec::new()];
    }
    let longer = |shorter: &Vec<u8>| of.iter().map(|byte| [&shorter[..], &[*byte]].concat()).collect::<Vec<_>>();
    strings(of, length - 1).iter().flat_map(longer).collect()
}

type Module = fn(&[u8], u64, &mut [u64; 2]) -> u32;

/// How many of the strings are handed back, each from its place and with its length; the others are refused by 19.
fn handed_back(strings: &[Vec<u8>]) -> usize {
    const UNTOUCHED: [u64; 2] = [u64::MAX; 2];
    let file = large::modules(strings);
    let sides: [Module; 2] = [ffi::hpcdb_meta_module, by_reader::hpcdb_meta_module];
    let is_handed_back = |(i, string): (u64, &Vec<u8>)| {
        let [by_library, by_reader] = sides.map(|module| {
            let mut out = UNTOUCHED;
            (module(&file, i, &mut out), out)
        });
        assert_eq!(by_library, by_reader, "{string:02x?}");
        match by_reader {
            (0, [place, length]) => assert_eq!(&file[place as usize..][..length as usize], string),
            refused => assert_eq!(refused, (19, UNTOUCHED), "{string:02x?}"),
        }
        by_reader.0 == 0
    };
    (0..).zip(strings).map(is_handed_back).filter(|handed_back| *handed_back).count()
}

/// ASCII without NUL has 127 bytes; of the characters of two bytes, the first is C2 to DF and the second one of 64.
#[test]
fn one_and_two_bytes() {
    let bytes: Vec<u8> = (1..=255).collect();
    assert_eq!(handed_back(&strings(&bytes, 0)), 1);
    assert_eq!(handed_back(&strings(&bytes, 1)), 127);
    assert_eq!(handed_back(&strings(&bytes, 2)), 127 * 127 + 30 * 64);
}

/// Of the edges 2 are ASCII, and 12, 180 and 648 characters have two, three and four bytes.
#[test]
fn three_and_four_bytes() {
    let of_two = 2 * 2 + 12;
    let of_three = 2 * of_two + 12 * 2 + 180;
    assert_eq!(handed_back(&strings(&EDGES, 3)), of_three);
    assert_eq!(handed_back(&strings(&EDGES, 4)), 2 * of_three + 12 * of_two + 180 * 2 + 648);
}

/// A reader may take up to sixteen letters at once, and twice. Of these bytes one is ASCII, and 6, 36 and 216 characters have two,
/// three and four bytes.
#[test]
fn four_bytes_among_letters() {
    let few = strings(&[0x7f, 0x80, 0x8f, 0x90, 0x9f, 0xa0, 0xbf, 0xc2, 0xe0, 0xed, 0xf0, 0xf4], 4);
    let of_two = 1 + 6;
    let of_three = of_two + 6 + 36;
    let letters: Vec<u8> = (b'a'..=b'z').cycle().take(33).collect();
    for before in 1..=letters.len() {
        let among: Vec<Vec<u8>> = few.iter().map(|string| [&letters[..before], string, b"ijklmnop"].concat()).collect();
        assert_eq!(handed_back(&among), of_three + 6 * of_two + 36 + 216);
    }
}
