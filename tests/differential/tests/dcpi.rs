//! The library and the reader over DCPI samples written out by hand. Both give each answer.

use differential::{by_reader, ffi};

fn bytes(numbers: &[u32]) -> Vec<u8> {
    numbers.iter().flat_map(|number| number.to_le_bytes()).collect()
}

type Chunk<'a> = (u32, &'a [u32]);

fn section(chunks: &[Chunk], totals: [u32; 2]) -> Vec<u8> {
    let chunk = |(offset, counts): &Chunk| [bytes(&[*offset, counts.len() as u32]), bytes(counts)].concat();
    [chunks.iter().flat_map(chunk).collect(), bytes(&totals)].concat()
}

/// What lent words and bytes hold before.
const BEFORE: u64 = u64::MAX;
const BYTE_BEFORE: u8 = 0xff;

/// The answer of both sides, or the code by which they refuse.
fn both<const N: usize>(ask: impl Fn(bool, &mut [u64; N]) -> u32) -> Result<[u64; N], u32> {
    let [by_library, by_reader] = [true, false].map(|library| {
        let mut out = [BEFORE; N];
        (ask(library, &mut out), out)
    });
    assert_eq!(by_library, by_reader);
    match by_reader {
        (0, out) => Ok(out),
        (code, out) => {
            assert_eq!(out, [BEFORE; N]);
            Err(code)
        }
    }
}

fn totals(samples: &[u8]) -> Result<[u64; 2], u32> {
    let side = |library| if library { ffi::hpcdb_dcpi_totals } else { by_reader::hpcdb_dcpi_totals };
    both(|library, out| side(library)(samples, out))
}

const ABSENT: Result<u64, u32> = Err(100);

fn count(samples: &[u8], offset: u64) -> Result<u64, u32> {
    let side = |library| if library { ffi::hpcdb_dcpi_lookup } else { by_reader::hpcdb_dcpi_lookup };
    both(|library, out| side(library)(samples, offset, out)).map(|[count]| count)
}

type Entries = fn(&[u8], u32, u16, &mut [u8], &mut [u64; 1]) -> u32;

/// The entries in so many lent bytes, behind which nothing is written; refused, nothing at all.
fn listed(samples: &[u8], profile: u32, metric: u16, lent: usize) -> Result<Vec<u8>, u32> {
    let sides: [Entries; 2] = [ffi::hpcdb_dcpi_entries, by_reader::hpcdb_dcpi_entries];
    let [by_library, by_reader] = sides.map(|entries| {
        // the bytes behind those that are lent must stand too
        let (mut memory, mut out) = (vec![BYTE_BEFORE; lent + 24], [BEFORE]);
        let code = entries(samples, profile, metric, &mut memory[..lent], &mut out);
        (code, out, memory)
    });
    assert_eq!(by_library, by_reader);
    let (code, [number], mut memory) = by_reader;
    assert_eq!(code == 0, number != BEFORE);
    let rest = memory.split_off(if code == 0 { 24 * number as usize } else { 0 });
    assert!(rest.iter().all(|byte| *byte == BYTE_BEFORE));
    if code == 0 {
        Ok(memory)
    } else {
        Err(code)
    }
}

/// Whatever is asked of them.
fn assert_refused(samples: &[u8], code: u32) {
    assert_eq!(totals(samples), Err(code));
    for offset in [0, 100, 1 << 32, u64::MAX] {
        assert_eq!(count(samples, offset), Err(code));
    }
    for lent in [0, 1000] {
        assert_eq!(listed(samples, 0, 0, lent), Err(code));
    }
}

fn entry(profile: u32, offset: u32, metric: u16, bits: u64) -> Vec<u8> {
    let numbers = [u64::from(profile) | u64::from(offset) << 32, metric.into(), bits];
    numbers.iter().flat_map(|number| number.to_le_bytes()).collect()
}

const FIVE: u64 = 0x4014_0000_0000_0000;
const SEVEN: u64 = 0x401c_0000_0000_0000;

#[test]
fn three_counts() {
    let samples = section(&[(100, &[5, 0, 7])], [2, 12]);
    assert_eq!(samples.len(), 28);
    assert_eq!(totals(&samples), Ok([2, 12]));
    assert_eq!([100, 101, 102].map(|offset| count(&samples, offset)), [Ok(5), Ok(0), Ok(7)]);
    for offset in [99, 103, 104, 0, 1 << 32, (1 << 32) + 100, (1 << 63) + 100, u64::MAX] {
        assert_eq!(count(&samples, offset), ABSENT);
    }
    let entries = [entry(3, 100, 4, FIVE), entry(3, 102, 4, SEVEN)].concat();
    assert_eq!(listed(&samples, 3, 4, 48), Ok(entries));
    let entries = [entry(u32::MAX, 100, u16::MAX, FIVE), entry(u32::MAX, 102, u16::MAX, SEVEN)].concat();
    assert_eq!(listed(&samples, u32::MAX, u16::MAX, 48), Ok(entries));
}

#[test]
fn room_for_entries() {
    let samples = section(&[(100, &[5, 0, 7])], [2, 12]);
    for lent in [48, 49, 71, 72, 95, 1000] {
        assert_eq!(listed(&samples, 0, 0, lent).map(|entries| entries.len()), Ok(48));
    }
    for lent in [0, 1, 23, 24, 25, 46, 47] {
        assert_eq!(listed(&samples, 0, 0, lent), Err(17));
    }
    // a total comes before the room
    for totals in [[2, 13], [1, 12], [3, 12]] {
        for lent in [0, 24, 47, 48] {
            assert_eq!(listed(&section(&[(100, &[5, 0, 7])], totals), 0, 0, lent), Err(20));
        }
    }
    // counts of 0 need none
    for lent in [0, 1, 24, 48] {
        assert_eq!(listed(&section(&[(100, &[0, 0]), (102, &[0])], [0, 0]), 0, 0, lent), Ok(Vec::new()));
    }
}

#[test]
fn short_sections() {
    for length in 0..8 {
        assert_refused(&vec![0; length], 1);
        assert_refused(&vec![0xff; length], 1);
    }
    for length in 9..16 {
        assert_refused(&vec![0; length], 7);
        assert_refused(&vec![1; length], 7);
    }
    // eight bytes of 0 are a chunk of no count
    assert_refused(&[0; 16], 7);
}

#[test]
fn no_chunk() {
    let samples = section(&[], [0, 0]);
    assert_eq!(totals(&samples), Ok([0, 0]));
    for offset in [0, 1, u64::from(u32::MAX), 1 << 32, u64::MAX] {
        assert_eq!(count(&samples, offset), ABSENT);
    }
    assert_eq!(listed(&samples, 7, 7, 0), Ok(Vec::new()));
    assert_eq!(listed(&samples, 7, 7, 100), Ok(Vec::new()));
    for totals in [[1, 0], [0, 1], [1, 1], [u32::MAX, 0], [0, u32::MAX]] {
        assert_refused(&section(&[], totals), 20);
    }
}

/// A chunk that reaches the last offset of all, and one past it.
#[test]
fn last_offset() {
    let last = u32::MAX;
    let samples = section(&[(last, &[9])], [1, 9]);
    assert_eq!(totals(&samples), Ok([1, 9]));
    assert_eq!(count(&samples, last.into()), Ok(9));
    assert_eq!((count(&samples, 0), count(&samples, 1 << 32)), (ABSENT, ABSENT));
    assert_eq!(listed(&samples, 1, 2, 24), Ok(entry(1, last, 2, 0x4022_0000_0000_0000)));
    assert_refused(&section(&[(last, &[9, 1])], [2, 10]), 7);
    let samples = section(&[(last - 4, &[1, 2, 3, 4, 5])], [5, 15]);
    assert_eq!(totals(&samples), Ok([5, 15]));
    assert_eq!((count(&samples, u64::from(last) - 4), count(&samples, last.into())), (Ok(1), Ok(5)));
    assert_refused(&section(&[(last - 4, &[1, 2, 3, 4, 5, 6])], [6, 21]), 7);
    // nothing is behind the last offset
    assert_refused(&section(&[(last, &[9]), (0, &[1])], [2, 10]), 11);
    assert_refused(&section(&[(last, &[9]), (last, &[1])], [2, 10]), 11);
}

#[test]
fn chunks_that_touch_and_overlap() {
    let two = |offset| section(&[(100, &[5, 0, 7]), (offset, &[4, 0])], [3, 16]);
    let touching = two(103);
    assert_eq!(totals(&touching), Ok([3, 16]));
    assert_eq!([102, 103, 104, 105].map(|offset| count(&touching, offset)), [Ok(7), Ok(4), Ok(0), ABSENT]);
    let apart = two(104);
    assert_eq!([102, 103, 104, 106].map(|offset| count(&apart, offset)), [Ok(7), ABSENT, Ok(4), ABSENT]);
    for offset in [102, 101, 100, 99, 98, 0] {
        assert_refused(&two(offset), 11);
    }
    for (first, number, second) in (0..5).flat_map(|a| (1..4).flat_map(move |n| (0..9).map(move |b| (a, n, b)))) {
        let counts = vec![1; number as usize];
        let samples = section(&[(first, &counts), (second, &[1])], [number + 1, number + 1]);
        let sound = second >= first + number;
        assert_eq!(totals(&samples).err(), if sound { None } else { Some(11) });
    }
}

#[test]
fn chunks_that_do_not_fit() {
    let numbered = |number| bytes(&[100, number, 5, 0, 7, 2, 12]);
    assert_eq!(totals(&numbered(3)), Ok([2, 12]));
    // one too many, all that follows, and as many bytes modulo 2^32
    for number in [0, 4, 5, 6, 1 << 30, 1 << 30 | 3, 1 << 31 | 3, 3 << 30 | 3, u32::MAX] {
        assert_refused(&numbered(number), 7);
    }
    // one too few leaves a piece that is no chunk
    for number in [1, 2] {
        assert_refused(&numbered(number), 7);
    }
    // a chunk that is cut to its offset
    assert_refused(&bytes(&[100, 1, 5, 200, 1, 5]), 7);
    assert_refused(&bytes(&[100, 1, 5, 200, 0, 1, 5]), 7);
}

/// Of the 40 bytes of two chunks and totals, a cut leaves a number of bytes that are no chunks, or other totals.
#[test]
fn cut_anywhere() {
    let samples = section(&[(100, &[5, 0, 7]), (200, &[9])], [3, 21]);
    assert_eq!((samples.len(), totals(&samples)), (40, Ok([3, 21])));
    for length in 0..samples.len() {
        let code = match length {
            0..8 => 1,
            8 | 28 => 20,
            _ => 7,
        };
        assert_refused(&samples[..length], code);
    }
    for more in 1..12 {
        assert_refused(&[&samples[..], &vec![0; more]].concat(), 7);
    }
}

#[test]
fn totals_that_differ() {
    let chunks: [Chunk; 2] = [(100, &[5, 0, 7]), (200, &[9])];
    for totals in [[2, 21], [4, 21], [3, 20], [3, 22], [21, 3], [0, 0], [3, 0], [1 << 31 | 3, 21], [3, 1 << 31 | 21]] {
        assert_refused(&section(&chunks, totals), 20);
    }
    let large = 1 << 31;
    assert_refused(&section(&[(0, &[large, large])], [2, 0]), 20);
    assert_refused(&section(&[(0, &[large]), (9, &[large, 5])], [3, 5]), 20);
    assert_refused(&section(&[(0, &[u32::MAX, 1])], [2, 0]), 20);
    assert_refused(&section(&[(0, &[u32::MAX, u32::MAX])], [2, u32::MAX - 1]), 20);
    let greatest = section(&[(0, &[large, large - 1])], [2, u32::MAX]);
    assert_eq!(totals(&greatest), Ok([2, u32::MAX.into()]));
    // a sum that passes 2^32 twice
    let many = vec![u32::MAX; 5];
    assert_refused(&section(&[(0, &many)], [5, u32::MAX - 4]), 20);
}

/// Chunk by chunk 7 comes before 11, and both before the totals.
#[test]
fn first_of_several_refusals() {
    let any = [77, 77];
    let [none, one, two]: [&[u32]; 3] = [&[], &[1], &[1, 1]];
    assert_refused(&section(&[(100, two), (101, one), (200, none)], any), 11);
    assert_refused(&section(&[(100, two), (200, none), (101, one)], any), 7);
    assert_refused(&section(&[(100, two), (101, none)], any), 7);
    assert_refused(&section(&[(100, two), (101, one), (u32::MAX, two)], any), 11);
    assert_refused(&section(&[(u32::MAX, two), (0, one)], any), 7);
    assert_refused(&section(&[(100, two), (101, one)], any), 11);
    assert_refused(&section(&[(100, two), (200, none)], any), 7);
    // out of order, and too long for what is left
    assert_refused(&bytes(&[100, 2, 1, 1, 101, 2, 1, 3, 3]), 7);
    // what is left behind the overlap is no chunk
    assert_refused(&[&bytes(&[100, 2, 1, 1, 101, 1, 1])[..], &[0; 5], &bytes(&any)].concat(), 11);
    assert_refused(&section(&[(100, two), (102, one)], any), 20);
}

/// Each count becomes the float that equals it.
#[test]
fn floats() {
    for (number, bits) in [
        (1, 0x3ff0_0000_0000_0000),
        (3, 0x4008_0000_0000_0000),
        ((1 << 24) + 1, 0x4170_0000_1000_0000),
        (1 << 31, 0x41e0_0000_0000_0000),
        (u32::MAX, 0x41ef_ffff_ffe0_0000),
    ] {
        assert_eq!(listed(&section(&[(8, &[number])], [1, number]), 5, 6, 24), Ok(entry(5, 8, 6, bits)));
    }
    for bit in 0..32 {
        for number in [1_u32 << bit, (1 << bit) - 1, (1 << bit) | 1, !(1 << bit), u32::MAX >> bit, u32::MAX << bit] {
            let entries = listed(&section(&[(8, &[number])], [u32::from(number != 0), number]), 5, 6, 24);
            let expected = if number == 0 { Vec::new() } else { entry(5, 8, 6, f64::from(number).to_bits()) };
            assert_eq!(entries, Ok(expected));
        }
    }
}

/// Counts one apart, and as many as a reader may take at once and more.
#[test]
fn every_length_of_a_chunk() {
    for number in 1..100 {
        let counts: Vec<u32> = (0..number).map(|k| if k % 3 == 1 { 0 } else { 1000 + k }).collect();
        let not_zero: Vec<u32> = (0..number).filter(|k| k % 3 != 1).collect();
        let stored = [not_zero.len() as u32, counts.iter().sum()];
        let samples = section(&[(50, &counts), (50 + number, &[0])], stored);
        assert_eq!(totals(&samples), Ok(stored.map(u64::from)));
        for (k, number) in counts.iter().enumerate() {
            assert_eq!(count(&samples, 50 + k as u64), Ok(u64::from(*number)));
        }
        let entries = not_zero.iter().flat_map(|k| entry(1, 50 + k, 2, f64::from(1000 + k).to_bits())).collect();
        assert_eq!(listed(&samples, 1, 2, 24 * not_zero.len()), Ok(entries));
        // no count is left out of the sum
        for k in 0..number as usize {
            let mut other = samples.clone();
            other[8 + 4 * k + 3] ^= 1;
            assert_refused(&other, 20);
        }
    }
}

/// All sections of up to eight numbers, of which each is 0, 1, 2 or the greatest. Sound are: the one without a chunk; of
/// one count, 4 at each of 4 offsets; of two counts, whose sum is one of the four in 8 cases, in a chunk at 3 offsets,
/// or in two chunks at 6 pairs of offsets.
#[test]
fn every_section_of_few_numbers() {
    const NUMBERS: [u32; 4] = [0, 1, 2, u32::MAX];
    let mut sound = 0;
    for (length, k) in (0..=8).flat_map(|length| (0..1_usize << (2 * length)).map(move |k| (length, k))) {
        let numbers: Vec<u32> = (0..length).map(|place| NUMBERS[k >> (2 * place) & 3]).collect();
        let samples = bytes(&numbers);
        let answer = totals(&samples);
        for offset in [0, 1, 2, 3, u64::from(u32::MAX), 1 << 32] {
            let found = count(&samples, offset);
            assert!(answer.is_ok() && matches!(found, Ok(_) | ABSENT) || found.err() == answer.err());
        }
        for lent in [0, 24, 47, 48] {
            let entries = listed(&samples, 1, 2, lent);
            match answer {
                Ok([number, _]) if 24 * number <= lent as u64 => assert_eq!(entries.unwrap().len() as u64, 24 * number),
                Ok(_) => assert_eq!(entries, Err(17)),
                Err(code) => assert_eq!(entries, Err(code)),
            }
        }
        sound += usize::from(answer.is_ok());
    }
    assert_eq!(sound, 1 + 4 * 4 + (3 + 6) * 8);
}
