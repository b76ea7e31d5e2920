//! The reader over files written out by hand: trace lines, tuples, batches; the reader and the library over marks; the
//! writer and the library over lists.

use differential::reader::trace::Sample;
use differential::reader::walk::RECORD_WORDS;
use differential::reader::{profile, trace, Refusal};
use differential::writer::Lists;
use differential::{by_reader, ffi};

/// Numbers of so many bytes, one behind the other.
fn bytes(numbers: &[(usize, u64)]) -> Vec<u8> {
    numbers.iter().flat_map(|(width, number)| number.to_le_bytes()[..*width].to_vec()).collect()
}

/// A trace.db: the Headers section at 32 with two lines, the first of samples at 96 with these timestamps, the second
/// empty and in the midst of the section.
fn trace_file(timestamps: &[u64]) -> Vec<u8> {
    let end = 96 + 12 * timestamps.len() as u64;
    let mut file = b"HPCTOOLKITtrce\x04\x00".to_vec();
    file.extend(bytes(&[(8, 64), (8, 32)]));
    file.extend(bytes(&[(8, 48), (4, 2), (4, 24)]));
    file.extend(bytes(&[(8, 7), (8, 96), (8, end), (8, 8), (8, 40), (8, 40)]));
    for (k, timestamp) in timestamps.iter().enumerate() {
        file.extend(bytes(&[(8, *timestamp), (4, 100 + k as u64)]));
    }
    file.extend([0; 8]);
    file
}

fn at(timestamps: &[u64], line: u64, time: u64) -> Result<Option<(u64, Sample)>, Refusal> {
    trace::at(&trace_file(timestamps), line, time)
}

#[test]
fn last_sample_not_later() {
    let first = Some((0, Sample { timestamp: 10, ctx_id: 100 }));
    let second = Some((1, Sample { timestamp: 20, ctx_id: 101 }));
    assert_eq!(at(&[10, 20], 0, 9), Ok(None));
    assert_eq!(at(&[10, 20], 0, 10), Ok(first));
    assert_eq!(at(&[10, 20], 0, 19), Ok(first));
    assert_eq!(at(&[10, 20], 0, 20), Ok(second));
    assert_eq!(at(&[10, 20], 0, u64::MAX), Ok(second));
    assert_eq!(at(&[10, 20], 1, 20), Ok(None));
    assert_eq!(at(&[10, 20], 2, 20), Err(Refusal::Index));
}

#[test]
fn timestamps_repeat_and_do_not_fall() {
    let found = |position: u64, timestamp| Ok(Some((position, Sample { timestamp, ctx_id: 100 + position as u32 })));
    assert_eq!(at(&[10, 10, 20], 0, 9), Ok(None));
    assert_eq!(at(&[10, 10, 20], 0, 10), found(1, 10));
    assert_eq!(at(&[10, 10, 20], 0, 19), found(1, 10));
    assert_eq!(at(&[10, 10, 20], 0, 20), found(2, 20));
    assert_eq!(at(&[u64::MAX; 2], 0, u64::MAX), found(1, u64::MAX));
    assert_eq!(at(&[u64::MAX; 2], 0, u64::MAX - 1), Ok(None));
    assert_eq!(at(&[7; 1000], 0, 6), Ok(None));
    assert_eq!(at(&[7; 1000], 0, 7), found(999, 7));
    for time in [5, 10, 15, 19, 20] {
        assert_eq!(at(&[10, 20, 19], 0, time), Err(Refusal::Order));
    }
}

#[test]
fn samples_and_lines() {
    let file = trace_file(&[10, 20]);
    assert_eq!(trace::count(&file), Ok(2));
    assert_eq!(trace::line(&file, 0).map(|line| (line.prof_idx, line.samples)), Ok((7, 2)));
    assert_eq!(trace::line(&file, 1).map(|line| (line.prof_idx, line.samples)), Ok((8, 0)));
    assert_eq!(trace::sample(&file, 0, 1), Ok(Sample { timestamp: 20, ctx_id: 101 }));
    assert_eq!(trace::sample(&file, 0, 2), Err(Refusal::Index));
    // the order of a line comes before a position in it
    assert_eq!(trace::sample(&trace_file(&[20, 19]), 0, 2), Err(Refusal::Order));
}

/// A profile.db: ProfileInfos at 48 with one profile, IdTuples at 104 with one tuple of one identification, then values
/// (metric 1: 2.0, metric 4: 3.0, metric 1: 5.0) and indices (context 5 from 0, context 9 from 2).
fn profile_file(tuple_place: u64) -> Vec<u8> {
    let mut file = b"HPCTOOLKITprof\x04\x00".to_vec();
    file.extend(bytes(&[(8, 56), (8, 48), (8, 24), (8, 104)]));
    file.extend(bytes(&[(8, 64), (4, 1), (4, 40)]));
    file.extend(bytes(&[(8, 3), (8, 128), (8, 2), (8, 160), (8, tuple_place)]));
    file.extend(bytes(&[(8, 1), (2, 3), (2, 0x8001), (4, 77), (8, u64::MAX)]));
    for (metric, value) in [(1, 2.0_f64), (4, 3.0), (1, 5.0)] {
        file.extend(bytes(&[(2, metric), (8, value.to_bits())]));
    }
    file.extend(bytes(&[(2, 0), (4, 5), (8, 0), (4, 9), (8, 2)]));
    file.extend(b"_prof.db");
    file
}

#[test]
fn tuples() {
    let file = profile_file(104);
    assert_eq!(profile::tuple(&file, 0), Ok(1));
    assert_eq!(profile::tuple(&file, 1), Err(Refusal::Index));
    let id = profile::identifier(&file, 0, 0).expect("it is there");
    assert_eq!((id.kind, id.flags, id.logical_id, id.physical_id), (3, 0x8001, 77, u64::MAX));
    assert_eq!(profile::identifier(&file, 0, 1).err(), Some(Refusal::Index));
    for outside in [96, 108, 128, u64::MAX - 7] {
        assert_eq!(profile::tuple(&profile_file(outside), 0), Err(Refusal::Array));
        // a lookup reads no tuple
        assert_eq!(profile::lookup(&profile_file(outside), 0, 9, 1), Ok(Some(5.0_f64.to_bits())));
    }
}

#[test]
fn batches() {
    let file = profile_file(104);
    let mut answers = [55; 8];
    // the last word belongs to no pair
    let pairs = [5, 4, 7, 1, 9, 1, 5];
    assert_eq!(profile::lookup_many(&file, 0, &pairs, &mut answers), Ok(()));
    assert_eq!(answers, [0, 3.0_f64.to_bits(), 100, 0, 0, 5.0_f64.to_bits(), 55, 55]);
    let mut answers = [55; 5];
    assert_eq!(profile::lookup_many(&[], 0, &pairs, &mut answers), Err(Refusal::Room));
    assert_eq!(profile::lookup_many(&[], 0, &pairs[..4], &mut answers), Err(Refusal::Short));
    assert_eq!(answers, [55; 5]);
}

/// A meta.db without names: 70,001 contexts, of which the first has all the others as its children.
fn wide_file() -> Vec<u8> {
    const CHILDREN: u64 = 70_000;
    let mut file = b"HPCTOOLKITmeta\x04\x00".to_vec();
    let (places, contexts) = ([144, 160, 176, 192], 16 + 24 * (1 + CHILDREN));
    let behind = places[3] + contexts;
    file.extend(bytes(&[(8, 16), (8, places[0]), (8, 16), (8, places[1]), (8, 16), (8, places[2])]));
    file.extend(bytes(&[(8, contexts), (8, places[3]), (8, 0), (8, 0)]));
    file.extend(bytes(&[(8, 16), (8, behind), (8, 16), (8, behind + 16), (8, 16), (8, behind + 32)]));
    file.extend(bytes(&[(8, 0), (8, 0), (8, 0), (8, 0), (8, 0), (4, 0), (1, 24), (1, 24), (2, 16)]));
    file.extend(bytes(&[(8, 24), (8, places[3] + 16)]));
    file.extend(bytes(&[(8, 24 * CHILDREN), (8, places[3] + 40), (8, 0)]));
    file.extend((1..=CHILDREN).flat_map(|id| bytes(&[(8, 0), (8, 0), (8, id)])));
    for stride in [16, 16, 40] {
        file.extend(bytes(&[(8, 0), (4, 0), (4, stride)]));
    }
    file.extend(b"_meta.db");
    file
}

type WalkFrom = fn(&[u8], &[u8], u64, &mut [u64], &mut [u64], &mut [u64], &mut [u8], &mut [u64; 1]) -> u32;

/// Code, number listed, the one word of the listing and the parent in the one record, which are 0 before, and the new
/// mark, as the library and the reader both have them.
fn gone_on(file: &[u8], mark: &[u8]) -> (u32, u64, [u64; 2], Vec<u8>) {
    let sides: [WalkFrom; 2] = [ffi::hpcdb_meta_walk_from, by_reader::hpcdb_meta_walk_from];
    let [by_library, by_reader] = sides.map(|walk_from| {
        let (mut listing, mut table, mut new_mark, mut out) = ([0], vec![7; 70_001], [0; 805], [7]);
        let mut record = [0; RECORD_WORDS];
        let code = walk_from(file, mark, 1, &mut listing, &mut table, &mut record, &mut new_mark, &mut out);
        (code, out[0], [listing[0], record[11]], new_mark[..13].to_vec(), table)
    });
    assert_eq!(by_library, by_reader);
    let (code, listed, place_and_parent, new_mark, _) = by_reader;
    (code, listed, place_and_parent, new_mark)
}

/// Numbers among siblings have 32 bits, the length of a mark 16.
#[test]
fn marks_of_a_wide_tree() {
    let file = wide_file();
    let of_child = |number| bytes(&[(2, 13), (2, 1), (1, 2), (4, 0), (4, number)]);
    let place_and_parent = |number: u64| [232 + 24 * number, 208];
    for number in [0, 255, 256, 65_534, 65_535, 65_536, 69_998] {
        assert_eq!(
            gone_on(&file, &of_child(number)),
            (if number == 69_998 { 0 } else { 101 }, 1, place_and_parent(number + 1), of_child(number + 1))
        );
    }
    assert_eq!(gone_on(&file, &of_child(69_999)), (0, 0, [0; 2], of_child(69_999)));
    for number in [70_000, 1 << 24, 1 << 31, u64::from(u32::MAX)] {
        assert_eq!(gone_on(&file, &of_child(number)), (18, 0, [0; 2], vec![0; 13]));
    }
    // modulo 2^16 their length is what they say
    for mark in [of_child(5), bytes(&[(5, 0x1_0005)])] {
        let longer = [mark, vec![0; 65_536]].concat();
        assert_eq!(gone_on(&file, &longer), (18, 0, [0; 2], vec![0; 13]));
    }
}

/// Profile, context, metric and value, as the writer takes them; the bytes that are ignored are not 0.
fn entries(entries: &[(u64, u64, u64, f64)]) -> Vec<u8> {
    let entry = |(profile, context, metric, value): &(u64, u64, u64, f64)| {
        bytes(&[(4, *profile), (4, *context), (2, *metric), (6, u64::MAX), (8, value.to_bits())])
    };
    entries.iter().flat_map(entry).collect()
}

type Write = fn(&Lists, &mut [u8], &mut [u64; 1]) -> u32;

/// What the library and the writer both leave in so many lent bytes, which are 0xff before: the file, and behind it
/// nothing but 0xff; or a refusal, and nothing but 0xff.
fn written(lists: &Lists, lent: usize) -> Result<Vec<u8>, u32> {
    let sides: [Write; 2] = [ffi::hpcdb_profile_write, by_reader::hpcdb_profile_write];
    let [by_library, by_writer] = sides.map(|write| {
        let (mut file, mut out) = (vec![0xff; lent], [u64::MAX]);
        let code = write(lists, &mut file, &mut out);
        (code, out, file)
    });
    assert_eq!(by_library, by_writer);
    let (code, [length], mut file) = by_writer;
    assert_eq!(code == 0, length != u64::MAX);
    let rest = file.split_off(if code == 0 { length as usize } else { 0 });
    assert!(rest.iter().all(|byte| *byte == 0xff));
    if code == 0 {
        Ok(file)
    } else {
        Err(code)
    }
}

/// One profile with a tuple of one identification, whose ignored byte is not 0.
fn lists<'a>(identifiers: &'a [u8], entries: &'a [u8]) -> Lists<'a> {
    Lists { profiles: &[0], tuples: &[1], identifiers, entries }
}

const IDENTIFIER: [u8; 16] = [3, 0xff, 0x01, 0x80, 77, 0, 0, 0, 255, 255, 255, 255, 255, 255, 255, 255];

/// Room for every file that is not large.
const ENOUGH: usize = 1000;

#[test]
fn written_byte_by_byte() {
    let entries = entries(&[(0, 5, 1, 2.0), (0, 5, 4, 3.0), (0, 9, 1, 5.0)]);
    let sound = lists(&IDENTIFIER, &entries);
    let file = profile_file(104);
    assert_eq!(file.len(), 192);
    for lent in [192, 193, 200, ENOUGH] {
        assert_eq!(written(&sound, lent), Ok(file.clone()));
    }
    for lent in [191, 190, 56, 1, 0] {
        assert_eq!(written(&sound, lent), Err(17));
    }
    // what no tuple has, and what is no entry, is ignored
    let more = [&IDENTIFIER[..], &[7; 21]].concat();
    assert_eq!(written(&Lists { identifiers: &more, ..sound }, 192), Ok(file.clone()));
    let more = [&entries[..], &[7; 23]].concat();
    assert_eq!(written(&Lists { entries: &more, ..sound }, 192), Ok(file.clone()));
}

#[test]
fn nothing_written_opens() {
    let nothing = Lists { profiles: &[], tuples: &[], identifiers: &[], entries: &[] };
    let mut file = b"HPCTOOLKITprof\x04\x00".to_vec();
    file.extend(bytes(&[(8, 16), (8, 48), (8, 0), (8, 0), (8, 0), (4, 0), (4, 40)]));
    file.extend(b"_prof.db");
    assert_eq!(file.len(), 72);
    assert_eq!(profile::count(&file), Ok(0));
    assert_eq!(written(&nothing, 72), Ok(file));
    assert_eq!(written(&nothing, 71), Err(17));
}

/// Two profiles share the second of two tuples. Nobody names the first, which has no identification, and the second
/// profile has no entry.
#[test]
fn shared_and_unused_tuples() {
    let values = [0.0, -0.0, f64::NAN, f64::INFINITY].map(f64::to_bits).into_iter().chain([0x7ff0_0000_0000_0001]);
    let stored: Vec<(u64, u64)> = (0..).zip(values).collect();
    let entries: Vec<u8> = stored.iter().flat_map(|(k, bits)| bytes(&[(8, 0), (8, 65531 + k), (8, *bits)])).collect();
    let identifiers = [IDENTIFIER, [0xff; 16]].concat();
    let survey = Lists { profiles: &[1, 1], tuples: &[0, 2], identifiers: &identifiers, entries: &entries };
    let file = written(&survey, ENOUGH).expect("the lists are sound");
    // 64 + 2 profiles + tuples of 8 and 40 bytes + five values, padding and an index + 8
    assert_eq!(file.len(), 64 + 80 + 48 + 64 + 8);
    assert_eq!(
        file[64..144],
        bytes(&[(8, 5), (8, 192), (8, 1), (8, 244), (8, 152), (8, 0), (8, 0), (8, 0), (8, 0), (8, 152)])
    );
    assert_eq!((profile::tuple(&file, 0), profile::tuple(&file, 1), profile::count(&file)), (Ok(2), Ok(2), Ok(2)));
    assert_eq!(
        profile::identifier(&file, 1, 0).map(|id| (id.kind, id.flags, id.physical_id)),
        Ok((3, 0x8001, u64::MAX))
    );
    for (k, bits) in stored {
        assert_eq!(profile::lookup(&file, 0, 0, 65531 + k), Ok(Some(bits)));
        assert_eq!(profile::lookup(&file, 1, 0, 65531 + k), Ok(None));
        assert_eq!(profile::lookup(&file, 2, 0, 65531 + k), Err(Refusal::Index));
    }
    assert_eq!(profile::lookup(&file, 0, 0, 65530), Ok(None));
    assert_eq!(profile::lookup(&file, 0, 1, 65531), Ok(None));
}

#[test]
fn lists_out_of_range() {
    let one = entries(&[(0, 5, 1, 2.0)]);
    let sound = lists(&IDENTIFIER, &one);
    let code = |lists: Lists| written(&lists, ENOUGH).err();
    assert_eq!(code(sound), None);
    for profile in [1, 2, u64::from(u32::MAX)] {
        assert_eq!(code(Lists { entries: &entries(&[(0, 5, 1, 2.0), (profile, 5, 1, 2.0)]), ..sound }), Some(15));
    }
    for tuple in [1, 2, 1 << 16, 1 << 32, 1 << 61, 1 << 63, u64::MAX] {
        assert_eq!(code(Lists { profiles: &[0, tuple], ..sound }), Some(15));
    }
    // too few identifications; modulo 2^64 these are one, or 16 bytes
    for tuples in [&[2][..], &[1, 1], &[0, 2], &[1 << 60 | 1], &[1 << 63, 1 << 63, 1], &[1, u64::MAX, 1], &[u64::MAX]] {
        assert_eq!(code(Lists { tuples, ..sound }), Some(15));
    }
    assert_eq!(code(Lists { identifiers: &IDENTIFIER[..15], ..sound }), Some(15));
    assert_eq!(code(Lists { profiles: &[], ..sound }), Some(15));
    assert_eq!(code(Lists { tuples: &[], ..sound }), Some(15));
}

#[test]
fn entries_out_of_order() {
    let code = |order: &[(u64, u64, u64, f64)]| {
        written(&Lists { profiles: &[0, 0], ..lists(&IDENTIFIER, &entries(order)) }, ENOUGH).err()
    };
    let last = (1, u64::from(u32::MAX), 65535, 1.0);
    assert_eq!(code(&[(0, 0, 0, 1.0), (0, 0, 1, 1.0), (0, 1, 0, 1.0), (1, 0, 0, 1.0), last]), None);
    for falls in [
        [(1, 0, 0, 1.0), (0, 1, 1, 1.0)],
        [(0, 1, 0, 1.0), (0, 0, 1, 1.0)],
        [(0, 1, 1, 1.0), (0, 1, 0, 1.0)],
        // equal, with the same value or another
        [(0, 5, 1, 1.0), (0, 5, 1, 1.0)],
        [(0, 5, 1, 1.0), (0, 5, 1, 2.0)],
        [(0, 256, 0, 1.0), (0, 1, 0, 1.0)],
        [(0, 0, 256, 1.0), (0, 0, 1, 1.0)],
    ] {
        assert_eq!(code(&falls), Some(11));
        assert_eq!(code(&[falls[0], falls[1], last]), Some(11));
    }
}

/// 65,535 identifications are as many as a tuple can have.
#[test]
fn long_tuples() {
    let identifiers: Vec<u8> = (0..65_536).flat_map(|k| bytes(&[(4, k), (4, k), (8, !k)])).collect();
    let sound = Lists { profiles: &[0], tuples: &[65_535], identifiers: &identifiers, entries: &[] };
    let length = 64 + 40 + 8 + 16 * 65_535 + 8;
    let file = written(&sound, length).expect("the lists are sound");
    assert_eq!((file.len(), profile::tuple(&file, 0)), (length, Ok(65_535)));
    let last = profile::identifier(&file, 0, 65_534).map(|id| (id.kind, id.flags, id.logical_id, id.physical_id));
    assert_eq!(last, Ok((0xfe, 0, 65_534, !65_534)));
    assert_eq!(written(&sound, length - 1), Err(17));
    for (profiles, tuples) in [(&[0][..], &[65_536][..]), (&[], &[65_536]), (&[0], &[0, 65_536]), (&[1], &[65_536, 0])]
    {
        assert_eq!(written(&Lists { profiles, tuples, ..sound }, 2 * length), Err(7));
    }
}

/// A context with every metric that there can be, and one behind it.
#[test]
fn starts_of_17_bits() {
    let order: Vec<(u64, u64, u64, f64)> = (0..65_537).map(|k| (0, k / 65_536, k % 65_536, k as f64)).collect();
    let file = written(&lists(&IDENTIFIER, &entries(&order)), 700_000).expect("the lists are sound");
    assert_eq!(file.len(), 128 + 10 * 65_537 + 2 + 24 + 8);
    assert_eq!(file[file.len() - 32..], [bytes(&[(4, 0), (8, 0), (4, 1), (8, 65_536)]), b"_prof.db".to_vec()].concat());
    assert_eq!(profile::lookup(&file, 0, 0, 65_535), Ok(Some(65_535_f64.to_bits())));
    assert_eq!(profile::lookup(&file, 0, 1, 0), Ok(Some(65_536_f64.to_bits())));
}

/// Each refusal is over all of the lists before the next.
#[test]
fn first_of_several_refusals() {
    let many = vec![0; 16 * 65_536];
    let long = Lists { profiles: &[0, 1], tuples: &[65_536, 0], ..lists(&many, &[]) };
    let falls = [(0, 5, 1, 1.0), (0, 5, 1, 1.0), (1, 0, 0, 1.0)];
    let unlisted = [&falls[..], &[(7, 0, 0, 1.0)]].concat();
    let code = |lists: Lists, order: &[(u64, u64, u64, f64)], lent| {
        written(&Lists { entries: &entries(order), ..lists }, lent).err()
    };
    let short = Lists { tuples: &[1, 0], ..long };
    for lent in [0, ENOUGH] {
        assert_eq!(code(short, &unlisted, lent), Some(15));
        assert_eq!(code(short, &[unlisted[3], falls[0]], lent), Some(15));
        assert_eq!(code(short, &falls, lent), Some(11));
        assert_eq!(code(long, &unlisted[2..], lent), Some(15));
        assert_eq!(code(long, &falls, lent), Some(11));
        assert_eq!(code(long, &[], lent), Some(7));
        assert_eq!(code(Lists { tuples: &[65_537, 0], ..long }, &falls, lent), Some(15));
        assert_eq!(code(Lists { profiles: &[2], ..short }, &falls, lent), Some(15));
    }
    assert_eq!(code(short, &falls[1..], 0), Some(17));
}
