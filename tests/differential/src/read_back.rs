//! A written file, read back: what its readers have to say follows from the lists that it was written from, or from the
//! samples whose entries it has.

use std::collections::BTreeMap;

use crate::by_reader::{ABSENT, ANSWERED};
use crate::compare::Reply;
use crate::question::Function::{self, *};
use crate::question::Question;
use crate::reader::bytes::{u16_at, u32_at, u64_at};
use crate::reader::Refusal;
use crate::writer::{context_of, metric_of, profile_of, Entry, Lists, ENTRY};

/// Identifications asked for of a tuple, and values of a profile whose neighbours are; of more of them, about so many.
const IDENTIFICATIONS: usize = 400;
const VALUES: usize = 40;

/// One in so many values is asked for singly too.
const SINGLY: usize = 10;

/// A question with the answer that it must get: the words, or no such position (15).
pub struct Expected {
    pub question: Question,
    words: Option<Vec<u64>>,
}

impl Expected {
    fn new(function: Function, numbers: [u64; 3], words: Option<Vec<u64>>) -> Expected {
        Expected { question: Question::new(function, numbers), words }
    }

    pub fn is_given_by(&self, reply: &Reply) -> bool {
        let Some(words) = &self.words else {
            return reply.code == Refusal::Index.number();
        };
        match (self.question.function, &words[..]) {
            (ProfileLookup, []) => reply.code == ABSENT,
            (ProfileLookup, [bits]) => reply.code == ANSWERED && reply.memory.bytes.body() == bits.to_le_bytes(),
            (ProfileLookupMany, answers) => reply.code == ANSWERED && reply.memory.slices[0].body() == answers,
            (_, words) => reply.code == ANSWERED && reply.memory.out.body() == words,
        }
    }
}

/// The count of profiles, all tuples, and the values of all entries, by batches and one by one; of each what comes
/// behind the last, and of the values what is beside them.
pub fn questions(lists: &Lists) -> Vec<Expected> {
    let profiles = lists.profiles.len() as u64;
    let mut asked = vec![Expected::new(ProfileOpen, [0; 3], Some(vec![profiles]))];
    let values: Values = lists.entries().iter().map(|entry| (ids_of(entry), u64_at(entry, 16))).collect();
    for (profile, tuple) in (0..).zip(lists.profiles) {
        tuple_questions(lists, profile, *tuple as usize, &mut asked);
        lookups(&values, profile, &mut asked);
    }
    asked.push(Expected::new(ProfileTuple, [profiles, 0, 0], None));
    asked.push(Expected::new(ProfileIdentifier, [profiles, 0, 0], None));
    asked.push(lookup([profiles, 0, 0], None));
    asked.push(batch(profiles, Vec::new(), None));
    asked
}

/// The bits of each entry by profile, context and metric.
type Values = BTreeMap<[u64; 3], u64>;

fn ids_of(entry: &Entry) -> [u64; 3] {
    [profile_of(entry).into(), context_of(entry).into(), metric_of(entry).into()]
}

fn tuple_questions(lists: &Lists, profile: u64, tuple: usize, asked: &mut Vec<Expected>) {
    let first: u64 = lists.tuples[..tuple].iter().sum();
    let ids = &lists.identifiers()[first as usize..][..lists.tuples[tuple] as usize];
    asked.push(Expected::new(ProfileTuple, [profile, 0, 0], Some(vec![ids.len() as u64])));
    for k in some_positions(ids.len(), IDENTIFICATIONS) {
        let words = ids.get(k).map(|id| vec![id[0].into(), u16_at(id, 2).into(), u32_at(id, 4).into(), u64_at(id, 8)]);
        asked.push(Expected::new(ProfileIdentifier, [profile, k as u64, 0], words));
    }
}

/// All if they are not above `most`, the last in any case, and the one behind it.
fn some_positions(count: usize, most: usize) -> impl Iterator<Item = usize> {
    let last = count.saturating_sub(1);
    (0..last).step_by(1 + count / (most + 1)).chain(last..=count)
}

fn lookups(values: &Values, profile: u64, asked: &mut Vec<Expected>) {
    let own: Vec<[u64; 3]> = values.range([profile, 0, 0]..[profile + 1, 0, 0]).map(|(ids, _)| *ids).collect();
    let some: Vec<[u64; 3]> = some_positions(own.len(), VALUES).filter_map(|k| own.get(k)).copied().collect();
    let beside: Vec<[u64; 3]> = some.iter().flat_map(neighbours).collect();
    let single = some.iter().step_by(SINGLY).chain(beside.iter().step_by(4 * SINGLY + 1));
    asked.extend(single.map(|ids| lookup(*ids, Some(values.get(ids).copied().into_iter().collect()))));
    let pairs: Vec<[u64; 3]> = own.into_iter().chain(beside).collect();
    asked.push(batch_of(values, profile, &pairs));
}

/// The contexts and metrics of these ids, in one profile.
fn batch_of(values: &Values, profile: u64, ids: &[[u64; 3]]) -> Expected {
    let value = |[_, context, metric]: &[u64; 3]| values.get(&[profile, *context, *metric]);
    let answers = ids.iter().flat_map(|ids| value(ids).map_or([ABSENT.into(), 0], |bits| [0, *bits])).collect();
    batch(profile, ids.iter().flat_map(|[_, context, metric]| [*context, *metric]).collect(), Some(answers))
}

/// Most of them are absent; some would be there if an id were cut to its field.
fn neighbours([profile, context, metric]: &[u64; 3]) -> [[u64; 3]; 6] {
    let (context, metric) = (*context, *metric);
    let beside = [
        [context, metric + 1],
        [context, metric.wrapping_sub(1)],
        [context, metric + (1 << 16)],
        [context + 1, metric],
        [context.wrapping_sub(1), metric],
        [context + (1 << 32), metric],
    ];
    beside.map(|[context, metric]| [*profile, context, metric])
}

fn lookup(ids: [u64; 3], words: Option<Vec<u64>>) -> Expected {
    let mut expected = Expected::new(ProfileLookup, ids, words);
    expected.question.byte_room = 8;
    expected
}

fn batch(profile: u64, pairs: Vec<u64>, words: Option<Vec<u64>>) -> Expected {
    let mut expected = Expected::new(ProfileLookupMany, [profile, 0, 0], words);
    expected.question.rooms[0] = pairs.len();
    expected.question.pairs = pairs;
    expected
}

/// Counts of samples asked for; of more of them, about so many.
const COUNTS: usize = 400;

/// The writing of a file with so many entries, all of one profile, which is the last; those before it have none. The
/// room is always enough.
pub fn write_of_listed(profile: u64, entries: usize) -> Question {
    let mut question = Question::new(ProfileWrite, [0; 3]);
    question.survey.profiles = vec![0; profile as usize + 1];
    question.survey.tuples = vec![0];
    question.byte_room = 72 + 40 * question.survey.profiles.len() + 8 + ENTRY * entries;
    question
}

/// Of a file with the entries of sound samples: each count that is not 0 is the value at its offset, and at other
/// offsets there is none, nor in other profiles and metrics.
pub fn questions_of_listed(samples: &[u8], profile: u64, metric: u64) -> Vec<Expected> {
    let counts = counts(samples);
    let ids = |offset: &u64| [profile, *offset, metric];
    let not_zero = counts.iter().filter(|(_, count)| *count != 0);
    let values: Values = not_zero.map(|(offset, count)| (ids(offset), f64::from(*count).to_bits())).collect();
    let some = some_positions(counts.len(), COUNTS).filter_map(|k| counts.get(k));
    let some: Vec<[u64; 3]> = some.map(|(offset, _)| ids(offset)).collect();
    let beside: Vec<[u64; 3]> = some.iter().step_by(SINGLY).flat_map(neighbours).collect();
    let single = some.iter().step_by(SINGLY).chain(beside.iter().step_by(4 * SINGLY + 1));
    let mut asked: Vec<Expected> =
        single.map(|ids| lookup(*ids, Some(values.get(ids).copied().into_iter().collect()))).collect();
    let pairs: Vec<[u64; 3]> = some.into_iter().chain(beside).collect();
    asked.push(batch_of(&values, profile, &pairs));
    if profile > 0 {
        asked.push(batch_of(&values, profile - 1, &pairs));
    }
    asked
}

/// Each offset that a count is for, with its count.
fn counts(samples: &[u8]) -> Vec<(u64, u32)> {
    let (mut counts, mut at) = (Vec::new(), 0);
    while at + 8 < samples.len() {
        let (offset, number) = (u64::from(u32_at(samples, at)), u64::from(u32_at(samples, at + 4)));
        counts.extend((0..number).map(|i| (offset + i, u32_at(samples, at + 8 + 4 * i as usize))));
        at += 8 + 4 * number as usize;
    }
    counts
}
