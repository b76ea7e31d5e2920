//! An independent writer of profile.db in plain safe Rust, written from document 02 (request 2026-02), document 004
//! (the format) and the layout that docs/ has for it.

use crate::reader::bytes::{u16_at, u32_at};
use crate::reader::Refusal;

/// What a file is written from, as it is lent.
#[derive(Clone, Copy, Debug)]
pub struct Lists<'a> {
    /// the number of each profile's tuple
    pub profiles: &'a [u64],
    /// how many identifications each tuple has
    pub tuples: &'a [u64],
    /// those of all tuples, one behind the other; what no tuple has is ignored
    pub identifiers: &'a [u8],
    /// a last piece that is too short is none
    pub entries: &'a [u8],
}

/// u8 kind, u8 that is ignored, u16 flags, u32 logicalId, u64 physicalId.
type Identifier = [u8; 16];

/// u32 profile, u32 context, u16 metric, six bytes that are ignored, u64 value bits.
pub type Entry = [u8; ENTRY];
pub const ENTRY: usize = 24;

pub fn profile_of(entry: &Entry) -> u32 {
    u32_at(entry, 0)
}

pub fn context_of(entry: &Entry) -> u32 {
    u32_at(entry, 4)
}

pub fn metric_of(entry: &Entry) -> u16 {
    u16_at(entry, 8)
}

const INFOS_PLACE: usize = 48;
const PROFILES_PLACE: usize = 64;
const PROFILE_SIZE: usize = 40;
const FOOTER: &[u8; 8] = b"_prof.db";

/// Writes the file to the first of the lent bytes and gives its length; refused, it writes nothing.
pub fn write(lists: &Lists, file: &mut [u8]) -> Result<u64, Refusal> {
    let length = length(lists)?;
    let file = file.get_mut(..length).ok_or(Refusal::Room)?;
    put_headers(lists, file);
    let tuple_places = put_tuples(lists, file);
    let mut place = lists.blocks_place();
    let mut runs = lists.runs().peekable();
    for (p, tuple) in lists.profiles.iter().enumerate() {
        let run = runs.next_if(|run| profile_of(&run[0]) as usize == p).unwrap_or_default();
        let (block, end) = put_block(run, place, file);
        put(file, PROFILES_PLACE + PROFILE_SIZE * p, &block);
        put(file, PROFILES_PLACE + PROFILE_SIZE * p + 32, &[(8, tuple_places[*tuple as usize])]);
        place = end;
    }
    file[place..].copy_from_slice(FOOTER);
    Ok(length as u64)
}

/// The length of the file, if the lists keep their rules, which come one after the other over all of them.
pub fn length(lists: &Lists) -> Result<usize, Refusal> {
    let sorted = lists.are_sorted();
    if !lists.are_listed(sorted) {
        return Err(Refusal::Index);
    }
    if !sorted {
        return Err(Refusal::Order);
    }
    if !lists.fit_their_counts() {
        return Err(Refusal::Array);
    }
    let blocks = lists.blocks_length().ok_or(Refusal::Array)?;
    Ok(lists.blocks_place() + blocks + FOOTER.len())
}

impl<'a> Lists<'a> {
    pub fn entries(&self) -> &'a [Entry] {
        self.entries.as_chunks().0
    }

    pub fn identifiers(&self) -> &'a [Identifier] {
        self.identifiers.as_chunks().0
    }

    /// The entries of each profile that has some.
    fn runs(&self) -> impl Iterator<Item = &'a [Entry]> {
        self.entries().chunk_by(|a, b| profile_of(a) == profile_of(b))
    }

    /// Rule 11.
    pub fn are_sorted(&self) -> bool {
        let key = |entry| (profile_of(entry), context_of(entry), metric_of(entry));
        self.entries().is_sorted_by(|a, b| key(a) < key(b))
    }

    /// Rule 15. Of sorted entries the last has the greatest profile.
    fn are_listed(&self, sorted: bool) -> bool {
        let claimed: u128 = self.tuples.iter().map(|count| u128::from(*count)).sum();
        let (profiles, tuples) = (self.profiles.len() as u64, self.tuples.len() as u64);
        let entries = self.entries();
        let asked = if sorted { entries.len().saturating_sub(1) } else { 0 };
        claimed <= self.identifiers().len() as u128
            && self.profiles.iter().all(|tuple| *tuple < tuples)
            && entries[asked..].iter().all(|entry| u64::from(profile_of(entry)) < profiles)
    }

    /// Rule 7, but for the contexts of a profile.
    pub fn fit_their_counts(&self) -> bool {
        let tuples_fit = self.tuples.iter().all(|count| u16::try_from(*count).is_ok());
        tuples_fit && u32::try_from(self.profiles.len()).is_ok()
    }

    /// None if a profile has more contexts than its count can say (7).
    fn blocks_length(&self) -> Option<usize> {
        let block = |run: &[Entry]| {
            let contexts = u32::try_from(sub_arrays(run).count()).ok()?;
            Some(values_length(run) + 12 * contexts as usize)
        };
        self.runs().map(block).sum()
    }

    fn tuples_place(&self) -> usize {
        PROFILES_PLACE + PROFILE_SIZE * self.profiles.len()
    }

    /// All identifications are there, so that the sum is below their bytes and those of the counts.
    fn tuples_length(&self) -> usize {
        self.tuples.iter().map(|count| 8 + 16 * *count as usize).sum()
    }

    fn blocks_place(&self) -> usize {
        self.tuples_place() + self.tuples_length()
    }
}

/// The entries of each context of a profile.
fn sub_arrays(run: &[Entry]) -> impl Iterator<Item = &[Entry]> {
    run.chunk_by(|a, b| context_of(a) == context_of(b))
}

/// Values and the padding behind them.
fn values_length(run: &[Entry]) -> usize {
    (10 * run.len()).next_multiple_of(4)
}

/// Numbers of so many bytes, one behind the other.
fn put(file: &mut [u8], mut at: usize, numbers: &[(usize, u64)]) {
    for (width, number) in numbers {
        file[at..at + width].copy_from_slice(&number.to_le_bytes()[..*width]);
        at += width;
    }
}

/// A pointer to what may be empty is then 0.
fn put_headers(lists: &Lists, file: &mut [u8]) {
    let (profiles, tuples) = (lists.profiles.len(), lists.tuples_length());
    let pointer = |place: usize, size: usize| if size == 0 { 0 } else { place as u64 };
    let infos = [PROFILES_PLACE - INFOS_PLACE + PROFILE_SIZE * profiles, INFOS_PLACE].map(|number| (8, number as u64));
    let id_tuples = [(8, tuples as u64), (8, pointer(lists.tuples_place(), tuples))];
    file[..16].copy_from_slice(b"HPCTOOLKITprof\x04\x00");
    put(file, 16, &infos);
    put(file, 32, &id_tuples);
    let array = [(8, pointer(PROFILES_PLACE, profiles)), (4, profiles as u64), (1, PROFILE_SIZE as u64), (3, 0)];
    put(file, INFOS_PLACE, &array);
}

/// Gives the place of each tuple.
fn put_tuples(lists: &Lists, file: &mut [u8]) -> Vec<u64> {
    let mut place = lists.tuples_place();
    let mut identifiers = lists.identifiers();
    let mut places = Vec::with_capacity(lists.tuples.len());
    for count in lists.tuples {
        let (own, others) = identifiers.split_at(*count as usize);
        places.push(place as u64);
        put(file, place, &[(2, *count), (6, 0)]);
        for (to, from) in file[place + 8..].as_chunks_mut().0.iter_mut().zip(own) {
            *to = *from;
            to[1] = 0;
        }
        place += 8 + 16 * own.len();
        identifiers = others;
    }
    places
}

/// The block of a profile at `place`: the fields that its header has for it, and where it ends. All is 0 in the header
/// of an empty one.
fn put_block(run: &[Entry], place: usize, file: &mut [u8]) -> ([(usize, u64); 5], usize) {
    if run.is_empty() {
        return ([(8, 0), (8, 0), (4, 0), (4, 0), (8, 0)], place);
    }
    let (values, indices) = file[place..].split_at_mut(values_length(run));
    let (values, padding) = values.split_at_mut(10 * run.len());
    for (value, entry) in values.as_chunks_mut::<10>().0.iter_mut().zip(run) {
        value[..2].copy_from_slice(&entry[8..10]);
        value[2..].copy_from_slice(&entry[16..]);
    }
    padding.fill(0);
    let (mut contexts, mut start) = (0, 0);
    for (index, sub_array) in indices.as_chunks_mut::<12>().0.iter_mut().zip(sub_arrays(run)) {
        index[..4].copy_from_slice(&sub_array[0][4..8]);
        index[4..].copy_from_slice(&(start as u64).to_le_bytes());
        contexts += 1;
        start += sub_array.len();
    }
    let indices_place = place + values_length(run);
    let header = [(8, run.len() as u64), (8, place as u64), (4, contexts), (4, 0), (8, indices_place as u64)];
    (header, indices_place + 12 * contexts as usize)
}
