//! Memory that is lent to the library, each slice between sentinels.

/// Sentinel elements on either side of a slice of words.
const GUARD: usize = 8;

/// Sentinel bytes on either side of a file; the shift that moves it off its alignment comes in addition.
const FILE_GUARD: usize = 64;

/// What lent words hold before a call: different from place to place, so that a word moved or swapped shows.
fn unwritten(i: usize) -> u64 {
    0xa5a5_5a5a_c3c3_3c3c ^ (i as u64).wrapping_mul(0x9e37_79b9_7f4a_7c15)
}

const SENTINEL: u64 = 0x5e47_1e15_5e47_1e15;

/// A slice with sentinels before and behind it.
#[derive(Clone, Debug)]
pub struct Lent<T> {
    cells: Vec<T>,
    front: usize,
    length: usize,
    sentinel: T,
}

impl<T: Copy + PartialEq> Lent<T> {
    fn new(contents: impl ExactSizeIterator<Item = T>, front: usize, back: usize, sentinel: T) -> Lent<T> {
        let length = contents.len();
        let mut cells = Vec::with_capacity(front + length + back);
        cells.resize(front, sentinel);
        cells.extend(contents);
        cells.resize(front + length + back, sentinel);
        Lent { cells, front, length, sentinel }
    }

    pub fn body(&self) -> &[T] {
        &self.cells[self.front..self.front + self.length]
    }

    pub fn body_mut(&mut self) -> &mut [T] {
        &mut self.cells[self.front..self.front + self.length]
    }

    fn sentinels_stand(&self) -> bool {
        let (front, back) = (&self.cells[..self.front], &self.cells[self.front + self.length..]);
        front.iter().chain(back).all(|cell| *cell == self.sentinel)
    }
}

fn words(length: usize) -> Lent<u64> {
    Lent::new((0..length).map(unwritten), GUARD, GUARD, SENTINEL)
}

/// All that one call may write to. What a function does not take has length 0.
pub struct Memory {
    pub out: Lent<u64>,
    /// of a walk: listing, table, records; of a hot path: listing, table, path; of a batch: answers
    pub slices: [Lent<u64>; 3],
    /// of a lookup: the bytes for the value; of the writer: those for the file; of a walk: those for a new mark; of
    /// samples: those for entries; at an odd address
    pub bytes: Lent<u8>,
}

impl Memory {
    pub fn new(out: usize, slices: [usize; 3], bytes: usize) -> Memory {
        let contents = (0..bytes).map(|i| unwritten(i) as u8);
        Memory {
            out: words(out),
            slices: slices.map(words),
            bytes: Lent::new(contents, GUARD + 1, GUARD, SENTINEL as u8),
        }
    }

    pub fn sentinels_stand(&self) -> bool {
        self.out.sentinels_stand() && self.slices.iter().all(Lent::sentinels_stand) && self.bytes.sentinels_stand()
    }

    /// Whether every lent word and byte is the same.
    pub fn holds_the_same_as(&self, other: &Memory) -> bool {
        let slices = self.slices.iter().zip(&other.slices);
        self.out.body() == other.out.body()
            && slices.clone().all(|(own, others)| own.body() == others.body())
            && self.bytes.body() == other.bytes.body()
    }
}

/// A file, or a mark, that is lent to be read: its bytes and the sentinels around them are the same after each call.
#[derive(Clone, Debug)]
pub struct LentFile {
    original: Vec<u8>,
    lent: Lent<u8>,
}

impl LentFile {
    /// A library that reads past the end meets `sentinel` there; one that counts on an alignment meets `shift`.
    pub fn new(original: Vec<u8>, shift: usize, sentinel: u8) -> LentFile {
        let lent = Lent::new(original.iter().copied(), FILE_GUARD + shift, FILE_GUARD, sentinel);
        LentFile { original, lent }
    }

    pub fn bytes(&self) -> &[u8] {
        &self.original
    }

    /// What the library is lent.
    pub fn lent(&self) -> &[u8] {
        self.lent.body()
    }

    pub fn is_as_it_was(&self) -> bool {
        self.lent.body() == self.original && self.lent.sentinels_stand()
    }
}
