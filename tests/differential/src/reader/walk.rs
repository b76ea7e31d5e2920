//! The context tree of meta.db, walked along its trail.

use std::slice;

use super::bytes::{u16_at, u32_at, u64_at, Span};
use super::meta::{context_array, Meta};
use super::opening::Array;
use super::Refusal;

/// Bytes of a context before its flex.
pub(super) const HEAD_SIZE: usize = 24;

/// Contexts lie at depth 1 to 200. A visit at 201 is still made: 10, 9 and 7 come before 12.
pub const DEEPEST: usize = 200;

/// Words of a record: place, depth, ctxId, relation, lexicalType, flags mod 8, function, file, line, module, offset,
/// the parent's place or 0.
pub const RECORD_WORDS: usize = 12;

#[derive(Clone, Copy, PartialEq, Eq, Debug)]
pub enum End {
    Whole,
    Cut,
    Refused(Refusal),
}

/// How a walk ended and how many contexts it listed.
#[derive(Clone, Copy, PartialEq, Eq, Debug)]
pub struct Walked {
    pub end: End,
    pub listed: usize,
}

pub fn walk(file: &[u8], listing: &mut [u64], table: &mut [u64]) -> Walked {
    walk_keeping(file, listing, table, NoRecords)
}

/// As the walk, and the record of each listed context as far as there is room for a whole one.
pub fn records(file: &[u8], listing: &mut [u64], table: &mut [u64], records: &mut [u64]) -> Walked {
    let (rows, _) = records.as_chunks_mut();
    walk_keeping(file, listing, table, Records(rows.iter_mut()))
}

/// What is kept of a listed context beyond its place.
trait Keep {
    fn keep(&mut self, place: usize, depth: usize, parent: usize, context: &Context);
}

struct NoRecords;

impl Keep for NoRecords {
    fn keep(&mut self, _: usize, _: usize, _: usize, _: &Context) {}
}

struct Records<'a>(slice::IterMut<'a, [u64; RECORD_WORDS]>);

impl Keep for Records<'_> {
    fn keep(&mut self, place: usize, depth: usize, parent: usize, context: &Context) {
        if let Some(record) = self.0.next() {
            let Flex { function, file, line, module, offset } = context.flex;
            *record = [
                place as u64,
                depth as u64,
                context.ctx_id.into(),
                context.relation.into(),
                context.lexical_type.into(),
                context.flags.into(),
                function,
                file,
                line,
                module,
                offset,
                parent as u64,
            ];
        }
    }
}

fn refused(refusal: Refusal) -> Walked {
    Walked { end: End::Refused(refusal), listed: 0 }
}

fn walk_keeping(file: &[u8], listing: &mut [u64], table: &mut [u64], mut kept: impl Keep) -> Walked {
    let meta = match Meta::open(file) {
        Ok(meta) => meta,
        Err(refusal) => return refused(refusal),
    };
    table.fill(0);
    follow(&mut Trail::of(&meta), listing, table, &mut kept)
}

/// Follows the trail until it ends or its next context has no word in the listing.
#[inline(always)]
fn follow(trail: &mut Trail, listing: &mut [u64], table: &mut [u64], kept: &mut impl Keep) -> Walked {
    let mut listed = 0;
    let end = loop {
        let visited = match trail.next(table) {
            Ok(Some(visited)) => visited,
            Ok(None) => break End::Whole,
            Err(refusal) => break End::Refused(refusal),
        };
        let Some(word) = listing.get_mut(listed) else {
            break End::Cut;
        };
        *word = visited.place as u64;
        *visited.slot = visited.place as u64;
        kept.keep(visited.place, visited.depth, visited.parent, &visited.context);
        listed += 1;
    };
    Walked { end, listed }
}

/// The way down to where a walk stands.
struct Trail<'m> {
    meta: &'m Meta<'m>,
    /// of the arrays from the roots to the current one, what is yet to be visited
    rest: [Span; DEEPEST + 1],
    /// and of which context they are the children; 0 for the roots
    parents: [usize; DEEPEST + 1],
    level: usize,
}

/// A context that kept its rules, and its slot of the table, which is still 0.
struct Visited<'t> {
    place: usize,
    depth: usize,
    parent: usize,
    context: Context,
    slot: &'t mut u64,
}

impl<'m> Trail<'m> {
    fn of(meta: &'m Meta<'m>) -> Trail<'m> {
        let mut rest = [Span::default(); DEEPEST + 1];
        rest[0] = meta.roots;
        Trail { meta, rest, parents: [0; DEEPEST + 1], level: 0 }
    }

    /// Goes on to the next context; there is none if the trail ends whole.
    #[inline(always)]
    fn next<'t>(&mut self, table: &'t mut [u64]) -> Result<Option<Visited<'t>>, Refusal> {
        while self.rest[self.level].start == self.rest[self.level].end {
            if self.level == 0 {
                return Ok(None);
            }
            self.level -= 1;
        }
        let (place, depth, parent) = (self.rest[self.level].start, self.level + 1, self.parents[self.level]);
        let (context, slot) = visit(self.meta, self.rest[self.level], depth, table)?;
        self.rest[self.level].start += context.size;
        if context.children.size() > 0 {
            self.level += 1;
            self.rest[self.level] = context.children;
            self.parents[self.level] = place;
        }
        Ok(Some(Visited { place, depth, parent, context, slot }))
    }
}

/// Bytes of a mark before its numbers, and of the longest one: as many are lent for a new mark.
const MARK_HEAD: usize = 5;
pub const MARK_ROOM: usize = MARK_HEAD + 4 * DEEPEST;
const MARK_KIND: u16 = 1;

/// Where a walk is: for each level from the roots down to a context, its number among its siblings. None is before the
/// first root.
#[derive(Clone, PartialEq, Eq, Default, Debug)]
pub struct Path(pub Vec<u32>);

impl Path {
    /// What a mark names; no bytes are a mark too.
    pub fn of_mark(mark: &[u8]) -> Result<Path, Refusal> {
        if mark.is_empty() {
            return Ok(Path::default());
        }
        let (head, numbers) = mark.split_first_chunk::<MARK_HEAD>().ok_or(Refusal::Mark)?;
        let depth = usize::from(head[4]);
        let sound = usize::from(u16_at(head, 0)) == mark.len()
            && numbers.len() == 4 * depth
            && u16_at(head, 2) == MARK_KIND
            && depth <= DEEPEST;
        if !sound {
            return Err(Refusal::Mark);
        }
        Ok(Path(numbers.as_chunks().0.iter().map(|number| u32::from_le_bytes(*number)).collect()))
    }

    pub fn mark(&self) -> Vec<u8> {
        let length = MARK_HEAD + 4 * self.0.len();
        let mut mark = Vec::with_capacity(length);
        mark.extend((length as u16).to_le_bytes());
        mark.extend(MARK_KIND.to_le_bytes());
        mark.push(self.0.len() as u8);
        mark.extend(self.0.iter().flat_map(|number| number.to_le_bytes()));
        mark
    }

    /// Goes on to the next context of a trail, which has this depth.
    #[inline]
    fn step(&mut self, depth: usize) {
        self.0.truncate(depth);
        match self.0.get_mut(depth - 1) {
            Some(number) => *number += 1,
            None => self.0.push(0),
        }
    }
}

/// Records, and the path of the last context.
struct RecordsAndPath<'a> {
    records: Records<'a>,
    path: Path,
}

impl Keep for RecordsAndPath<'_> {
    fn keep(&mut self, place: usize, depth: usize, parent: usize, context: &Context) {
        self.records.keep(place, depth, parent, context);
        self.path.step(depth);
    }
}

/// As the walk with records, but it lists what comes after the context that a mark names; if `new_mark` is lent, the
/// first of its bytes become the mark of the last context listed or, if none is, the given one.
pub fn walk_from(
    file: &[u8],
    mark: &[u8],
    listing: &mut [u64],
    table: &mut [u64],
    records: &mut [u64],
    new_mark: Option<&mut [u8]>,
) -> Walked {
    if new_mark.as_ref().is_some_and(|lent| lent.len() < MARK_ROOM) {
        return refused(Refusal::Room);
    }
    let (meta, given) = match Meta::open(file).and_then(|meta| Ok((meta, Path::of_mark(mark)?))) {
        Ok(opened) => opened,
        Err(refusal) => return refused(refusal),
    };
    table.fill(0);
    let mut trail = Trail::of(&meta);
    if let Err(refusal) = pass(&mut trail, &given, table) {
        table.fill(0);
        return refused(refusal);
    }
    let mut kept = RecordsAndPath { records: Records(records.as_chunks_mut().0.iter_mut()), path: given };
    let walked = follow(&mut trail, listing, table, &mut kept);
    if let Some(lent) = new_mark {
        let mark = kept.path.mark();
        lent[..mark.len()].copy_from_slice(&mark);
    }
    walked
}

/// Follows the trail up to a context that is to be passed, and fills the table on the way.
fn pass(trail: &mut Trail, given: &Path, table: &mut [u64]) -> Result<(), Refusal> {
    let mut path = Path::default();
    while path != *given {
        let visited = trail.next(table)?.ok_or(Refusal::Mark)?;
        *visited.slot = visited.place as u64;
        path.step(visited.depth);
    }
    Ok(())
}

struct Context {
    size: usize,
    children: Span,
    ctx_id: u32,
    flags: u8,
    relation: u8,
    lexical_type: u8,
    flex: Flex,
}

/// The fields of a context's flex, 0 where they are not there.
struct Flex {
    function: u64,
    file: u64,
    line: u64,
    module: u64,
    offset: u64,
}

const HAS_FUNCTION: u8 = 1;
const HAS_SOURCE: u8 = 2;
const HAS_POINT: u8 = 4;

impl Flex {
    /// The fields that `flags` tells of, packed in this order, a word each; none if there are too few words.
    #[inline]
    fn read(flags: u8, words: &[[u8; 8]]) -> Option<Flex> {
        let source_at = usize::from(flags & HAS_FUNCTION);
        let point_at = source_at + usize::from(flags & HAS_SOURCE);
        let needed = point_at + if flags & HAS_POINT != 0 { 2 } else { 0 };
        if words.len() < needed {
            return None;
        }
        let word = |bit, at: usize| if flags & bit != 0 { u64::from_le_bytes(words[at]) } else { 0 };
        Some(Flex {
            function: word(HAS_FUNCTION, 0),
            file: word(HAS_SOURCE, source_at),
            line: word(HAS_SOURCE, source_at + 1) & 0xffff_ffff,
            module: word(HAS_POINT, point_at),
            offset: word(HAS_POINT, point_at + 1),
        })
    }
}

/// One visit: the checks in document 01's order, of the first context of `rest`. With it comes its slot of the table,
/// which is still 0.
#[inline(always)]
fn visit<'t>(meta: &Meta, rest: Span, depth: usize, table: &'t mut [u64]) -> Result<(Context, &'t mut u64), Refusal> {
    let (head, behind) = rest.of(meta.file).split_first_chunk::<HEAD_SIZE>().ok_or(Refusal::Context)?;
    let flex_size = 8 * usize::from(head[0x17]);
    let flags = head[0x14] & (HAS_FUNCTION | HAS_SOURCE | HAS_POINT);
    let (words, _) = behind.get(..flex_size).ok_or(Refusal::Context)?.as_chunks();
    let flex = Flex::read(flags, words).ok_or(Refusal::Context)?;
    check_links(meta, flags, &flex)?;
    let children = context_array(meta.context_room(), u64_at(head, 8), u64_at(head, 0)).ok_or(Refusal::Array)?;
    if depth > DEEPEST {
        return Err(Refusal::Deep);
    }
    let ctx_id = u32_at(head, 0x10);
    let slot = table.get_mut(ctx_id as usize).ok_or(Refusal::Slot)?;
    if *slot != 0 {
        return Err(Refusal::Twice);
    }
    let context = Context {
        size: HEAD_SIZE + flex_size,
        children,
        ctx_id,
        flags,
        relation: head[0x15],
        lexical_type: head[0x16],
        flex,
    };
    Ok((context, slot))
}

/// A link that is there may not be 0; no element has the place 0.
#[inline]
fn check_links(meta: &Meta, flags: u8, flex: &Flex) -> Result<(), Refusal> {
    let kept = |bit, link, array: &Array| flags & bit == 0 || array.has_element_at(link);
    let all = kept(HAS_FUNCTION, flex.function, &meta.functions)
        && kept(HAS_SOURCE, flex.file, &meta.files)
        && kept(HAS_POINT, flex.module, &meta.modules);
    if all {
        Ok(())
    } else {
        Err(Refusal::Link)
    }
}
