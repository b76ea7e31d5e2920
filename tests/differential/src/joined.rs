//! Parts of a walk, each going on from the mark that the one before it handed out: joined they are one walk with as
//! much room as they have together.

use crate::compare::Reply;
use crate::lent::LentFile;
use crate::question::Question;
use crate::reader::bytes::u16_at;
use crate::reader::walk::RECORD_WORDS;

/// What parts have listed together, with the records; the last one's code, table and new mark.
#[derive(PartialEq, Default, Debug)]
pub struct Outcome {
    listed: Vec<u64>,
    records: Vec<u64>,
    code: u32,
    table: Vec<u64>,
    pub new_mark: Option<Vec<u8>>,
}

/// Asks for parts with these rooms, the first from the question's own mark. No part comes after one that hands out no
/// mark.
pub fn outcome(
    question: &Question,
    rooms: &[usize],
    mut ask: impl FnMut(&Question) -> Result<Reply, String>,
) -> Result<Outcome, String> {
    let mut part = question.clone();
    let mut outcome = Outcome::default();
    for room in rooms {
        part.rooms = [*room, question.rooms[1], RECORD_WORDS * room];
        let reply = ask(&part)?;
        let listed = reply.memory.out.body()[0] as usize;
        let [listing, table, records] = reply.memory.slices.each_ref().map(|slice| slice.body());
        outcome.listed.extend(&listing[..listed]);
        outcome.records.extend(&records[..RECORD_WORDS * listed]);
        outcome.code = reply.code;
        outcome.table = table.to_vec();
        outcome.new_mark = new_mark(&part, &reply);
        let Some(mark) = &outcome.new_mark else {
            break;
        };
        part.mark = LentFile::new(mark.clone(), 1, 0);
    }
    Ok(outcome)
}

/// The mark that a walk handed out: just so many bytes as it says.
pub fn new_mark(question: &Question, reply: &Reply) -> Option<Vec<u8>> {
    let lent = reply.memory.bytes.body();
    let written = lent != question.memory().bytes.body();
    written.then(|| lent[..u16_at(lent, 0).into()].to_vec())
}
