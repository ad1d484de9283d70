//! Reads and writes single records, so that every reader checks a front and a body's end in one way.

use crate::refusal::{must, Fault, Found};

pub const SCHEME_HEAD: u16 = 1;
pub const COMMAND: u16 = 2;
pub const THING: u16 = 4;
pub const CELL: u16 = 5;
pub const REQUEST: u16 = 6;
/// The head of an old image, as a matrix was stored before it kept the highest id; only moving it forward takes it.
pub const OLD_MATRIX_HEAD: u16 = 3;
pub const MATRIX_HEAD: u16 = 7;
/// A thing on hold; its body is that of one that isn't.
pub const HELD_THING: u16 = 8;

/// A record whose front is checked and whose body is being read field by field.
pub struct Record<'a> {
    pub kind: u16,
    pub at: usize,
    pub next: usize,
    body: &'a [u8],
}

impl<'a> Record<'a> {
    /// One of the only kind that may stand there.
    pub fn read(input: &'a [u8], at: usize, kind: u16) -> Result<Record<'a>, Found> {
        Record::read_of(input, at, |found| found == kind)
    }

    /// Front (1), kind (2), body's end (1).
    pub fn read_of(
        input: &'a [u8],
        at: usize,
        may_stand: impl Fn(u16) -> bool,
    ) -> Result<Record<'a>, Found> {
        let left = input.get(at..).unwrap_or(&[]);
        must(!left.is_empty(), Fault::RecordMissing, at)?;
        must(left.len() >= 4, Fault::FrontCut, at)?;
        let length = u16::from_le_bytes([left[0], left[1]]) as usize;
        let kind = u16::from_le_bytes([left[2], left[3]]);
        must(may_stand(kind), Fault::Kind, at)?;
        must(left.len() - 4 >= length, Fault::BodyPastEnd, at)?;
        Ok(Record {
            kind,
            at,
            next: at + 4 + length,
            body: &left[4..4 + length],
        })
    }

    pub fn one(&mut self) -> Result<u8, Found> {
        Ok(self.take::<1>()?[0])
    }

    pub fn two(&mut self) -> Result<u16, Found> {
        Ok(u16::from_le_bytes(self.take()?))
    }

    pub fn eight(&mut self) -> Result<u64, Found> {
        Ok(u64::from_le_bytes(self.take()?))
    }

    /// A check of the field read last; its fault stands at this record.
    pub fn must(&self, holds: bool, fault: Fault) -> Result<(), Found> {
        must(holds, fault, self.at)
    }

    /// After the last field nothing may be left of the body.
    pub fn end(&self) -> Result<(), Found> {
        self.must(self.body.is_empty(), Fault::BodyLeftover)
    }

    fn take<const WIDTH: usize>(&mut self) -> Result<[u8; WIDTH], Found> {
        self.must(!self.body.is_empty(), Fault::FieldMissing)?;
        self.must(self.body.len() >= WIDTH, Fault::FieldCut)?;
        let (field, rest) = self.body.split_at(WIDTH);
        self.body = rest;
        Ok(field.try_into().expect("split at its width"))
    }
}

/// Writes a record behind what is there.
pub fn put_record(out: &mut Vec<u8>, kind: u16, body: &[u8]) {
    let length = u16::try_from(body.len()).expect("no record of the outline is as long");
    out.extend(length.to_le_bytes());
    out.extend(kind.to_le_bytes());
    out.extend(body);
}

/// Stores written bytes at the start of a lent buffer and says how many; 9 if they don't fit, and then nothing changes.
pub fn store(bytes: &[u8], out: &mut [u8]) -> Result<usize, u8> {
    if out.len() < bytes.len() {
        return Err(9);
    }
    out[..bytes.len()].copy_from_slice(bytes);
    Ok(bytes.len())
}
