//! A request record: read at a position, where the end of the list is an answer of its own, and written.

use crate::bytes::{put_record, Record, REQUEST};
use crate::refusal::{Fault, Found, Refusal};

pub const MOST_IDS: usize = 8;

/// The command number and the ids are checked when the request is carried out, not at reading.
#[derive(Clone, Debug, PartialEq, Eq)]
pub struct Request {
    pub command: u8,
    pub ids: Vec<u16>,
}

#[derive(Clone, Debug, PartialEq, Eq)]
pub enum Next {
    Request { request: Request, next: usize },
    End,
    Refused(Refusal),
}

/// What stands at a position of a request list.
pub fn read_request(input: &[u8], at: usize) -> Next {
    match find_request(input, at) {
        Ok(Some((request, next))) => Next::Request { request, next },
        Ok(None) => Next::End,
        Err(found) => Next::Refused(found.into()),
    }
}

/// The same with the fault by name; none at the end.
pub fn find_request(input: &[u8], at: usize) -> Result<Option<(Request, usize)>, Found> {
    // Only the position at the end is the end; past it, no front is left (1).
    if at == input.len() {
        return Ok(None);
    }
    let mut record = Record::read(input, at, REQUEST)?;
    let command = record.one()?;
    let count = record.one()?;
    record.must(count as usize <= MOST_IDS, Fault::IdsCount)?;
    let mut ids = Vec::new();
    for _ in 0..count {
        ids.push(record.two()?);
    }
    record.end()?;
    Ok(Some((Request { command, ids }, record.next)))
}

/// The record's bytes; 4 above 8 ids.
pub fn write_request(command: u8, ids: &[u16]) -> Result<Vec<u8>, u8> {
    if ids.len() > MOST_IDS {
        return Err(4);
    }
    let mut body = vec![command, ids.len() as u8];
    for id in ids {
        body.extend(id.to_le_bytes());
    }
    let mut out = Vec::new();
    put_record(&mut out, REQUEST, &body);
    Ok(out)
}
