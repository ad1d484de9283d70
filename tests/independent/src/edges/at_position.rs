//! What stands at a position of some bytes: requests, records, bodies and fields, and the records of a scheme and of a matrix one by one.

use std::ops::Range;

use super::said::{Said, NUMBER};
use super::seats::{Seats, SEATS};
use super::sums;
use super::tasks::{At, Context, Read};
use crate::bytes::Record;
use crate::matrix::{read_cell, read_head, read_thing};
use crate::refusal::{Found, Refusal};
use crate::request::{read_request, Next, MOST_IDS};
use crate::scheme::{find_head, Scheme};

/// `head` is a scheme's head, with no commands; none where no reading gives it.
pub fn say(asked: &At, head: Option<&Scheme>, seats: &Seats) -> Said {
    let (bytes, at) = (&asked.bytes[..], asked.at as usize);
    match &asked.what {
        Read::Request => whole_request(bytes, at),
        Read::SkippedRequest => {
            let next = read_request(bytes, at);
            request(Said::default(), "request_bytes::skip_request", &next)
        }
        Read::Record { kinds } => record(bytes, at, *kinds),
        Read::Body { length } => body(bytes, asked.at, *length),
        Read::Fields { low, limit, number } => fields(bytes, at, *low..*limit, *number),
        Read::SchemeHead => scheme_head(bytes, at),
        Read::MatrixHead(context) => matrix_head(bytes, at, context, head),
        Read::Thing(context) => thing(bytes, at, context, head),
        Read::Cell(context) => cell(bytes, at, context, head, seats),
    }
}

// ---- requests

fn request(said: Said, function: &'static str, next: &Next) -> Said {
    match next {
        Next::Request { next, .. } => said.gave(function, 0).word(next),
        Next::Refused(Refusal { number, at }) => said.gave(function, *number).word(at),
        Next::End => said.value(function, "end"),
    }
}

/// The answer; then command, how many ids, and the ids' sum with zeros behind them, all zeros where there is no request.
fn whole_request(list: &[u8], at: usize) -> Said {
    let next = read_request(list, at);
    let (command, mut ids) = match &next {
        Next::Request { request, .. } => (request.command, request.ids.clone()),
        _ => (0, Vec::new()),
    };
    let count = ids.len();
    ids.resize(MOST_IDS, 0);
    request(Said::default(), "request_bytes::read_request", &next)
        .word(command)
        .word(count)
        .word(sums::ids(&ids))
}

// ---- records, bodies and fields

/// A set of kinds has none from 16 on.
pub fn has_kind(kinds: u16, kind: u16) -> bool {
    kind < 16 && kinds >> kind & 1 == 1
}

/// The kind, where the body starts and its length; then the position behind the record; then the same of a record of any kind.
fn record(bytes: &[u8], at: usize, kinds: u16) -> Said {
    let answer = |found: Result<Record, Found>| {
        let record = found?;
        let (start, end) = (record.at + 4, record.next);
        Ok([record.kind.into(), start, end - start]
            .map(|value| value as u64)
            .to_vec())
    };
    let of_kinds = || Record::read_of(bytes, at, |kind| has_kind(kinds, kind));
    let next = of_kinds().map(|record| record.next).map_err(Refusal::from);
    Said::default()
        .answer("records::record_at", answer(of_kinds()))
        .reading("records::next_record", next)
        .answer(
            "matrix_records::any_record_at",
            answer(Record::read_of(bytes, at, |_| true)),
        )
}

/// What there is of the part: its length and its sum.
fn body(bytes: &[u8], start: u64, length: u64) -> Said {
    let from = (start as usize).min(bytes.len());
    let to = (start.saturating_add(length) as usize).min(bytes.len());
    let part = &bytes[from..to];
    let said = Said::default().value("records::body", part.len());
    said.word(sums::bytes(part))
}

/// Each field's number and value, 0 where there is a fault; 3 where the body ends before or inside it. With a limit, a value only where there is none.
fn fields(bytes: &[u8], at: usize, range: Range<u8>, number: u8) -> Said {
    let left = bytes.get(at..).unwrap_or(&[]);
    let field = |said: Said, function, value: Option<u64>| {
        let number = if value.is_some() { 0 } else { 3 };
        let said = said.through(function, number).gave(NUMBER, number);
        said.word(value.unwrap_or(0))
    };
    let one = left.first().copied();
    let two = left.first_chunk().map(|field| u16::from_le_bytes(*field));
    let eight = left.first_chunk().map(|field| u64::from_le_bytes(*field));
    let within = match one {
        None => Err(3),
        Some(value) if range.contains(&value) => Ok(value),
        Some(_) => Err(number),
    };
    let said = field(Said::default(), "records::byte_at", one.map(u64::from));
    let found = within.err().unwrap_or(0);
    let said = said.through("records::field_at", found).gave(NUMBER, found);
    let said = within.into_iter().fold(said, Said::word);
    let said = field(said, "records::field2_at", two.map(u64::from));
    field(said, "records::field8_at", eight)
}

// ---- the records of a scheme and of a matrix

/// n, m, the subject types and how many commands; then the next position.
fn scheme_head(bytes: &[u8], at: usize) -> Said {
    let found = find_head(bytes, at).map(|(head, commands, next)| {
        let fields = [
            head.rights.into(),
            head.types.into(),
            head.subjects,
            commands.into(),
        ];
        let fields = fields.map(u64::from);
        [&fields[..], &[next as u64]].concat()
    });
    Said::default().answer("command_bytes::read_head", found.map_err(Refusal::from))
}

/// The record's kind, what `read` makes of it against the head, and the next position.
fn told(
    bytes: &[u8],
    at: usize,
    context: &Context,
    head: Option<&Scheme>,
    read: impl Fn(Record, &Scheme) -> Result<Vec<u64>, Found>,
) -> Result<Vec<u64>, Refusal> {
    let head = head.ok_or(Refusal { number: 27, at: 0 })?;
    let record = Record::read_of(bytes, at, |kind| has_kind(context.kinds, kind))?;
    let (kind, next) = (record.kind.into(), record.next as u64);
    Ok([&[kind], &read(record, head)?[..], &[next]].concat())
}

/// How many things it states, and the highest id.
fn matrix_head(bytes: &[u8], at: usize, context: &Context, head: Option<&Scheme>) -> Said {
    let found = told(bytes, at, context, head, |record, scheme| {
        let (things, highest) = read_head(record, scheme)?;
        Ok(vec![things.into(), highest.into()])
    });
    Said::default().answer("matrix_records::read_head", found)
}

/// Its id and type.
fn thing(bytes: &[u8], at: usize, context: &Context, head: Option<&Scheme>) -> Said {
    let found = told(bytes, at, context, head, |record, scheme| {
        let (id, kind) = read_thing(record, scheme, context.last.0, context.highest)?;
        Ok(vec![id.into(), kind.into()])
    });
    Said::default().answer("matrix_records::read_thing", found)
}

/// Its row and column, where it is kept, and its rights.
fn cell(bytes: &[u8], at: usize, context: &Context, head: Option<&Scheme>, seats: &Seats) -> Said {
    let Context { last, things, .. } = *context;
    let found = told(bytes, at, context, head, |record, scheme| {
        let type_of = |id| seats.thing(things, id).map(|thing| thing.kind);
        let (row, column, rights) = read_cell(record, scheme, type_of, last)?;
        let place = seats.seat_in(things, row) * SEATS + seats.seat_in(things, column);
        Ok(vec![row.into(), column.into(), place as u64, rights])
    });
    Said::default().answer("matrix_records::read_cell", found)
}
