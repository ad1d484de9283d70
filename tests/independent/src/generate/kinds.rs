//! Damages the kinds of records: a thing's where no thing may stand, strange ones where one may; and what is wrong with a thing on hold.

use super::damage::{named, put_value, shorten, value};
use super::fields::{fields, records, Field, Span};
use super::random::Random;
use crate::bytes::{CELL, HELD_THING, THING};

/// Numbers that a reader could take for one of a thing's kinds, 4 and 8.
const STRANGE: [u16; 9] = [9, 9, 12, 0x0104, 0x0108, 0x0400, 0x0800, 0, 16];

/// Some record of a scheme or of a list becomes a thing on hold.
pub fn held_record(random: &mut Random, bytes: &mut [u8]) {
    let records = records(bytes);
    if !records.is_empty() {
        let record = *random.pick(&records);
        set_kind(bytes, record, HELD_THING);
    }
}

/// One damage of a matrix; one thing's mark alone may be turned, which is none.
pub fn of_matrix(random: &mut Random, bytes: &mut Vec<u8>) {
    let (things, cells) = (
        of_kinds(bytes, &[THING, HELD_THING]),
        of_kinds(bytes, &[CELL]),
    );
    match random.below(9) {
        0 if !cells.is_empty() => set_kind(bytes, *random.pick(&cells), HELD_THING),
        1 if !things.is_empty() => turn(bytes, *random.pick(&things)),
        2 | 3 if !things.is_empty() => {
            let kind = *random.pick(&STRANGE);
            set_kind(bytes, *random.pick(&things), kind);
        }
        4 | 5 if things.len() > 1 => {
            let first = random.below(things.len() - 1);
            fall(random, bytes, things[first], things[first + 1]);
        }
        6..=8 if !things.is_empty() => {
            let thing = *random.pick(&things);
            spoil_held(random, bytes, thing);
        }
        _ => held_head(bytes),
    }
}

fn of_kinds(bytes: &[u8], kinds: &[u16]) -> Vec<Span> {
    let mut records = records(bytes);
    records.retain(|record| kinds.contains(&kind(bytes, *record)));
    records
}

fn kind(bytes: &[u8], record: Span) -> u16 {
    u16::from_le_bytes([bytes[record.at + 2], bytes[record.at + 3]])
}

fn set_kind(bytes: &mut [u8], record: Span, kind: u16) {
    bytes[record.at + 2..record.at + 4].copy_from_slice(&kind.to_le_bytes());
}

fn held_head(bytes: &mut [u8]) {
    if let Some(&head) = records(bytes).first() {
        set_kind(bytes, head, HELD_THING);
    }
}

fn turn(bytes: &mut [u8], thing: Span) {
    let turned = match kind(bytes, thing) {
        THING => HELD_THING,
        _ => THING,
    };
    set_kind(bytes, thing, turned);
}

/// The second thing's id becomes the first one's, or one less, whichever of them is on hold.
fn fall(random: &mut Random, bytes: &mut [u8], first: Span, second: Span) {
    for thing in [first, second] {
        set_kind(bytes, thing, *random.pick(&[THING, HELD_THING]));
    }
    let id = value(bytes, id_field(bytes, first));
    let less = random.below(2) as u64;
    let field = id_field(bytes, second);
    put_value(bytes, field, (id - less).max(1));
}

/// A thing on hold with one of the faults that a thing can have.
fn spoil_held(random: &mut Random, bytes: &mut Vec<u8>, thing: Span) {
    set_kind(bytes, thing, HELD_THING);
    let id = id_field(bytes, thing);
    match random.below(6) {
        0 => put_value(bytes, id, 0),
        1 => {
            // An old image tells no highest id.
            let highest = named(&fields(bytes), &["highest"]);
            let lower = value(bytes, id) - 1;
            if let Some(&highest) = highest.first() {
                put_value(bytes, highest, lower);
            }
        }
        2 => bytes[id.at + 2] = *random.pick(&[16, 255]),
        3 => shorten(bytes, thing, random.from_to(1, 3)),
        4 => {
            bytes.insert(thing.end, 0);
            bytes[thing.at] += 1;
        }
        _ => bytes[thing.at + 1] = 255,
    }
}

fn id_field(bytes: &[u8], thing: Span) -> Field {
    let ids = named(&fields(bytes), &["thing id"]);
    let inside = ids.into_iter().find(|id| id.at == thing.at + 4);
    inside.expect("the matrix is undamaged")
}
