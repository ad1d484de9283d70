//! Spoils one record of a stored matrix, old or new, so that each kind of record meets each fault that it can have: of damage at random hardly any does.

use super::damage::{named, put_value, shorten, value};
use super::fields::{fields, records, Field, Span};
use super::random::Random;
use crate::bytes::{CELL, HELD_THING, MATRIX_HEAD, OLD_MATRIX_HEAD, THING};
use crate::matrix::{is_thing, Matrix};
use crate::scheme::Scheme;

/// The image of a matrix. The head, the first thing, a later one or a cell is spoiled, all as often where they are there.
pub fn spoil(random: &mut Random, image: &mut Vec<u8>, scheme: &Scheme, matrix: &Matrix) {
    let all = records(image);
    let things = all[1..]
        .iter()
        .filter(|record| is_thing(kind(image, **record)));
    let things: Vec<Span> = things.copied().collect();
    let cells: Vec<Span> = all[1 + things.len()..].to_vec();
    let record = match random.below(4) {
        0 if !things.is_empty() => things[0],
        1 if things.len() > 1 => *random.pick(&things[1..]),
        2 if !cells.is_empty() => *random.pick(&cells),
        _ => all[0],
    };
    if random.chance(1, 2) {
        return spoil_form(random, image, record);
    }
    match kind(image, record) {
        THING | HELD_THING => spoil_thing(random, image, scheme, record),
        CELL => spoil_cell(random, image, (scheme, matrix), record),
        _ => spoil_head(random, image, scheme),
    }
}

fn kind(image: &[u8], record: Span) -> u16 {
    u16::from_le_bytes([image[record.at + 2], image[record.at + 3]])
}

/// Kinds of other records, and such as look like one of those.
const KINDS: [u16; 12] = [
    OLD_MATRIX_HEAD,
    MATRIX_HEAD,
    THING,
    HELD_THING,
    CELL,
    CELL,
    0,
    6,
    9,
    0x0104,
    0x0307,
    0x0703,
];

/// What any record can have: it is missing, its front or its body is cut, its kind is another one, its length is wrong.
fn spoil_form(random: &mut Random, image: &mut Vec<u8>, record: Span) {
    let Span { at, end } = record;
    match random.below(7) {
        0 => image.truncate(at),
        1 => image.truncate(at + random.from_to(1, 3)),
        2 => image.truncate(random.from_to(at + 4, end - 1)),
        3 => image[at + 1] = 255,
        4 => {
            let kind = random.pick(&KINDS).to_le_bytes();
            image[at + 2..at + 4].copy_from_slice(&kind);
        }
        5 => shorten(image, record, random.from_to(1, end - at - 4)),
        _ => {
            image.insert(end, random.below(3) as u8);
            image[at] += 1;
        }
    }
}

/// Its n, or how many things it states.
fn spoil_head(random: &mut Random, image: &mut [u8], scheme: &Scheme) {
    let n = scheme.rights;
    match random.below(4) {
        0 => image[4] = *random.pick(&[0, 65, 255]),
        1 => image[4] = *random.pick(&[n % 64 + 1, (n + 30) % 64 + 1]),
        2 => image[5] = *random.pick(&[49, 50, 255]),
        _ => image[5] = image[5].wrapping_add(*random.pick(&[1, 255])),
    }
}

/// Its id (0, or that of the thing before, or less), its type, or the highest id of its image, where that has one.
fn spoil_thing(random: &mut Random, image: &mut [u8], scheme: &Scheme, thing: Span) {
    let ids = named(&fields(image), &["thing id"]);
    let place = ids.iter().position(|id| id.at == thing.at + 4);
    let place = place.expect("the image isn't damaged yet");
    let id = ids[place];
    let highest = named(&fields(image), &["highest"]).first().copied();
    match (random.below(4), highest) {
        (0, _) => put_value(image, id, 0),
        (1, _) if place > 0 => {
            let before = value(image, ids[place - 1]);
            let less = random.below(2) as u64;
            put_value(image, id, (before - less).max(1));
        }
        (2, Some(highest)) => {
            let lower = value(image, id) - 1;
            put_value(image, highest, lower);
        }
        _ => {
            let kind = *random.pick(&[scheme.types, scheme.types + 1, 255]);
            image[id.at + 2] = kind;
        }
    }
}

/// Its row or its column becomes that of no thing or of an object; its place that of the cell before; its rights too many or none.
fn spoil_cell(
    random: &mut Random,
    image: &mut [u8],
    (scheme, matrix): (&Scheme, &Matrix),
    cell: Span,
) {
    let field = |at, width| Field {
        at: cell.at + at,
        width,
        name: "",
    };
    let (row, column, rights) = (field(4, 2), field(6, 2), field(8, 8));
    let objects = matrix.things().iter();
    let objects = objects.filter(|(_, &kind)| !scheme.is_subject_type(kind));
    let objects: Vec<u16> = objects.map(|(&id, _)| id).collect();
    let strange = (1..=u16::MAX).find(|&id| matrix.type_of(id).is_none());
    let strange = strange.expect("no more than 48 things").into();
    match random.below(7) {
        0 => put_value(image, row, strange),
        1 => put_value(image, column, strange),
        2 if !objects.is_empty() => put_value(image, row, (*random.pick(&objects)).into()),
        3 if scheme.rights < 64 => {
            let right = 1 << scheme.rights;
            put_value(image, rights, value(image, rights) | right);
        }
        4 => put_value(image, rights, 0),
        _ if cell.at >= 20 && image[cell.at - 14] == CELL as u8 => {
            let before = cell.at - 16;
            image.copy_within(before + 4..before + 8, cell.at + 4);
        }
        _ => put_value(image, column, 0),
    }
}
