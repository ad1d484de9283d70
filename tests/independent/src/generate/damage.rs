//! Damages bytes in the ways that reach every refusal of a reading.

use super::fields::{fields, quads, records, Field, Span};
use super::random::Random;

/// One damage, at times two.
pub fn damage(random: &mut Random, bytes: &mut Vec<u8>) {
    for _ in 0..if random.chance(1, 8) { 2 } else { 1 } {
        match random.below(24) {
            0 | 1 => change_byte(random, bytes),
            2 => cut(random, bytes),
            3 => insert(random, bytes),
            4 => take_out(random, bytes),
            5 | 6 => swap_records(random, bytes),
            7 => repeat_record(random, bytes),
            8 => drop_record(random, bytes),
            9 => lengthen_body(random, bytes),
            10 => shorten_body(random, bytes),
            11 => swap_quads(random, bytes),
            12 => copy_quad(random, bytes),
            13 | 14 => change_record(random, bytes),
            15..=17 => aim(random, bytes),
            18 => old_head(random, bytes),
            19 => lower_highest(random, bytes),
            _ => change_field(random, bytes),
        }
    }
}

fn change_byte(random: &mut Random, bytes: &mut [u8]) {
    if !bytes.is_empty() {
        let at = random.below(bytes.len());
        bytes[at] = random.draw() as u8;
    }
}

/// Cuts anywhere, or between two records.
fn cut(random: &mut Random, bytes: &mut Vec<u8>) {
    let at = some_place(random, bytes);
    bytes.truncate(at);
}

fn insert(random: &mut Random, bytes: &mut Vec<u8>) {
    let at = some_place(random, bytes);
    let some: Vec<u8> = (0..random.from_to(1, 5))
        .map(|_| random.below(7) as u8)
        .collect();
    bytes.splice(at..at, some);
}

fn take_out(random: &mut Random, bytes: &mut Vec<u8>) {
    let at = some_place(random, bytes);
    let end = bytes.len().min(at + random.from_to(1, 5));
    bytes.drain(at..end);
}

fn some_place(random: &mut Random, bytes: &[u8]) -> usize {
    let records = records(bytes);
    if records.is_empty() || random.chance(1, 2) {
        random.below(bytes.len() + 1)
    } else {
        random.pick(&records).end
    }
}

fn swap_records(random: &mut Random, bytes: &mut Vec<u8>) {
    let records = records(bytes);
    if records.len() < 2 {
        return;
    }
    let first = random.below(records.len() - 1);
    let second = match random.chance(1, 2) {
        true => first + 1,
        false => random.from_to(first + 1, records.len() - 1),
    };
    swap_spans(bytes, records[first], records[second]);
}

fn swap_spans(bytes: &mut Vec<u8>, first: Span, second: Span) {
    let mut swapped = bytes[..first.at].to_vec();
    swapped.extend(&bytes[second.at..second.end]);
    swapped.extend(&bytes[first.end..second.at]);
    swapped.extend(&bytes[first.at..first.end]);
    swapped.extend(&bytes[second.end..]);
    *bytes = swapped;
}

fn repeat_record(random: &mut Random, bytes: &mut Vec<u8>) {
    let records = records(bytes);
    if !records.is_empty() {
        let record = *random.pick(&records);
        let copy = bytes[record.at..record.end].to_vec();
        bytes.splice(record.end..record.end, copy);
    }
}

fn drop_record(random: &mut Random, bytes: &mut Vec<u8>) {
    let records = records(bytes);
    if !records.is_empty() {
        let record = *random.pick(&records);
        bytes.drain(record.at..record.end);
    }
}

/// A byte more at a body's end, and the length says so.
fn lengthen_body(random: &mut Random, bytes: &mut Vec<u8>) {
    let records = records(bytes);
    if !records.is_empty() {
        let record = *random.pick(&records);
        bytes.insert(record.end, random.below(3) as u8);
        set_length(bytes, record.at, record.end - record.at - 4 + 1);
    }
}

/// Some bytes fewer at a body's end, and the length says so.
fn shorten_body(random: &mut Random, bytes: &mut Vec<u8>) {
    let records = records(bytes);
    if !records.is_empty() {
        let record = *random.pick(&records);
        let fewer = random.from_to(1, 5);
        shorten(bytes, record, fewer);
    }
}

pub(super) fn shorten(bytes: &mut Vec<u8>, record: Span, fewer: usize) {
    let length = record.end - record.at - 4;
    let fewer = fewer.min(length);
    bytes.drain(record.end - fewer..record.end);
    set_length(bytes, record.at, length - fewer);
}

fn set_length(bytes: &mut [u8], at: usize, length: usize) {
    bytes[at..at + 2].copy_from_slice(&(length as u16).to_le_bytes());
}

/// Two tests or two operations of one command change places.
fn swap_quads(random: &mut Random, bytes: &mut Vec<u8>) {
    let quads = quads(bytes);
    if !quads.is_empty() {
        let group = random.pick(&quads);
        let first = random.below(group.len() - 1);
        let second = random.from_to(first + 1, group.len() - 1);
        swap_spans(bytes, group[first], group[second]);
    }
}

/// A test or operation is put over another: a create or destroy comes twice.
fn copy_quad(random: &mut Random, bytes: &mut [u8]) {
    let quads = quads(bytes);
    if !quads.is_empty() {
        let group = random.pick(&quads);
        let (from, to) = (*random.pick(group), *random.pick(group));
        bytes.copy_within(from.at..from.end, to.at);
    }
}

/// A field of some name gets a value that may be wrong for it; rare names are aimed at as often as others.
fn change_field(random: &mut Random, bytes: &mut [u8]) {
    let fields = fields(bytes);
    let mut names: Vec<&str> = fields.iter().map(|field| field.name).collect();
    names.sort_unstable();
    names.dedup();
    if !names.is_empty() {
        let name = *random.pick(&names);
        let field = *random.pick(&named(&fields, &[name]));
        set_field(random, bytes, &fields, field);
    }
}

/// Fields that get the value of one of the named fields, or 0 where none is named; each leads to a rare form fault.
const AIMS: &[(&str, &[&str])] = &[
    ("create row", &["test row", "test column"]),
    ("create right", &["parameters"]),
    ("create column", &["parameters"]),
    ("create row", &["create row"]),
    ("destroy row", &["destroy row"]),
    ("destroy right", &["parameters"]),
    ("destroy column", &["parameters"]),
    ("test row", &["test column", "operation column"]),
    ("operation row", &["operation column", "create row"]),
    ("enter or delete", &["create", "destroy"]),
    ("cell row", &["cell column", "thing id"]),
    ("cell rights", &[]),
    ("thing id", &[]),
    ("highest", &["thing id"]),
];

fn aim(random: &mut Random, bytes: &mut [u8]) {
    let (records, fields) = (records(bytes), fields(bytes));
    let record_of = |field: &Field| records.iter().position(|record| record.end > field.at);
    // A parameter's place means something only in its own command; an id does everywhere.
    let may_take = |to: &Field, from: &Field| {
        to.at != from.at && (to.width > 1 || record_of(to) == record_of(from))
    };
    let (name, names) = *random.pick(AIMS);
    let sources: Vec<Field> = named(&fields, names);
    let mut targets = named(&fields, &[name]);
    targets.retain(|to| names.is_empty() || sources.iter().any(|from| may_take(to, from)));
    if targets.is_empty() {
        return change_field(random, bytes);
    }
    let target = *random.pick(&targets);
    let sources: Vec<Field> = sources
        .into_iter()
        .filter(|from| may_take(&target, from))
        .collect();
    let new = if sources.is_empty() {
        0
    } else {
        value(bytes, *random.pick(&sources))
    };
    put_value(bytes, target, new);
}

/// A head of before has kind 3 and no highest id; or only one of the two is as it was before.
fn old_head(random: &mut Random, bytes: &mut Vec<u8>) {
    let Some(highest) = highest_field(bytes) else {
        return change_field(random, bytes);
    };
    let front = highest.at - 6;
    let (has_kind, has_length) =
        *random.pick(&[(true, true), (true, true), (true, false), (false, true)]);
    if has_kind {
        bytes[front + 2] = 3;
    }
    if has_length {
        bytes.drain(highest.at..highest.at + highest.width);
        set_length(bytes, front, 2);
    }
}

/// The highest id is below a thing's. At times more is wrong with that thing, which comes later: its type, or its body's end.
fn lower_highest(random: &mut Random, bytes: &mut Vec<u8>) {
    let things = named(&fields(bytes), &["thing id"]);
    let highest = highest_field(bytes).filter(|_| !things.is_empty());
    let Some(highest) = highest else {
        return change_field(random, bytes);
    };
    let thing = *random.pick(&things);
    let less = *random.pick(&[1, 1, 2, 40]);
    let lower = value(bytes, thing).saturating_sub(less);
    put_value(bytes, highest, lower);
    let record = records(bytes)
        .into_iter()
        .find(|record| record.end > thing.at);
    let record = record.expect("the id stands in a record");
    match random.below(4) {
        0 if record.end > thing.at + 2 => bytes[thing.at + 2] = 255,
        1 => shorten(bytes, record, 1),
        _ => {}
    }
}

fn highest_field(bytes: &[u8]) -> Option<Field> {
    named(&fields(bytes), &["highest"]).first().copied()
}

pub(super) fn named(fields: &[Field], names: &[&str]) -> Vec<Field> {
    fields
        .iter()
        .copied()
        .filter(|field| names.contains(&field.name))
        .collect()
}

/// Several fields of one record, at times its body's end too: of several faults the first must be found.
fn change_record(random: &mut Random, bytes: &mut Vec<u8>) {
    let records = records(bytes);
    if records.is_empty() {
        return;
    }
    let record = *random.pick(&records);
    let all = fields(bytes);
    // The length is spared mostly: without it the fields behind it aren't looked at.
    let spared = if random.chance(1, 8) { 0 } else { 2 };
    let inside: Vec<Field> = all
        .iter()
        .copied()
        .filter(|field| (record.at + spared..record.end).contains(&field.at))
        .collect();
    for _ in 0..random.from_to(2, 4) {
        let field = *random.pick(&inside);
        set_field(random, bytes, &all, field);
    }
    if spared == 2 && random.chance(1, 3) {
        let length = record.end - record.at - 4;
        let kept = random.below(length + 1);
        bytes.drain(record.at + 4 + kept..record.end);
        set_length(bytes, record.at, kept);
    }
}

/// Stores a value that may be wrong: near the old one, at an edge, or taken from a field of the same width.
fn set_field(random: &mut Random, bytes: &mut [u8], fields: &[Field], field: Field) {
    let alike: Vec<Field> = fields
        .iter()
        .copied()
        .filter(|other| other.width == field.width)
        .collect();
    let near: Vec<Field> = alike
        .iter()
        .copied()
        .filter(|other| other.at.abs_diff(field.at) < 40)
        .collect();
    let old = value(bytes, field);
    let new = match random.below(11) {
        0 | 1 => 0,
        2 => old.wrapping_add(1),
        3 => old.wrapping_sub(1),
        4 => u64::MAX,
        5 => old ^ 1 << random.below(8 * field.width),
        6 => random.below(66) as u64,
        7 => value(bytes, *random.pick(&alike)),
        8 | 9 => value(bytes, *random.pick(&near)),
        _ => random.below(10) as u64,
    };
    put_value(bytes, field, new);
}

pub(super) fn put_value(bytes: &mut [u8], field: Field, value: u64) {
    bytes[field.at..field.at + field.width].copy_from_slice(&value.to_le_bytes()[..field.width]);
}

pub(super) fn value(bytes: &[u8], field: Field) -> u64 {
    let mut value = [0; 8];
    value[..field.width].copy_from_slice(&bytes[field.at..field.at + field.width]);
    u64::from_le_bytes(value)
}
