//! Text and numbers put into a buffer: where they fit, where their end is past the buffer's, past it altogether, and at the largest position.

use std::collections::BTreeSet;

use super::tasks::{Store, Stored};
use super::{case, Case, Task};

pub fn cases() -> Vec<Case> {
    let mut cases = Vec::new();
    cases.extend(put("text", b"key".len(), Stored::Text(b"key".to_vec())));
    cases.extend(put("no-text", 0, Stored::Text(vec![])));
    for (number, digits) in [
        (0, 1),
        (1, 1),
        (9, 1),
        (10, 2),
        (99, 2),
        (100, 3),
        (4_294_967_296, 10),
        (9_999_999_999_999_999_999, 19),
        (10_000_000_000_000_000_000, 20),
        (u64::MAX, 20),
    ] {
        let label = format!("decimal-{number}");
        cases.extend(put(&label, digits, Stored::Decimal(number)));
        for end in [0, 10, 32, 255] {
            let label = format!("number-{number}-end-{end}");
            cases.extend(put(&label, digits + 1, Stored::Number(number, end)));
        }
    }
    for (label, length, numbers) in [
        ("none", 0, vec![]),
        ("0", 2, vec![0]),
        ("10-0", 5, vec![10, 0]),
        ("largest", 84, vec![u64::MAX; 4]),
        ("places", 16, vec![1, 22, 333, 4_444_444]),
    ] {
        let label = format!("line-{label}");
        cases.extend(put(&label, length, Stored::Line(numbers)));
    }
    cases
}

/// So many bytes, into just enough and into a byte more and less, into nothing; and up to the end of a buffer, over it, and far behind.
fn put(label: &str, length: usize, what: Stored) -> Vec<Case> {
    let length = length as u64;
    let less = length.saturating_sub(1);
    let last = [length + 1, length, 1, 0].map(|before| (u64::MAX - before, 100));
    let places = [
        (0, 0),
        (0, less),
        (0, length),
        (0, length + 1),
        (7, 7 + less),
        (7, 7 + length),
        (99, 100),
        (100, 100),
        (101, 100),
    ];
    let places: BTreeSet<(u64, u64)> = places.into_iter().chain(last).collect();
    let store = |(at, room)| {
        let label = format!("put-{label}-at-{at}-of-{room}");
        let what = what.clone();
        case(label, Task::Store(Store { room, at, what }))
    };
    places.into_iter().map(store).collect()
}
