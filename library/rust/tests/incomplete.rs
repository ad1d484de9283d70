//! A matrix with entries missing, the poorer, beside the complete one, the richer: of a scheme that tests no absence.

use slushferret::{run, write_request, ANSWER_BYTES, MATRIX_BYTES};
use std::collections::{BTreeMap, BTreeSet};

/// Rights: 0 own, 1 sign, 2 loaded. Types: 0 manager, 1 key, both subjects. It creates and destroys:
/// issue(M manager, K key): create K, enter own in [M, K], enter sign in [K, M];
/// stop(M, K): if own in [M, K], delete sign from [K, M];
/// load(M, K): if sign in [K, M], enter loaded in [K, M];
/// scrap(M, K): if own in [M, K], destroy K.
const SCHEME: [u8; 81] = [
    5, 0, 1, 0, 3, 2, 3, 0, 4, 17, 0, 2, 0, 2, 0, 1, 0, 3, 3, 0, 1, 0, 1, 0, 0, 1, 1, 1, 1, 0, 13,
    0, 2, 0, 2, 0, 1, 1, 1, 0, 0, 1, 1, 2, 1, 1, 0, 13, 0, 2, 0, 2, 0, 1, 1, 1, 1, 1, 0, 1, 1, 2,
    1, 0, 13, 0, 2, 0, 2, 0, 1, 1, 1, 0, 0, 1, 1, 4, 0, 1, 0,
];
const ISSUE: u8 = 0;
const STOP: u8 = 1;
const LOAD: u8 = 2;
const SCRAP: u8 = 3;

/// 5 is a manager; 9, 10 and 11 are keys, and 12 is one on hold; there never was an id above 20.
const THINGS: [u8; 43] = [
    4, 0, 7, 0, 3, 5, 20, 0, 3, 0, 4, 0, 5, 0, 0, 3, 0, 4, 0, 9, 0, 1, 3, 0, 4, 0, 10, 0, 1, 3, 0,
    4, 0, 11, 0, 1, 3, 0, 8, 0, 12, 0, 1,
];

/// Row, column and right.
type Entry = (u16, u16, u8);

const OWN: u8 = 0;
const SIGN: u8 = 1;
const LOADED: u8 = 2;
const COMPLETE: [Entry; 8] = [
    (5, 9, OWN),
    (5, 10, OWN),
    (5, 11, OWN),
    (5, 12, OWN),
    (9, 5, SIGN),
    (9, 5, LOADED),
    (10, 5, SIGN),
    (12, 11, SIGN),
];

/// The matrix of the things above with these entries.
fn image(entries: impl Iterator<Item = Entry>) -> Vec<u8> {
    let mut cells = BTreeMap::<_, u64>::new();
    for (row, column, right) in entries {
        *cells.entry((row, column)).or_default() |= 1 << right;
    }
    let mut bytes = THINGS.to_vec();
    for ((row, column), rights) in cells {
        bytes.extend([12, 0, 5, 0]);
        bytes.extend(row.to_le_bytes());
        bytes.extend(column.to_le_bytes());
        bytes.extend(rights.to_le_bytes());
    }
    bytes
}

/// What a matrix has before its cells, and its entries.
fn parts(image: &[u8]) -> (&[u8], BTreeSet<Entry>) {
    let (things, cells) = image.split_at(8 + 7 * usize::from(image[5]));
    let mut entries = BTreeSet::new();
    for cell in cells.chunks(16) {
        let id = |at| u16::from_le_bytes([cell[at], cell[at + 1]]);
        let rights = (OWN..=LOADED).filter(|right| cell[8] >> right & 1 == 1);
        entries.extend(rights.map(|right| (id(4), id(6), right)));
    }
    (things, entries)
}

/// So many bytes a request of two ids takes.
const REQUEST: usize = 10;

/// The answers to a list, and the matrix afterwards.
fn ran(matrix: &[u8], list: &[u8]) -> (Vec<u8>, Vec<u8>) {
    let mut answers = vec![99; list.len() / REQUEST * ANSWER_BYTES];
    let mut after = vec![99; MATRIX_BYTES];
    let ran = run(&SCHEME, matrix, list, &mut answers, &mut after).unwrap();
    assert_eq!(ran.answers * ANSWER_BYTES, answers.len());
    after.truncate(ran.written);
    (answers, after)
}

fn list() -> [u8; 6 * REQUEST] {
    let (mut bytes, mut at) = ([0; 6 * REQUEST], 0);
    let requests = [
        (ISSUE, 21),
        (LOAD, 9),
        (STOP, 21),
        (SCRAP, 11),
        (SCRAP, 10),
        (LOAD, 10),
    ];
    for (command, key) in requests {
        at = write_request(command, &[5, key], &mut bytes, at).unwrap();
    }
    bytes
}

/// How many requests of the list the poorer carries out up to its first refusal, with what is promised of each.
fn carried_out(poorer: &[u8], richer: &[u8]) -> usize {
    let list = list();
    let (answers, of_richer) = (ran(poorer, &list).0, ran(richer, &list).0);
    let numbers = answers.chunks(ANSWER_BYTES).map(|answer| answer[0]);
    let count = numbers.take_while(|&number| number == 0).count();
    let equal = count * ANSWER_BYTES;
    assert_eq!(answers[..equal], of_richer[..equal]);
    for done in 1..=count {
        let requests = &list[..done * REQUEST];
        let (after, of_richer) = (ran(poorer, requests).1, ran(richer, requests).1);
        let ((things, entries), (same, all)) = (parts(&after), parts(&of_richer));
        assert_eq!(things, same);
        assert!(entries.is_subset(&all), "{entries:?} after {done}");
    }
    count
}

#[test]
fn with_entries_missing_it_is_stricter() {
    let richer = image(COMPLETE.into_iter());
    let mut total = 0;
    for left in 0..1 << COMPLETE.len() {
        let entries = (0..COMPLETE.len()).filter(|k| left >> k & 1 == 1);
        let poorer = image(entries.map(|k| COMPLETE[k]));
        total += carried_out(&poorer, &richer);
    }
    // The first needs no entry, the second sign in [9, 5], the third none of these, the next two own in [5, 11] and in
    // [5, 10]; the last names a thing that is gone.
    assert_eq!(total, 256 + 128 + 128 + 64 + 32);
}

#[test]
fn behind_the_first_refusal_it_may_be_looser() {
    let poorer = image(COMPLETE.into_iter().filter(|&entry| entry != (5, 10, OWN)));
    let richer = image(COMPLETE.into_iter());
    let ((answers, after), (of_richer, all)) = (ran(&poorer, &list()), ran(&richer, &list()));
    // key 10 can't be scrapped, and so it loads
    assert_eq!(answers[4 * ANSWER_BYTES..], [14, 0, 1, 0, 255, 2]);
    assert_eq!(of_richer[4 * ANSWER_BYTES..], [0, 255, 2, 12, 255, 0]);
    let (entries, all) = (parts(&after).1, parts(&all).1);
    let more: Vec<_> = entries.difference(&all).copied().collect();
    assert_eq!(more, [(10, 5, SIGN), (10, 5, LOADED)]);
}
