//! Marks in bytes: kind 8 wherever a record may stand, things on hold that are refused like others, and marks written, converted and read again.

use super::examples::{changed, changed_rows, key_matrix, key_scheme, Row, KEY_MATRIX};
use super::seats::Seat;
use super::tasks::{At, Context, Read};
use super::{case, largest, Case, Task};
use crate::bytes::{CELL, HELD_THING, MATRIX_HEAD, THING};
use crate::matrix::{write_matrix, Matrix};
use crate::scheme::write_scheme;

pub fn cases() -> Vec<Case> {
    let mut cases = vec![key_scheme("scheme-of-marks"), key_matrix("matrix-of-marks")];
    for (label, bytes) in changed_rows(&KEY_MATRIX, REFUSED) {
        cases.push(case(label, Task::ReadMatrix(bytes)));
    }
    for (label, bytes) in changed_rows(&KEY_MATRIX, HELD) {
        cases.extend(read_and_written(label, bytes));
    }
    cases.extend(parts());
    cases.extend(of_seats());
    cases.extend(full());
    cases
}

/// The key example with marks, whole and with what is refused, each with its label.
pub fn of_key() -> Vec<(&'static str, Vec<u8>)> {
    changed_rows(&KEY_MATRIX, &[HELD, REFUSED].concat())
}

// ---- whole matrices: things at 8, 15 and 22, so that their kinds stand at 10, 17 and 24; those of the cells at 31 and 47

/// On hold are the second of the things, the two others, and all.
const HELD: &[Row] = &[
    ("held-9", &[(17, 8)], 61),
    ("held-5-12", &[(10, 8), (24, 8)], 61),
    ("held-all", &[(10, 8), (17, 8), (24, 8)], 61),
];

const REFUSED: &[Row] = &[
    ("held-head", &[(2, 8)], 61),
    ("held-cell", &[(31, 8)], 61),
    ("held-second-cell", &[(47, 8)], 61),
    ("held-third-of-two", &[(5, 2), (24, 8)], 61),
    ("held-fourth-missing", &[(5, 4), (24, 8)], 29),
    ("cell-for-fourth-held", &[(5, 4), (24, 8)], 61),
    ("kind-9-for-thing", &[(10, 9)], 61),
    ("kind-12-for-thing", &[(10, 12)], 61),
    ("kind-0-for-thing", &[(10, 0)], 61),
    ("kind-260-for-thing", &[(11, 1)], 61),
    ("kind-264-for-thing", &[(10, 8), (11, 1)], 61),
    ("kind-2048-for-thing", &[(10, 0), (11, 8)], 61),
    ("kind-9-behind-held", &[(10, 8), (17, 9)], 61),
    ("held-id-0", &[(10, 8), (12, 0)], 61),
    ("held-id-same", &[(17, 8), (19, 5)], 61),
    ("id-same-behind-held", &[(10, 8), (19, 5)], 61),
    ("held-id-same-behind-held", &[(10, 8), (17, 8), (19, 5)], 61),
    ("held-id-below", &[(24, 8), (26, 8)], 61),
    ("id-below-behind-held", &[(17, 8), (26, 8)], 61),
    ("held-above-highest", &[(6, 11), (24, 8)], 61),
    ("held-same-above-highest", &[(6, 8), (17, 8), (19, 5)], 61),
    ("held-above-type-3", &[(6, 11), (24, 8), (28, 3)], 61),
    ("held-type-3", &[(10, 8), (14, 3)], 61),
    ("held-length-0", &[(8, 0), (10, 8)], 61),
    ("held-length-1", &[(8, 1), (10, 8)], 61),
    ("held-length-2", &[(8, 2), (10, 8)], 61),
    ("held-length-4", &[(8, 4), (10, 8)], 61),
    ("held-past-end", &[(9, 1), (10, 8)], 61),
    ("held-cut", &[(24, 8)], 28),
    ("held-front-cut", &[(10, 8)], 11),
    ("held-row-robot", &[(17, 8), (33, 12)], 61),
];

/// Read over a matrix of other marks, by both readings, then written again into just enough and into a byte less; and as a robot's.
fn read_and_written(label: &str, bytes: Vec<u8>) -> Vec<Case> {
    let named = |end: &str, task: Task| case(format!("{label}{end}"), task);
    vec![
        named("", Task::ReadMatrix(bytes.clone())),
        named("-totals", Task::Totals),
        named("-written", Task::WriteMatrix(61)),
        named("-short", Task::WriteMatrix(60)),
        named("-of-robot", Task::ConvertMatrix(125)),
        named("-by-head", Task::ReadMatrixByHead(bytes)),
        named("-written-by-head", Task::WriteMatrixByHead(61)),
        named("-cells-where-they-lie", Task::ConvertedCells),
    ]
}

// ---- single records, against sets of kinds

/// The key's record, and what stands in other places, of each kind that a thing could have, where one of two, one or no kind may stand.
fn parts() -> Vec<Case> {
    let house = 1 << THING | 1 << HELD_THING;
    let sets = [
        ("both", house),
        ("free", 1 << THING),
        ("held", 1 << HELD_THING),
    ];
    let mut cases = Vec::new();
    for (name, kinds) in sets {
        for kind in [THING, HELD_THING, 9, 264, 2_048] {
            let [low, high] = kind.to_le_bytes();
            let changes = [(17, low), (18, high)];
            let label = format!("mark-{kind}-of-{name}");
            cases.push(thing(&label, &changes, kinds, (5, 12)));
        }
    }
    for (end, changes, last_and_highest) in THINGS {
        let changes = [&[(17, 8)], *changes].concat();
        let label = format!("mark-{end}");
        cases.push(thing(&label, &changes, house, *last_and_highest));
    }
    cases.extend(other_places());
    cases
}

/// A label, changes, and the id before and the highest.
type Thing = (&'static str, &'static [(usize, u8)], (u16, u16));

/// In field order as for any thing: 3, 6 (of 0), 7, 6 (of the highest), 5, 3.
const THINGS: &[Thing] = &[
    ("of-0", &[(15, 0)], (5, 12)),
    ("of-1", &[(15, 1)], (5, 12)),
    ("id-0", &[(19, 0)], (5, 12)),
    ("behind-9", &[], (9, 12)),
    ("behind-9-of-8", &[], (9, 8)),
    ("behind-8-of-8", &[(21, 3)], (8, 8)),
    ("behind-8-of-9", &[], (8, 9)),
    ("type-3", &[(15, 4), (21, 3)], (5, 12)),
    ("of-4", &[(15, 4)], (5, 12)),
];

/// The thing at 15, behind a thing of an id, where the head stated a highest one.
fn thing(label: &str, changes: &[(usize, u8)], kinds: u16, (last, highest): (u16, u16)) -> Case {
    let context = Context {
        kinds,
        last: (last, 0),
        things: 3,
        highest,
    };
    at(label, changes, 15, Read::Thing(context))
}

fn at(label: &str, changes: &[(usize, u8)], at: u64, what: Read) -> Case {
    let bytes = changed(&KEY_MATRIX, changes, 61);
    case(label, Task::At(At { bytes, at, what }))
}

/// A thing on hold as a head, as a cell and as a request; and any record of its kind.
fn other_places() -> Vec<Case> {
    let context = |kind: u16| Context {
        kinds: 1 << kind,
        last: (0, 0),
        things: 3,
        highest: 12,
    };
    let kinds = 1 << HELD_THING;
    let head = Read::MatrixHead(context(MATRIX_HEAD));
    let cell = Read::Cell(context(CELL));
    vec![
        at("mark-as-head", &[(2, 8)], 0, head),
        at("mark-as-cell", &[(31, 8)], 29, cell),
        at("mark-as-request", &[(17, 8)], 15, Read::Request),
        at("mark-as-record", &[(17, 8)], 15, Read::Record { kinds }),
        at("mark-of-no-record", &[], 15, Read::Record { kinds }),
    ]
}

// ---- seats

fn put(label: &str, seat: u64, thing: Seat) -> Case {
    case(label, Task::PutThing { seat, thing })
}

/// Things on hold at the first seat and at the last, written by rising id; and marks that seats had before.
fn of_seats() -> Vec<Case> {
    vec![
        key_matrix("matrix-of-marked-seats"),
        put("mark-at-0", 0, Seat::of(5, 0).on_hold()),
        case("mark-at-0-written", Task::WriteMatrix(61)),
        put("mark-at-47", 47, Seat::of(7, 1).on_hold()),
        case("mark-at-47-accepted", Task::Accepted),
        case("mark-at-47-written", Task::WriteMatrix(68)),
        put("mark-at-48", 48, Seat::of(8, 1).on_hold()),
        put("mark-free-at-49", 49, Seat::of(0, 0).on_hold()),
        case("mark-past-written", Task::WriteMatrix(68)),
        put("mark-over-47", 47, Seat::of(7, 1)),
        case("mark-over-47-written", Task::WriteMatrix(68)),
        put("mark-free-47", 47, Seat::of(0, 0).on_hold()),
        case("mark-free-47-accepted", Task::Accepted),
        put("mark-free-47-off", 47, Seat::of(0, 0)),
        case("mark-free-47-off-accepted", Task::Accepted),
        put("mark-free-3", 3, Seat::of(0, 0).on_hold()),
        case("mark-free-3-accepted", Task::Accepted),
        case("no-things-no-marks", Task::NoThings),
        case("no-things-no-marks-accepted", Task::Accepted),
    ]
}

/// The largest matrix, all of it on hold: read and written into just enough and into a byte less.
fn full() -> Vec<Case> {
    let scheme = largest::scheme(64, 32);
    let mut matrix: Matrix = largest::matrix(&scheme, |_, _| u64::MAX);
    for id in 1..=48 {
        matrix.set_held(id, true);
    }
    let bytes = write_matrix(&matrix, &scheme);
    vec![
        case("marks-full-scheme", Task::ReadScheme(write_scheme(&scheme))),
        case("marks-full", Task::ReadMatrix(bytes)),
        case("marks-full-written", Task::WriteMatrix(37_208)),
        case("marks-full-short", Task::WriteMatrix(37_207)),
        case("marks-full-totals", Task::Totals),
    ]
}
