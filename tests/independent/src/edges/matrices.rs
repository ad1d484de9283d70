//! Matrices of the key example's scheme read, with single bytes changed; then its matrix written.

use super::examples::{
    changed, changed_rows, key_matrix, key_scheme, set_cell, Row, KEY_MATRIX, KEY_SCHEME,
};
use super::seats::{Seat, MOST_CELLS};
use super::{case, Case, Task};
use crate::matrix::read_matrix;
use crate::scheme::read_scheme;

/// The fronts, the lengths and the head. A head of kind 3 is one of before: it may stand nowhere, whatever its body is.
const FRONTS: &[Row] = &[
    ("key-matrix", &[], 61),
    ("matrix-empty", &[], 0),
    ("matrix-head-cut", &[], 7),
    ("no-thing", &[], 8),
    ("no-cell", &[], 29),
    ("thing-cut", &[], 28),
    ("cell-front-cut", &[], 32),
    ("cell-cut", &[], 60),
    ("matrix-one-more", &[], 62),
    ("matrix-kind-1", &[(2, 1)], 61),
    ("matrix-kind-3", &[(2, 3)], 61),
    ("matrix-kind-263", &[(3, 1)], 61),
    ("kind-5-for-thing", &[(10, 5)], 61),
    ("kind-7-for-thing", &[(10, 7)], 61),
    ("kind-4-for-cell", &[(31, 4)], 61),
    ("kind-7-for-cell", &[(31, 7)], 61),
    ("thing-length-2", &[(8, 2)], 61),
    ("cell-length-11", &[(29, 11)], 61),
    ("cell-length-13", &[(29, 13)], 61),
    ("head-n-5", &[(4, 5)], 61),
    ("head-n-0", &[(4, 0)], 61),
    ("head-n-65", &[(4, 65)], 61),
    ("things-0", &[(5, 0)], 8),
    ("things-2", &[(5, 2)], 61),
    ("things-48", &[(5, 48)], 61),
    ("things-49", &[(5, 49)], 61),
    ("things-4-no-cell", &[(5, 4)], 29),
];

/// A head's body of every length up to one byte too many, whole and with one of its faults: its last field ends at 4.
const HEAD_LENGTHS: &[Row] = &[
    ("matrix-head-length-0", &[(0, 0)], 61),
    ("matrix-head-length-1", &[(0, 1)], 61),
    ("matrix-head-length-2", &[(0, 2)], 61),
    ("matrix-head-length-3", &[(0, 3)], 61),
    ("matrix-head-length-5", &[(0, 5)], 61),
    ("head-length-1-n-5", &[(0, 1), (4, 5)], 61),
    ("head-length-1-things-49", &[(0, 1), (5, 49)], 61),
    ("head-length-2-things-49", &[(0, 2), (5, 49)], 61),
    ("head-length-3-things-49", &[(0, 3), (5, 49)], 61),
    ("head-length-5-n-5", &[(0, 5), (4, 5)], 61),
    ("head-length-2-kind-3", &[(0, 2), (2, 3)], 61),
    ("head-alone-length-3", &[(0, 3)], 7),
    ("head-alone-length-5", &[(0, 5), (5, 0)], 9),
];

/// The highest id, which may be any number that isn't below a thing's; without things any number.
const HIGHESTS: &[Row] = &[
    ("highest-13", &[(6, 13)], 61),
    ("highest-256", &[(6, 0), (7, 1)], 61),
    ("highest-268", &[(7, 1)], 61),
    ("highest-3072", &[(6, 0), (7, 12)], 61),
    ("highest-32768", &[(6, 0), (7, 128)], 61),
    ("highest-65535", &[(6, 255), (7, 255)], 61),
    ("highest-11", &[(6, 11)], 61),
    ("highest-9", &[(6, 9)], 61),
    ("highest-8", &[(6, 8)], 61),
    ("highest-5", &[(6, 5)], 61),
    ("highest-4", &[(6, 4)], 61),
    ("highest-0", &[(6, 0)], 61),
    ("things-2-highest-9", &[(5, 2), (6, 9)], 22),
    ("things-2-highest-8", &[(5, 2), (6, 8)], 22),
    ("things-1-highest-5", &[(5, 1), (6, 5)], 15),
    ("things-1-highest-4", &[(5, 1), (6, 4)], 15),
    ("things-0-highest-0", &[(5, 0), (6, 0)], 8),
    ("things-0-highest-1", &[(5, 0), (6, 1)], 8),
    ("things-0-highest-256", &[(5, 0), (6, 0), (7, 1)], 8),
    ("things-0-highest-65534", &[(5, 0), (6, 254), (7, 255)], 8),
    ("things-0-highest-65535", &[(5, 0), (6, 255), (7, 255)], 8),
];

/// The things. At an id 0 is found before one that isn't above the last (7), that before one that is above the highest (6), and that before the type (5).
const THINGS: &[Row] = &[
    ("id-0", &[(12, 0)], 61),
    ("id-same", &[(19, 5)], 61),
    ("id-below", &[(26, 8)], 61),
    ("id-65535", &[(6, 255), (7, 255), (26, 255), (27, 255)], 29),
    (
        "id-65535-above",
        &[(6, 254), (7, 255), (26, 255), (27, 255)],
        29,
    ),
    ("id-13-above", &[(26, 13)], 61),
    ("id-268-above", &[(27, 1)], 61),
    ("id-268-highest-268", &[(7, 1), (27, 1)], 29),
    ("id-268-highest-267", &[(6, 11), (7, 1), (27, 1)], 29),
    ("thing-type-3", &[(14, 3)], 61),
    ("id-0-type-3", &[(12, 0), (14, 3)], 61),
    ("id-0-highest-0", &[(6, 0), (12, 0)], 61),
    ("second-id-0", &[(19, 0)], 61),
    ("id-same-type-3", &[(19, 5), (21, 3)], 61),
    ("id-same-as-highest", &[(6, 5), (19, 5)], 61),
    ("id-same-above-highest", &[(6, 4), (19, 5)], 61),
    ("id-above-type-3", &[(6, 11), (28, 3)], 61),
    ("id-above-length-1", &[(6, 11), (22, 1)], 61),
    ("id-above-length-2", &[(6, 11), (22, 2)], 61),
    ("id-above-length-4", &[(6, 11), (22, 4)], 61),
    ("first-id-above-second-0", &[(6, 4), (19, 0)], 61),
];

/// The cells.
const CELLS: &[Row] = &[
    ("row-unknown", &[(33, 6)], 61),
    ("row-robot", &[(33, 12)], 61),
    ("column-unknown", &[(35, 10)], 61),
    ("column-13-of-highest-13", &[(6, 13), (35, 13)], 61),
    ("row-0", &[(33, 0)], 61),
    ("place-same", &[(49, 5), (51, 9)], 61),
    ("column-below", &[(35, 12), (49, 5), (51, 9)], 61),
    ("row-below", &[(33, 9), (35, 5), (49, 5), (51, 12)], 61),
    ("own-column", &[(35, 5)], 61),
    ("right-3", &[(37, 15)], 61),
    ("right-4", &[(37, 16)], 61),
    ("right-63", &[(44, 128)], 61),
    ("no-rights", &[(37, 0)], 61),
    ("place-same-no-rights", &[(49, 5), (51, 9), (53, 0)], 61),
];

/// The refused ones first, all on one table that is spoiled.
pub fn cases() -> Vec<Case> {
    let (scheme, _) = read_scheme(&KEY_SCHEME).expect("the key example");
    let (accepted, refused): (Vec<_>, Vec<_>) = of_key()
        .into_iter()
        .partition(|(_, bytes)| read_matrix(bytes, &scheme).is_ok());
    let mut cases = vec![key_scheme("scheme-of-matrices")];
    cases.extend(spoiled("table"));
    for (label, bytes) in refused.into_iter().chain(of_before()) {
        cases.extend(readings(label, bytes));
    }
    for (label, bytes) in accepted {
        for reading in readings(label, bytes) {
            cases.extend(spoiled(&reading.label));
            cases.push(reading);
        }
    }
    cases.extend(writings());
    cases
}

/// The key example with its changes, each with its label.
pub fn of_key() -> Vec<(&'static str, Vec<u8>)> {
    let rows = [FRONTS, HEAD_LENGTHS, HIGHESTS, THINGS, CELLS].concat();
    changed_rows(&KEY_MATRIX, &rows)
}

/// The key example's image of before, whose head has no highest id; and the same with kind 7, so that its body is too short.
pub fn of_before() -> Vec<(&'static str, Vec<u8>)> {
    let behind = |head: [u8; 6]| [&head, &KEY_MATRIX[8..]].concat();
    vec![
        ("image-of-before", behind([2, 0, 3, 0, 4, 3])),
        ("image-of-before-kind-7", behind([2, 0, 7, 0, 4, 3])),
        ("no-things-of-before", vec![2, 0, 3, 0, 4, 0]),
        ("no-things-of-before-kind-7", vec![2, 0, 7, 0, 4, 0]),
    ]
}

fn readings(label: &str, bytes: Vec<u8>) -> [Case; 2] {
    let by_head = Task::ReadMatrixByHead(bytes.clone());
    [
        case(label, Task::ReadMatrix(bytes)),
        case(format!("{label}-by-head"), by_head),
    ]
}

/// A table that no reading gives, with things on hold whose ids are above the highest: a reading that is refused must leave it so, and one that isn't
/// must leave nothing of it.
pub fn spoiled(label: &str) -> Vec<Case> {
    let thing = |seat, id, kind| {
        let thing = Seat::of(id, kind).on_hold();
        let task = Task::PutThing { seat, thing };
        case(format!("{label}-seat-{seat}"), task)
    };
    let cell = |place, rights| Case {
        cells: MOST_CELLS as u16,
        ..case(format!("{label}-cell-{place}"), set_cell(place, rights))
    };
    vec![
        thing(0, 77, 9),
        thing(47, 77, 200),
        case(format!("{label}-highest"), Task::SetHighest(76)),
        cell(0, u64::MAX),
        cell(1_151, 1),
        cell(2_303, 1 << 63),
        cell(2_304, 5),
    ]
}

/// Into more than enough, into just enough, into a byte less, into nothing; then with other highest ids.
fn writings() -> Vec<Case> {
    let mut cases = vec![key_matrix("matrix-to-write")];
    for room in [64, 61, 60, 0] {
        cases.extend(written("matrix", room));
    }
    for highest in [13, 256, 3_072, 65_535] {
        let label = format!("matrix-of-highest-{highest}");
        cases.push(case(label.clone(), Task::SetHighest(highest)));
        cases.extend(written(&label, 64));
    }
    let no_things = changed(&KEY_MATRIX, &[(5, 0), (6, 0)], 8);
    cases.push(case("no-things-to-write", Task::ReadMatrix(no_things)));
    for highest in [0, 1, 65_535] {
        let label = format!("no-things-of-highest-{highest}");
        cases.push(case(label.clone(), Task::SetHighest(highest)));
        for room in [8, 7] {
            cases.extend(written(&label, room));
        }
    }
    cases
}

fn written(label: &str, room: u64) -> [Case; 2] {
    let label = format!("{label}-into-{room}");
    let by_head = format!("{label}-by-head");
    [
        case(label, Task::WriteMatrix(room)),
        case(by_head, Task::WriteMatrixByHead(room)),
    ]
}
