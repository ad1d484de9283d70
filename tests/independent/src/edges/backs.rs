//! New images moved back: all that a reading refuses, then 23 where an old image can't keep the highest id, then 9, each at its edges; and the largest.

use super::examples::{changed_rows, key_matrix, key_scheme, Row, KEY_MATRIX};
use super::old_images::OLD_KEY;
use super::rooms::{moves, Way};
use super::{case, largest, marks, matrices, Case, Task};
use crate::matrix::{write_matrix, Matrix};
use crate::moving::back;
use crate::scheme::write_scheme;

pub const BACK: Way = Way {
    name: "back",
    moving: back,
    task: |new, room| Task::Back { new, room },
};

pub fn cases() -> Vec<Case> {
    let mut cases = vec![key_scheme("back-scheme"), key_matrix("back-matrix")];
    let images = [matrices::of_key(), matrices::of_before(), marks::of_key()];
    cases.extend(moves(&BACK, images.concat()));
    cases.extend(moves(&BACK, changed_rows(&KEY_MATRIX, HIGHESTS)));
    cases.extend(moves(&BACK, changed_rows(&KEY_MATRIX, FAULTS)));
    cases.extend(rooms());
    cases.extend(others());
    cases.extend(full());
    cases
}

/// The highest listed id of a highest: 23 exactly where they differ, in either of their bytes, whatever is on hold; with no things where it isn't 0.
const HIGHESTS: &[Row] = &[
    ("12-of-14", &[(6, 14)], 61),
    ("12-of-140", &[(6, 140)], 61),
    ("12-of-524", &[(7, 2)], 61),
    ("12-of-32780", &[(7, 128)], 61),
    ("12-of-13-no-cell", &[(6, 13)], 29),
    ("held-12-of-13", &[(6, 13), (24, 8)], 61),
    (
        "12-of-13-held-all",
        &[(6, 13), (10, 8), (17, 8), (24, 8)],
        61,
    ),
    ("12-of-12-held-others", &[(10, 8), (17, 8)], 61),
    ("9-of-10", &[(5, 2), (6, 10)], 22),
    ("9-of-12", &[(5, 2)], 22),
    ("9-of-65535", &[(5, 2), (6, 255), (7, 255)], 22),
    ("5-of-6", &[(5, 1), (6, 6)], 15),
    ("5-of-261", &[(5, 1), (6, 5), (7, 1)], 15),
    ("268-of-269", &[(6, 13), (7, 1), (27, 1)], 29),
    ("268-of-524", &[(7, 2), (27, 1)], 29),
    (
        "65534-of-65534",
        &[(6, 254), (7, 255), (26, 254), (27, 255)],
        29,
    ),
    (
        "65534-of-65535",
        &[(6, 255), (7, 255), (26, 254), (27, 255)],
        29,
    ),
    (
        "held-65535-of-65535",
        &[(6, 255), (7, 255), (24, 8), (26, 255), (27, 255)],
        29,
    ),
    ("nothing-of-12", &[(5, 0)], 8),
    ("nothing-of-255", &[(5, 0), (6, 255)], 8),
    ("nothing-of-32768", &[(5, 0), (6, 0), (7, 128)], 8),
];

/// What reading refuses comes before 23: here the highest is 13 or more, and no thing has it.
const FAULTS: &[Row] = &[
    ("of-13-one-more", &[(6, 13)], 62),
    ("of-13-cell-cut", &[(6, 13)], 60),
    ("of-13-thing-missing", &[(6, 13), (5, 4)], 29),
    ("of-13-kind-4-for-cell", &[(6, 13), (47, 4)], 61),
    ("of-13-third-of-two", &[(6, 13), (5, 2)], 61),
    ("of-13-cell-length-13", &[(6, 13), (29, 13)], 61),
    ("of-13-thing-length-4", &[(6, 13), (22, 4)], 61),
    ("of-13-things-49", &[(6, 13), (5, 49)], 61),
    ("of-13-n-65", &[(6, 13), (4, 65)], 61),
    ("of-13-n-5", &[(6, 13), (4, 5)], 61),
    ("of-13-type-3", &[(6, 13), (28, 3)], 61),
    ("of-13-column-13", &[(6, 13), (51, 13)], 61),
    ("of-13-right-4", &[(6, 13), (53, 16)], 61),
    ("of-13-id-0", &[(6, 13), (12, 0)], 61),
    ("of-13-id-14", &[(6, 13), (26, 14)], 61),
    ("of-13-row-robot", &[(6, 13), (49, 12)], 61),
    ("of-13-no-rights", &[(6, 13), (53, 0)], 61),
    ("of-13-id-same", &[(6, 13), (19, 5)], 61),
    ("of-13-place-same", &[(6, 13), (49, 5), (51, 9)], 61),
    ("nothing-of-9-one-more", &[(5, 0), (6, 9)], 9),
    ("nothing-of-9-and-more", &[(5, 0), (6, 9)], 61),
];

/// The key example's old image has 59 bytes, one of no things 6; with 23 no room is looked at.
fn rooms() -> Vec<Case> {
    let mut cases = Vec::new();
    for room in [0, 1, 6, 57, 60, 61, 1_000] {
        cases.push(BACK.case("key-rooms", &KEY_MATRIX, room));
    }
    let mut above = KEY_MATRIX;
    above[6] = 13;
    for room in [1, 57, 58, 59, 60] {
        cases.push(BACK.case("12-of-13-rooms", &above, room));
    }
    let mut nothing = [4, 0, 7, 0, 4, 0, 0, 0];
    for room in [0, 5, 7, 8] {
        cases.push(BACK.case("nothing", &nothing, room));
    }
    nothing[6] = 1;
    for room in [0, 5, 6, 8] {
        cases.push(BACK.case("nothing-of-1", &nothing, room));
    }
    cases
}

/// An old image is none that moves back. Which matrix there is doesn't matter, not even where no reading gives it.
fn others() -> Vec<Case> {
    vec![
        BACK.case("old-key", &OLD_KEY, 100),
        BACK.case("old-nothing", &[2, 0, 3, 0, 4, 0], 100),
        case("back-beside-stranger", Task::SetHighest(0)),
        BACK.case("beside-stranger-key", &KEY_MATRIX, 59),
        key_matrix("back-matrix-again"),
    ]
}

/// The largest new image has 37,208 bytes. One above its highest listed id is 23, with room or without.
fn full() -> Vec<Case> {
    let scheme = largest::scheme(64, 32);
    let mut matrix: Matrix = largest::matrix(&scheme, |_, _| u64::MAX);
    for id in [1, 47] {
        matrix.set_held(id, true);
    }
    let new = write_matrix(&matrix, &scheme);
    matrix.raise_highest(49);
    let above = write_matrix(&matrix, &scheme);
    let read = Task::ReadScheme(write_scheme(&scheme));
    vec![
        case("back-largest-scheme", read),
        BACK.case("largest", &new, 37_206),
        BACK.case("largest", &new, 37_205),
        BACK.case("largest-above", &above, 37_206),
    ]
}
