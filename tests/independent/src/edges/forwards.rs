//! Old images moved forward: each number at its edges and in its order, into buffers that are long enough, too short and longer; and the largest.

use super::examples::{key_matrix, key_scheme, KEY_MATRIX};
use super::old_images::{of_key, OLD_KEY};
use super::rooms::{moves, Way};
use super::{case, largest, Case, Task};
use crate::matrix::Matrix;
use crate::moving::{forward, write_old_matrix};
use crate::scheme::write_scheme;

pub const FORWARD: Way = Way {
    name: "forward",
    moving: forward,
    task: |old, room| Task::Forward { old, room },
};

pub fn cases() -> Vec<Case> {
    let mut cases = vec![key_scheme("forward-scheme"), key_matrix("forward-matrix")];
    cases.extend(moves(&FORWARD, of_key()));
    cases.extend(rooms());
    cases.extend(others());
    cases.extend(full());
    cases
}

/// The key example's new image has 61 bytes, one of no things 8.
fn rooms() -> Vec<Case> {
    let mut cases = Vec::new();
    for room in [0, 1, 8, 58, 59, 62, 63, 1_000] {
        cases.push(FORWARD.case("key-rooms", &OLD_KEY, room));
    }
    let nothing = [2, 0, 3, 0, 4, 0];
    for room in [0, 5, 6, 9] {
        cases.push(FORWARD.case("nothing", &nothing, room));
    }
    cases
}

/// A new image is none that moves forward. Which matrix there is doesn't matter, not even where no reading gives it.
fn others() -> Vec<Case> {
    let stranger = case("forward-beside-stranger", Task::SetHighest(0));
    vec![
        FORWARD.case("new-key", &KEY_MATRIX, 100),
        FORWARD.case("new-nothing", &[4, 0, 7, 0, 4, 0, 0, 0], 100),
        FORWARD.case("new-kind-3", &[4, 0, 3, 0, 4, 0, 0, 0], 100),
        stranger,
        FORWARD.case("beside-stranger-key", &OLD_KEY, 61),
        key_matrix("forward-matrix-again"),
    ]
}

/// The largest old image has 37,206 bytes; some of its things are on hold.
fn full() -> Vec<Case> {
    let scheme = largest::scheme(64, 32);
    let mut matrix: Matrix = largest::matrix(&scheme, |_, _| u64::MAX);
    for id in [1, 2, 48] {
        matrix.set_held(id, true);
    }
    let old = write_old_matrix(&matrix, &scheme);
    let read = Task::ReadScheme(write_scheme(&scheme));
    vec![
        case("forward-largest-scheme", read),
        FORWARD.case("largest", &old, 37_208),
        FORWARD.case("largest", &old, 37_207),
        FORWARD.case("largest-one-more", &[&old[..], &[0]].concat(), 38_000),
    ]
}
