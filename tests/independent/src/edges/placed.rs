//! Bytes placed as they are in a buffer: where they fit, where their end is past the buffer's, and where it is past all positions that there are.

use super::tasks::{Store, Stored};
use super::{case, Case, Task};

pub fn cases() -> Vec<Case> {
    PLACES.iter().map(place).collect()
}

/// How many bytes, the position, and the length of the buffer.
type Place = (usize, u64, u64);

const PLACES: &[Place] = &[
    // Nothing needs no room, but its position must be in the buffer or at the end.
    (0, 0, 16),
    (0, 7, 16),
    (0, 16, 16),
    (0, 17, 16),
    (0, u64::MAX, 16),
    (0, 0, 0),
    (0, 1, 0),
    (0, u64::MAX, 0),
    (1, 0, 0),
    (1, 0, 1),
    (1, 1, 1),
    (1, 15, 16),
    (1, 16, 16),
    (3, 0, 0),
    (3, 0, 2),
    (3, 0, 3),
    (3, 0, 16),
    (3, 7, 16),
    (3, 13, 16),
    (3, 14, 16),
    (3, 16, 16),
    (3, 17, 16),
    (16, 0, 16),
    (16, 1, 16),
    (17, 0, 16),
    // A position of which 32 bits would be one in the buffer.
    (3, 1 << 32, 16),
    // The end is the last position that there is, or comes round to the first ones.
    (1, u64::MAX - 1, 16),
    (2, u64::MAX - 1, 16),
    (3, u64::MAX - 1, 16),
    (1, u64::MAX, 16),
    (3, u64::MAX, 16),
    (3, u64::MAX, 0),
    // More than 255.
    (300, 5, 305),
    (300, 6, 305),
    (300, 5, 400),
    (300, u64::MAX - 299, 400),
    // All that stands behind the head of the largest matrix.
    (37_200, 8, 37_208),
];

/// The bytes fall from 255 on, so that at the positions here hardly one is what the buffer holds before.
fn place(&(length, at, room): &Place) -> Case {
    let bytes = (0..=u8::MAX).rev().cycle().take(length).collect();
    let what = Stored::Bytes(bytes);
    let label = format!("place-{length}-at-{at}-of-{room}");
    case(label, Task::Store(Store { room, at, what }))
}
