//! Marks drawn for a matrix: which of its things are on hold, and what is to be held and released in it.

use super::ids::{above, unused};
use super::random::Random;
use crate::matrix::Matrix;

/// Puts none, some or all things on hold. Mostly few, since a request that names one isn't carried out.
pub fn put(random: &mut Random, matrix: &mut Matrix) {
    let of = *random.pick(&[0, 0, 0, 0, 0, 0, 0, 1, 2, 3, 3, 4, 4, 6, 6, 8]);
    let things: Vec<u16> = matrix.things().keys().copied().collect();
    for id in things {
        let held = of > 0 && random.chance(1, of);
        matrix.set_held(id, held);
    }
}

/// The things that are on hold, or those that aren't.
pub fn things(matrix: &Matrix, held: bool) -> Vec<u16> {
    let ids = matrix.things().keys().copied();
    ids.filter(|&id| matrix.is_held(id) == held).collect()
}

/// One to four ids, each to be held (true) or released.
pub fn marks(random: &mut Random, matrix: &Matrix) -> Vec<(u16, bool)> {
    let count = random.from_to(1, 4);
    let mut mark = || (id(random, matrix), random.chance(1, 2));
    (0..count).map(|_| mark()).collect()
}

/// Of a thing on hold, of one that isn't, of the first or the last; or of no thing: 0, an id that was or could be, and one above the highest.
fn id(random: &mut Random, matrix: &Matrix) -> u16 {
    let (held, free) = (things(matrix, true), things(matrix, false));
    let ids = matrix.things().keys().copied();
    match random.below(16) {
        0 => 0,
        1 | 2 => unused(random, matrix),
        3 => above(random, matrix.highest()),
        4 => ids.min().unwrap_or(1),
        5 => ids.max().unwrap_or(1),
        6..=9 if !held.is_empty() => *random.pick(&held),
        _ if !free.is_empty() => *random.pick(&free),
        _ if !held.is_empty() => *random.pick(&held),
        _ => unused(random, matrix),
    }
}
