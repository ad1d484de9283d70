//! Ids drawn for a matrix by its highest id: such as creates take, and such as they don't.

use super::random::Random;
use crate::matrix::Matrix;
use crate::scheme::{Command, Operation};

/// Above an id, mostly just above it, so that a list seldom runs out of ids; the last one that there is where none is above.
pub fn above(random: &mut Random, highest: u16) -> u16 {
    let room = usize::from(u16::MAX - highest);
    if room == 0 {
        return u16::MAX;
    }
    let step = match random.below(1_000) {
        0 => room,
        1..=7 => random.from_to(1, room),
        8..=30 => random.from_to(1, 3_000),
        31..=130 => random.from_to(1, 300),
        131..=400 => random.from_to(1, 9),
        _ => 1,
    };
    highest + step.min(room) as u16
}

/// An id for each parameter that a command creates, 0 for the others. They rise in the order of the creates, as far as there are ids.
pub fn rising(random: &mut Random, command: &Command, highest: u16) -> [u16; 8] {
    let (mut ids, mut last) = ([0; 8], highest);
    for operation in &command.operations {
        if let Operation::Create { parameter } = *operation {
            last = above(random, last);
            ids[usize::from(parameter)] = last;
        }
    }
    ids
}

/// The highest id, or one below it, of a thing or of none; where there is no such id one above.
pub fn not_above(random: &mut Random, matrix: &Matrix) -> u16 {
    let highest = matrix.highest();
    let things: Vec<u16> = matrix.things().keys().copied().collect();
    match random.below(4) {
        _ if highest == 0 => above(random, highest),
        0 => highest,
        1 if !things.is_empty() => *random.pick(&things),
        _ => below(random, matrix),
    }
}

/// An id up to the highest, which there is; a few draws are tried for one that no thing has.
fn below(random: &mut Random, matrix: &Matrix) -> u16 {
    let mut id = matrix.highest();
    for _ in 0..8 {
        id = random.from_to(1, matrix.highest().into()) as u16;
        if matrix.type_of(id).is_none() {
            break;
        }
    }
    id
}

/// An id that no thing has, hardly above the highest: most ids stay for creates.
pub fn unused(random: &mut Random, matrix: &Matrix) -> u16 {
    let top = matrix.highest().saturating_add(3);
    loop {
        let id = random.from_to(1, top.into()) as u16;
        if matrix.type_of(id).is_none() {
            return id;
        }
    }
}
