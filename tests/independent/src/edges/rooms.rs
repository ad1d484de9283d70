//! Images moved into lent buffers: which lengths are tried for one that moves, and which for one that is refused.

use std::collections::BTreeSet;

use super::examples::KEY_SCHEME;
use super::{case, Case, Task};
use crate::moving::Moving;
use crate::scheme::read_scheme;

/// A way to move, by its name in the labels, what it makes, and how the program is asked for it.
pub struct Way {
    pub name: &'static str,
    pub moving: Moving,
    pub task: fn(Vec<u8>, u64) -> Task,
}

impl Way {
    pub fn case(&self, label: &str, image: &[u8], room: u64) -> Case {
        let label = format!("{}-{label}-into-{room}", self.name);
        case(label, (self.task)(image.to_vec(), room))
    }
}

/// More than what any image of the key example's scheme here takes.
pub const ENOUGH: u64 = 100;

/// Images of the key example's scheme. One that moves is moved into just enough, and the first of each length into a byte less; one that is refused into
/// enough, and the first of each number and position into nothing too: all other numbers come before 9.
pub fn moves(way: &Way, images: Vec<(&'static str, Vec<u8>)>) -> Vec<Case> {
    let (scheme, _) = read_scheme(&KEY_SCHEME).expect("the key example");
    let (mut lengths, mut refusals) = (BTreeSet::new(), BTreeSet::new());
    let mut cases = Vec::new();
    for (label, image) in images {
        let rooms = match (way.moving)(&scheme, &image) {
            Ok(moved) => match (moved.len() as u64, lengths.insert(moved.len())) {
                (just, true) => vec![just, just - 1],
                (just, false) => vec![just],
            },
            Err(refusal) => match refusals.insert((refusal.number, refusal.at)) {
                true => vec![ENOUGH, 0],
                false => vec![ENOUGH],
            },
        };
        cases.extend(rooms.iter().map(|&room| way.case(label, &image, room)));
    }
    cases
}
