//! Which parameters a command's tests, enters and deletes may name, and such ones drawn for it.

use super::random::Random;
use crate::scheme::{Operation, Scheme, Test};

pub struct Places {
    /// n of the scheme.
    rights: u8,
    all: Vec<u8>,
    /// Those that aren't new.
    old: Vec<u8>,
    /// Those of a subject type.
    pub rows: Vec<u8>,
    /// Those of a subject type that aren't new.
    pub old_rows: Vec<u8>,
}

impl Places {
    pub fn of(scheme: &Scheme, parameters: &[u8], new: &[u8]) -> Places {
        let all: Vec<u8> = (0..parameters.len() as u8).collect();
        let is_row = |place: &u8| scheme.is_subject_type(parameters[*place as usize]);
        let is_old = |place: &u8| !new.contains(place);
        let old: Vec<u8> = all.iter().copied().filter(is_old).collect();
        Places {
            rights: scheme.rights,
            rows: all.iter().copied().filter(is_row).collect(),
            old_rows: old.iter().copied().filter(is_row).collect(),
            all,
            old,
        }
    }

    /// So many; where there is no row that is old, none can be asked for.
    pub fn tests(&self, random: &mut Random, count: usize) -> Vec<Test> {
        let test = |_| Test {
            present: random.chance(1, 2),
            right: random.below(self.rights as usize) as u8,
            row: *random.pick(&self.old_rows),
            column: *random.pick(&self.old),
        };
        (0..count).map(test).collect()
    }

    /// So many; where there is no row, none can be asked for.
    pub fn enters_and_deletes(&self, random: &mut Random, count: usize) -> Vec<Operation> {
        let operation = |_| {
            let right = random.below(self.rights as usize) as u8;
            let (row, column) = (*random.pick(&self.rows), *random.pick(&self.all));
            match random.chance(1, 2) {
                true => Operation::Enter { right, row, column },
                false => Operation::Delete { right, row, column },
            }
        };
        (0..count).map(operation).collect()
    }
}

/// In the order of the three groups.
pub fn operations(new: &[u8], between: Vec<Operation>, destroyed: &[u8]) -> Vec<Operation> {
    let creates = new.iter().map(|&parameter| Operation::Create { parameter });
    let destroys = destroyed
        .iter()
        .map(|&parameter| Operation::Destroy { parameter });
    creates.chain(between).chain(destroys).collect()
}
