//! What is wrong with a request at each of its places, and what would be wrong if nothing were on hold.

use crate::answer::Answer;
use crate::engine::Dense;
use crate::matrix::Matrix;
use crate::scheme::{Command, Operation};

/// A request on a matrix, with as many ids as the command has parameters.
pub struct Faults<'a> {
    pub command: &'a Command,
    pub ids: &'a [u16],
    pub before: &'a Matrix,
}

impl Faults<'_> {
    /// What is wrong at one place, whatever is wrong before it.
    pub fn at(&self, place: usize) -> u8 {
        let id = self.ids[place];
        let is_new = self.command.is_new(place as u8);
        match self.before.type_of(id) {
            _ if id == 0 => 12,
            _ if is_new => 0,
            None => 12,
            Some(kind) if kind != self.command.parameters[place] => 13,
            Some(_) if self.before.is_held(id) => 18,
            Some(_) => 0,
        }
    }

    /// The first place at fault, of a request that has one.
    pub fn first(&self) -> usize {
        let place = (0..self.ids.len()).find(|&place| self.at(place) != 0);
        place.expect("a place is at fault")
    }

    pub fn later(&self, place: usize, number: u8) -> bool {
        (place + 1..self.ids.len()).any(|other| self.at(other) == number)
    }

    /// What the answer would be, were nothing on hold.
    pub fn without_marks(&self) -> u8 {
        let mut matrix = self.before.clone();
        for &id in self.before.on_hold() {
            matrix.set_held(id, false);
        }
        let answer = Dense::from_matrix(&matrix).obey(self.command, self.ids);
        answer.number
    }

    /// Whether the last operation that was come to is a create of the id of a thing on hold.
    pub fn comes_to_held(&self, answer: Answer) -> bool {
        let place = usize::from(answer.steps) - self.command.tests.len() - 1;
        match self.command.operations[place] {
            Operation::Create { parameter } => {
                let id = self.ids[usize::from(parameter)];
                self.before.is_held(id)
            }
            _ => false,
        }
    }
}
