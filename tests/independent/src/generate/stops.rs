//! Requests that a test far behind the first one stops: of those drawn at random hardly any comes so far.

use super::ids::rising;
use super::random::Random;
use super::requests::{of_type, Drawn};
use crate::engine::carry_out;
use crate::matrix::Matrix;
use crate::scheme::{Command, Scheme};

/// A request for each command that can have one. The senses of its tests are changed so that it is stopped at any of them, or at none; the matrix is
/// the one that the first request meets.
pub fn stops(random: &mut Random, scheme: &mut Scheme, matrix: &Matrix) -> Vec<Drawn> {
    let mut matrix = matrix.clone();
    let mut requests = Vec::new();
    for number in 0..scheme.commands.len() {
        let command = &mut scheme.commands[number];
        if let Some(ids) = ids(random, command, &matrix) {
            let place = random.below(command.tests.len() + 1);
            stop_at(place, command, &ids, &matrix);
            carry_out(scheme, &mut matrix, number, &ids);
            requests.push((number as u8, ids));
        }
    }
    requests
}

/// Things of the types that aren't on hold, and new ids that rise; none where a type has no such thing.
pub fn ids(random: &mut Random, command: &Command, matrix: &Matrix) -> Option<Vec<u16>> {
    let new = rising(random, command, matrix.highest());
    let mut ids = Vec::new();
    for (place, &kind) in command.parameters.iter().enumerate() {
        let of_type = of_type(matrix, kind, false);
        ids.push(match command.is_new(place as u8) {
            true => new[place],
            false if of_type.is_empty() => return None,
            false => *random.pick(&of_type),
        });
    }
    Some(ids)
}

/// All tests before the place hold for these ids, and the one there doesn't. Those behind stay as they were drawn: many of them don't hold either.
pub fn stop_at(place: usize, command: &mut Command, ids: &[u16], matrix: &Matrix) {
    for (number, test) in command.tests.iter_mut().enumerate().take(place + 1) {
        let [row, column] = [test.row, test.column].map(|parameter| ids[parameter as usize]);
        let set = matrix.cell(row, column).expect("a tested cell exists");
        let is_present = set >> test.right & 1 == 1;
        test.present = is_present == (number < place);
    }
}
