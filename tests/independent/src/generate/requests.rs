//! Random requests for a scheme and a matrix: many that succeed, and each way to be refused.

use super::ids::{not_above, rising};
use super::marks::things;
use super::matrices::id;
use super::random::Random;
use crate::engine::carry_out;
use crate::matrix::Matrix;
use crate::request::write_request;
use crate::scheme::{Command, Scheme};

/// A command number and ids.
pub type Drawn = (u8, Vec<u16>);

/// A list in the making.
#[derive(Default)]
struct Making {
    bytes: Vec<u8>,
    /// The ids of the things that it destroyed.
    gone: Vec<u16>,
}

/// A list's bytes, some requests that are given first.
pub fn list(random: &mut Random, scheme: &Scheme, matrix: &mut Matrix, first: &[Drawn]) -> Vec<u8> {
    let mut making = Making::default();
    for request in first {
        making.put(request, scheme, matrix);
    }
    for _ in 0..random.size(0, 60, &[0, 20, 40]) {
        let request = request(random, scheme, matrix, &making.gone);
        making.put(&request, scheme, matrix);
    }
    making.bytes
}

impl Making {
    /// The matrix is changed along, so that later requests meet what earlier ones did.
    fn put(&mut self, (command, ids): &Drawn, scheme: &Scheme, matrix: &mut Matrix) {
        let record = write_request(*command, ids).expect("at most 8 ids");
        self.bytes.extend(record);
        let before: Vec<u16> = matrix.things().keys().copied().collect();
        carry_out(scheme, matrix, *command as usize, ids);
        let gone = before
            .into_iter()
            .filter(|&id| matrix.type_of(id).is_none());
        self.gone.extend(gone);
    }
}

/// Requests to hand in directly; some lists are longer than a record can say.
pub fn direct(random: &mut Random, scheme: &Scheme, matrix: &Matrix) -> Vec<Drawn> {
    let mut requests = Vec::new();
    for _ in 0..random.below(4) {
        let (command, mut ids) = request(random, scheme, matrix, &[]);
        if random.chance(1, 3) {
            ids.resize(random.from_to(8, 12), id(random));
        }
        requests.push((command, ids));
    }
    requests
}

/// Some ids are those of things that are gone.
fn request(random: &mut Random, scheme: &Scheme, matrix: &Matrix, gone: &[u16]) -> Drawn {
    let commands = scheme.commands.len();
    if random.chance(1, 30) {
        let command = *random.pick(&[commands, commands + 1, 32, 64, 255]);
        return (
            command.max(commands) as u8,
            vec![id(random); random.below(9)],
        );
    }
    let mut drawn = (0, Vec::new());
    // Half of the time a few draws are tried for one that succeeds.
    for _ in 0..if random.chance(1, 2) { 12 } else { 1 } {
        let command = random.below(commands);
        let ids = ids(random, &scheme.commands[command], matrix, gone);
        drawn = (command as u8, ids);
        if carry_out(scheme, &mut matrix.clone(), command, &drawn.1).number == 0 {
            return drawn;
        }
    }
    let (command, mut ids) = drawn;
    if random.chance(1, 20) {
        ids.resize(random.below(9), id(random));
    }
    (command, ids)
}

fn ids(random: &mut Random, command: &Command, matrix: &Matrix, gone: &[u16]) -> Vec<u16> {
    let new = new_ids(random, command, matrix);
    let existing: Vec<u16> = matrix.things().keys().copied().collect();
    let held = things(matrix, true);
    let mut ids: Vec<u16> = Vec::new();
    for (place, &kind) in command.parameters.iter().enumerate() {
        let (free, on_hold) = (of_type(matrix, kind, false), of_type(matrix, kind, true));
        let is_new = command.is_new(place as u8);
        let drawn = match random.below(40) {
            0 => 0,
            1 if !is_new => id(random),
            2 if !existing.is_empty() => *random.pick(&existing),
            3..=8 if !ids.is_empty() => *random.pick(&ids),
            9 if is_new => not_above(random, matrix),
            10 if is_new && !gone.is_empty() => *random.pick(gone),
            11 if is_new && !held.is_empty() => *random.pick(&held),
            _ if is_new => new[place],
            11 | 12 if !on_hold.is_empty() => *random.pick(&on_hold),
            13 if !held.is_empty() => *random.pick(&held),
            _ if !free.is_empty() => *random.pick(&free),
            _ if !on_hold.is_empty() => *random.pick(&on_hold),
            _ => id(random),
        };
        ids.push(drawn);
    }
    ids
}

/// Those of the new parameters rise; at times two of them change places.
fn new_ids(random: &mut Random, command: &Command, matrix: &Matrix) -> [u16; 8] {
    let mut ids = rising(random, command, matrix.highest());
    let is_new = |&place: &usize| ids[place] != 0;
    let new: Vec<usize> = (0..ids.len()).filter(is_new).collect();
    if new.len() > 1 && random.chance(1, 16) {
        ids.swap(*random.pick(&new), *random.pick(&new));
    }
    ids
}

/// The things of a type that are on hold, or those that aren't.
pub fn of_type(matrix: &Matrix, kind: u8, held: bool) -> Vec<u16> {
    let mut of_type = things(matrix, held);
    of_type.retain(|&id| matrix.type_of(id) == Some(kind));
    of_type
}
