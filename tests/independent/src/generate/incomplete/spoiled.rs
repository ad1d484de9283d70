//! Requests that are to be refused with a number that the entries don't decide.

use crate::generate::ids::{not_above, unused};
use crate::generate::marks::things;
use crate::generate::random::Random;
use crate::generate::requests::of_type;
use crate::matrix::Matrix;
use crate::request::{Request, MOST_IDS};
use crate::scheme::{Command, Operation, Scheme};

/// A request of a command that there is, spoiled for this number; none where it can't be.
pub fn spoiled(
    random: &mut Random,
    number: u8,
    mut request: Request,
    (scheme, matrix): (&Scheme, &Matrix),
) -> Option<Request> {
    let command = &scheme.commands[usize::from(request.command)];
    let commands = scheme.commands.len() as u8;
    match number {
        10 => request.command = *random.pick(&[commands, commands + 1, 255]),
        11 => another_count(random, &mut request.ids),
        12 => {
            let place = random.below(request.ids.len());
            let none = unused(random, matrix);
            request.ids[place] = *random.pick(&[0, none]);
        }
        13 => {
            let (place, kind) = old_place(random, command)?;
            let mut others = things(matrix, random.chance(1, 4));
            others.retain(|&id| matrix.type_of(id) != Some(kind));
            request.ids[place] = some(random, &others)?;
        }
        15 => {
            let places: Vec<u8> = (0..8).filter(|&place| command.is_new(place)).collect();
            let place = some(random, &places)?;
            request.ids[usize::from(place)] = not_above(random, matrix);
        }
        17 => destroy_twice(random, command, &mut request.ids)?,
        18 => {
            let (place, kind) = old_place(random, command)?;
            request.ids[place] = some(random, &of_type(matrix, kind, true))?;
        }
        _ => {}
    }
    Some(request)
}

fn some<T: Copy>(random: &mut Random, from: &[T]) -> Option<T> {
    (!from.is_empty()).then(|| *random.pick(from))
}

fn another_count(random: &mut Random, ids: &mut Vec<u16>) {
    if ids.len() < MOST_IDS && random.chance(1, 2) {
        ids.push(ids[0]);
    } else {
        ids.pop();
    }
}

/// A parameter that isn't new, and its type.
fn old_place(random: &mut Random, command: &Command) -> Option<(usize, u8)> {
    let kinds = command.parameters.iter().copied().enumerate();
    let old: Vec<(usize, u8)> = kinds
        .filter(|(place, _)| !command.is_new(*place as u8))
        .collect();
    some(random, &old)
}

/// Two parameters of one type that are destroyed become one thing.
fn destroy_twice(random: &mut Random, command: &Command, ids: &mut [u16]) -> Option<()> {
    let mut gone = Vec::new();
    for operation in &command.operations {
        match *operation {
            Operation::Destroy { parameter } if !command.is_new(parameter) => {
                gone.push(usize::from(parameter));
            }
            _ => {}
        }
    }
    let first = some(random, &gone)?;
    gone.retain(|&place| place != first && command.parameters[place] == command.parameters[first]);
    ids[some(random, &gone)?] = ids[first];
    Some(())
}
