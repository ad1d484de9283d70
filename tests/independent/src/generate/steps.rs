//! Requests that take any number of steps, and such as an operation refuses behind tests: of those drawn at random hardly any comes so far.

use super::ids::{not_above, unused};
use super::places::{operations, Places};
use super::random::Random;
use super::requests::Drawn;
use super::stops::{ids, stop_at};
use crate::convert::{check, MOST_CONVERTED_OPERATIONS};
use crate::engine::carry_out;
use crate::matrix::{Matrix, MOST_THINGS};
use crate::scheme::{Command, Scheme, MOST_OPERATIONS, MOST_TESTS};

/// A request for each command that can have one, from any of them on. The command gets another length and tests that all hold; the matrix, which the
/// first request meets, gets more things.
pub fn steps(random: &mut Random, scheme: &mut Scheme, matrix: &mut Matrix) -> Vec<Drawn> {
    // A scheme that converts still does.
    let most_operations = match check(scheme) {
        0 => MOST_CONVERTED_OPERATIONS,
        _ => MOST_OPERATIONS.into(),
    };
    let count = scheme.commands.len();
    let first = random.below(count);
    add_things(random, scheme, matrix, first);
    let mut matrix = matrix.clone();
    let mut requests = Vec::new();
    for number in (first..count).chain(0..first) {
        let mut command = scheme.commands[number].clone();
        let Some(mut ids) = ids(random, &command, &matrix) else {
            continue;
        };
        change_length(random, scheme, &mut command, most_operations);
        match random.below(4) {
            0 => create_again(random, &command, &mut ids, &matrix),
            1 => destroy_again(random, &command, &mut ids),
            _ => {}
        }
        stop_at(command.tests.len(), &mut command, &ids, &matrix);
        scheme.commands[number] = command;
        carry_out(scheme, &mut matrix, number, &ids);
        requests.push((number as u8, ids));
    }
    requests
}

/// Of types that commands name; at times until hardly a seat is free, so that one of several creates comes at 48 things, or just the last one of the
/// first command's.
fn add_things(random: &mut Random, scheme: &Scheme, matrix: &mut Matrix, first: usize) {
    let parameters = scheme.commands.iter().map(|command| &command.parameters);
    let named: Vec<u8> = parameters.flatten().copied().collect();
    let creates = named_by(&scheme.commands[first], CREATE).len();
    let count = match random.below(4) {
        0 => MOST_THINGS - random.below(4),
        1 | 2 => MOST_THINGS + 1 - creates.max(1),
        _ => MOST_THINGS.min(matrix.things().len() + 4),
    };
    while matrix.things().len() < count {
        let id = unused(random, matrix);
        matrix.create(scheme, id, *random.pick(&named));
    }
}

/// As many tests and operations together as are drawn, if the parameters allow it. Creates and destroys stay; at times only creates do, so that one
/// of them is the last operation.
fn change_length(random: &mut Random, scheme: &Scheme, command: &mut Command, most: usize) {
    let (new, destroyed) = (named_by(command, CREATE), named_by(command, DESTROY));
    let places = Places::of(scheme, &command.parameters, &new);
    let most_tests = usize::from(MOST_TESTS);
    let steps = random.from_to(1, most_tests + most);
    let tests = match places.old_rows.is_empty() {
        true => 0,
        false => random.from_to(steps.saturating_sub(most), most_tests.min(steps - 1)),
    };
    command.tests = places.tests(random, tests);
    if !new.is_empty() && random.chance(1, 2) {
        command.operations = operations(&new, Vec::new(), &[]);
        return;
    }
    let others = new.len() + destroyed.len();
    let count = match places.rows.is_empty() {
        true => 0,
        false => most.min(steps - tests).saturating_sub(others),
    };
    let between = places.enters_and_deletes(random, count);
    command.operations = operations(&new, between, &destroyed);
}

const CREATE: u8 = 3;
const DESTROY: u8 = 4;

/// The parameters that operations of this code name.
fn named_by(command: &Command, code: u8) -> Vec<u8> {
    let operations = command.operations.iter();
    let of_code = operations.filter(|operation| operation.code() == code);
    of_code.map(|operation| operation.fields()[2]).collect()
}

/// 15: one of the creates is of an id up to the highest; or up to that of a create before it, with which that has become the highest.
fn create_again(random: &mut Random, command: &Command, ids: &mut [u16], matrix: &Matrix) {
    let creates = named_by(command, CREATE);
    if creates.is_empty() {
        return;
    }
    // The last one as often as all together, since few commands have creates alone.
    let last = creates.len() - 1;
    let drawn = random.from_to(0, last);
    let place = *random.pick(&[drawn, last]);
    let before = creates[..place].iter();
    let mut again: Vec<u16> = before.map(|&parameter| ids[parameter as usize]).collect();
    // One less than the last of those may be an id that the matrix never had.
    again.extend(again.last().map(|last| last.max(&2) - 1));
    again.extend([not_above(random, matrix), not_above(random, matrix)]);
    ids[creates[place] as usize] = *random.pick(&again);
}

/// 17: two parameters that are destroyed are one thing, where two have one type.
fn destroy_again(random: &mut Random, command: &Command, ids: &mut [u16]) {
    let mut old = named_by(command, DESTROY);
    old.retain(|&parameter| !command.is_new(parameter));
    let kind = |parameter: u8| command.parameters[parameter as usize];
    let mut pairs = Vec::new();
    for (place, &second) in old.iter().enumerate() {
        let before = old[..place].iter();
        let alike = before.filter(|&&first| kind(first) == kind(second));
        pairs.extend(alike.map(|&first| (first, second)));
    }
    if !pairs.is_empty() {
        let (first, second) = *random.pick(&pairs);
        ids[second as usize] = ids[first as usize];
    }
}
