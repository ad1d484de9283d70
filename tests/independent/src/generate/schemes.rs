//! Random valid schemes, with all limits reached now and then.

use super::places::{operations, Places};
use super::random::Random;
use crate::scheme::{Command, Scheme};

pub fn scheme(random: &mut Random) -> Scheme {
    // A plain scheme neither creates nor destroys.
    let is_plain = random.chance(1, 2);
    let types = random.size(1, 16, &[1, 15, 16]) as u8;
    let mut scheme = Scheme {
        rights: random.size(1, 64, &[1, 16, 31, 32, 33, 63]) as u8,
        types,
        subjects: subjects(random, types, is_plain),
        commands: Vec::new(),
    };
    // Half of the schemes have no command that is too long to convert.
    let most_operations = *random.pick(&[16, 32]);
    for _ in 0..random.size(1, 32, &[1, 31, 32]) {
        let command = command(random, &scheme, is_plain, most_operations);
        scheme.commands.push(command);
    }
    scheme
}

fn subjects(random: &mut Random, types: u8, is_plain: bool) -> u16 {
    let all = ((1u32 << types) - 1) as u16;
    let subjects = match random.below(12) {
        0 => 0,
        1..=3 => all,
        _ => random.draw() as u16 & all,
    };
    // Without a subject type a plain command could have no operation at all.
    if subjects == 0 && is_plain {
        1 << random.below(types as usize)
    } else {
        subjects
    }
}

fn command(
    random: &mut Random,
    scheme: &Scheme,
    is_plain: bool,
    most_operations: usize,
) -> Command {
    let parameters = parameters(random, scheme, is_plain);
    let all: Vec<u8> = (0..parameters.len() as u8).collect();
    let mut drawn = || match is_plain {
        true => Vec::new(),
        false => some(random, &all),
    };
    let (new, mut destroyed) = (drawn(), drawn());
    let places = Places::of(scheme, &parameters, &new);

    let count = match places.old_rows.is_empty() {
        true => 0,
        false => random.size(0, 16, &[0, 15, 16]),
    };
    let tests = places.tests(random, count);

    let least = usize::from(new.is_empty() && destroyed.is_empty());
    let most = most_operations - new.len() - destroyed.len();
    let count = match places.rows.is_empty() {
        true => 0,
        false => random.size(least, most, &[15, 16, 17, 31]),
    };
    let between = places.enters_and_deletes(random, count);
    if new.is_empty() && between.is_empty() && destroyed.is_empty() {
        destroyed.push(*random.pick(&all));
    }
    Command {
        parameters,
        tests,
        operations: operations(&new, between, &destroyed),
    }
}

fn parameters(random: &mut Random, scheme: &Scheme, is_plain: bool) -> Vec<u8> {
    let count = random.size(1, 8, &[1, 7, 8]);
    let mut parameters: Vec<u8> = Vec::new();
    for _ in 0..count {
        // Equal types make it possible that two parameters are one thing.
        let kind = match parameters.last() {
            Some(&last) if random.chance(1, 3) => last,
            _ => random.below(scheme.types as usize) as u8,
        };
        parameters.push(kind);
    }
    if is_plain && !parameters.iter().any(|&kind| scheme.is_subject_type(kind)) {
        parameters[random.below(count)] = scheme.subjects.trailing_zeros() as u8;
    }
    parameters
}

/// None, some or all of the places, in any order.
fn some(random: &mut Random, all: &[u8]) -> Vec<u8> {
    let of = *random.pick(&[1, 3, 3, 9, 9]);
    let mut places: Vec<u8> = all.to_vec();
    places.retain(|_| of != 9 && random.chance(1, of));
    random.shuffle(&mut places);
    places
}
