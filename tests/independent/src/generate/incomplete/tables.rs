//! The scheme of a pair and its richer matrix: small, so that each command has things to be asked for, and full of rights, so that tests of presence hold.

use super::plan::{Ending, Plan};
use crate::generate::ids::above;
use crate::generate::places::{operations, Places};
use crate::generate::random::Random;
use crate::matrix::{all_rights, Matrix, MOST_THINGS};
use crate::scheme::{Command, Scheme};

/// How many things each command creates and destroys; some more commands are drawn.
const BODIES: [[usize; 2]; 8] = [
    [0, 0],
    [0, 0],
    [0, 0],
    [1, 0],
    [1, 0],
    [0, 1],
    [0, 2],
    [1, 1],
];

/// So many things a matrix has at most, but for one that is nearly full; that has no more subjects.
const FEW: usize = 10;

pub fn scheme(random: &mut Random, plan: &Plan) -> Scheme {
    let types = *random.pick(&[1, 2, 2, 3, 4]);
    let types = if plan.is_full { types.max(2) } else { types };
    let mut scheme = Scheme {
        rights: *random.pick(&[1, 2, 2, 3, 3, 4, 5, 64]),
        types,
        subjects: subjects(random, types, plan.is_full),
        commands: Vec::new(),
    };
    let mut bodies = BODIES.to_vec();
    for _ in 0..random.below(4) {
        bodies.push([random.below(3), random.below(3)]);
    }
    random.shuffle(&mut bodies);
    for body in bodies {
        let mut command = command(random, &scheme, body);
        for test in &mut command.tests {
            test.present = !plan.tests_absence || random.chance(1, 2);
        }
        scheme.commands.push(command);
    }
    scheme
}

/// Where a matrix is to be full most things must be objects: so many rows would make its image long.
fn subjects(random: &mut Random, types: u8, is_full: bool) -> u16 {
    let all = (1 << types) - 1;
    match random.draw() as u16 & all {
        0 => 1,
        drawn if is_full && drawn == all => 1,
        _ if !is_full && random.chance(1, 3) => all,
        drawn => drawn,
    }
}

fn command(random: &mut Random, scheme: &Scheme, [creates, destroys]: [usize; 2]) -> Command {
    let count = (creates + destroys + random.below(3)).max(1);
    let parameters = parameters(random, scheme, count);
    let mut all: Vec<u8> = (0..count as u8).collect();
    random.shuffle(&mut all);
    let (new, mut destroyed) = (&all[..creates], all[creates..creates + destroys].to_vec());
    if creates > 0 && random.chance(1, 16) {
        destroyed.push(new[0]);
    }
    let places = Places::of(scheme, &parameters, new);
    let tests = match places.old_rows.is_empty() {
        true => 0,
        false => random.below(4),
    };
    let tests = places.tests(random, tests);
    let between = random.from_to(usize::from(new.is_empty() && destroyed.is_empty()), 3);
    let between = match places.rows.is_empty() {
        true => Vec::new(),
        false => places.enters_and_deletes(random, between),
    };
    Command {
        operations: operations(new, between, &destroyed),
        tests,
        parameters,
    }
}

/// One of them at least is of a subject type. Equal types make it possible that two parameters are one thing.
fn parameters(random: &mut Random, scheme: &Scheme, count: usize) -> Vec<u8> {
    let mut parameters: Vec<u8> = Vec::new();
    for _ in 0..count {
        parameters.push(match parameters.last() {
            Some(&last) if random.chance(1, 2) => last,
            _ => random.below(scheme.types.into()) as u8,
        });
    }
    if !parameters.iter().any(|&kind| scheme.is_subject_type(kind)) {
        parameters[random.below(count)] = scheme.subjects.trailing_zeros() as u8;
    }
    parameters
}

pub fn richer(random: &mut Random, scheme: &Scheme, plan: &Plan) -> Matrix {
    let count = match random.below(16) {
        _ if plan.is_full => MOST_THINGS - random.below(3),
        0 => random.below(3),
        _ => random.from_to(4, FEW),
    };
    let mut matrix = Matrix::new();
    let mut id = *random.pick(&[0, 0, 0, 250, 900]);
    for place in 0..count {
        id += random.from_to(1, 4) as u16;
        let kind = kind(random, scheme, place);
        matrix.create(scheme, id, kind);
    }
    fill(random, scheme, &mut matrix);
    put_on_hold(random, plan, &mut matrix);
    let highest = highest(random, matrix.highest());
    matrix.raise_highest(highest);
    matrix
}

/// Behind the first few only objects.
fn kind(random: &mut Random, scheme: &Scheme, place: usize) -> u8 {
    let mut kinds: Vec<u8> = (0..scheme.types).collect();
    if place >= FEW {
        kinds.retain(|&kind| !scheme.is_subject_type(kind));
    }
    *random.pick(&kinds)
}

/// Most cells have all rights, and some have none, so that a test is false in both now and then.
fn fill(random: &mut Random, scheme: &Scheme, matrix: &mut Matrix) {
    let all = all_rights(scheme.rights);
    let places: Vec<(u16, u16)> = matrix.cells().keys().copied().collect();
    for (row, column) in places {
        let rights = match random.below(8) {
            0 => 0,
            1 => random.draw() & all,
            _ => all,
        };
        matrix.set_cell(row, column, rights);
    }
}

/// One or two of several things.
fn put_on_hold(random: &mut Random, plan: &Plan, matrix: &mut Matrix) {
    let things: Vec<u16> = matrix.things().keys().copied().collect();
    if things.len() < 3 || plan.ending != Ending::Same(18) && random.chance(3, 4) {
        return;
    }
    for _ in 0..random.from_to(1, 2) {
        matrix.set_held(*random.pick(&things), true);
    }
}

/// That of the last thing, or one above it; at times the last that there is, behind which nothing is created.
fn highest(random: &mut Random, last: u16) -> u16 {
    match random.below(16) {
        0 => u16::MAX,
        1..=6 => above(random, last),
        _ => last,
    }
}
