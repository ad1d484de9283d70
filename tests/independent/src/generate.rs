//! Makes cases, valid and damaged, from a seed, so that two programs can be compared on the same inputs.

pub mod damage;
pub mod fields;
mod ids;
pub mod incomplete;
pub mod kinds;
pub mod marks;
pub mod matrices;
pub mod moves;
mod places;
pub mod random;
pub mod requests;
pub mod schemes;
mod spoil;
pub mod steps;
pub mod stops;

use crate::matrix::{read_matrix, write_matrix, Matrix};
use crate::print::MOST_INPUT;
use crate::scheme::{read_scheme, write_scheme, Scheme};
use random::Random;

/// The three inputs of `play`, and what no file of `play` can hold.
#[derive(Clone, Debug, Default, PartialEq, Eq)]
pub struct Case {
    pub scheme: Vec<u8>,
    pub matrix: Vec<u8>,
    pub requests: Vec<u8>,
    /// Requests to hand in directly after the list's, and to write; some have more than 8 ids.
    pub direct: Vec<(u8, Vec<u16>)>,
    /// Ids to hold (true) and to release, 1 to 4.
    pub marks: Vec<(u16, bool)>,
    /// The length of an output buffer to write into.
    pub room: usize,
    /// An image to move forward, which is mostly an old one.
    pub old: Vec<u8>,
    /// An image to move back, which is mostly a new one.
    pub new: Vec<u8>,
    /// The length of an output buffer to move them into.
    pub moved_room: usize,
}

/// In one of so many cases the requests of `stops` come first, and in two others those of `steps`.
const TURNS: usize = 8;

/// The case of a seed and a number; it doesn't depend on the cases before it.
pub fn case(seed: u64, number: u64) -> Case {
    let random = &mut Random::new(seed, number);
    let mut scheme = schemes::scheme(random);
    let mut matrix = matrices::matrix(random, &scheme);
    // From sources of their own, so that all else is what it would be without them.
    let marking = &mut Random::new(!seed, !number);
    marks::put(marking, &mut matrix);
    let apart = &mut Random::new(!seed, number);
    let first = match apart.below(TURNS) {
        0 => stops::stops(apart, &mut scheme, &matrix),
        1 | 2 => steps::steps(apart, &mut scheme, &mut matrix),
        _ => Vec::new(),
    };
    let mut case = Case {
        scheme: write_scheme(&scheme),
        matrix: write_matrix(&matrix, &scheme),
        ..Case::default()
    };
    damage_content(random, &mut case);

    // Where a damaged scheme or matrix can still be read, the requests are made for what it says now.
    if let Ok((read, _)) = read_scheme(&case.scheme) {
        scheme = read;
        if let Ok(read) = read_matrix(&case.matrix, &scheme) {
            matrix = read;
        } else {
            matrix = matrices::matrix(random, &scheme);
            marks::put(marking, &mut matrix);
        }
    }
    case.marks = marks::marks(marking, &matrix);
    let moving = &mut Random::new(seed, !number);
    put_images(moving, &mut case, &scheme, &matrix);
    case.requests = requests::list(random, &scheme, &mut matrix, &first);
    case.direct = requests::direct(random, &scheme, &matrix);
    damage_requests(random, &mut case.requests);
    case.room = room(random, &case);
    case
}

/// To move, of this scheme and matrix.
fn put_images(random: &mut Random, case: &mut Case, scheme: &Scheme, matrix: &Matrix) {
    let moves = moves::moves(random, scheme, matrix);
    (case.old, case.new, case.moved_room) = (moves.old, moves.new, moves.room);
}

/// Scheme or matrix, in about half of the cases.
fn damage_content(random: &mut Random, case: &mut Case) {
    match random.below(20) {
        0..=5 => damage::damage(random, &mut case.scheme),
        6..=10 => damage::damage(random, &mut case.matrix),
        11 if random.chance(1, 2) => {
            let other = schemes::scheme(random);
            case.matrix = write_matrix(&matrices::matrix(random, &other), &other);
        }
        12 if random.chance(1, 8) => case.scheme.clear(),
        12 if random.chance(1, 8) => case.matrix.clear(),
        13 if random.chance(1, 5) => kinds::held_record(random, &mut case.scheme),
        13 => kinds::of_matrix(random, &mut case.matrix),
        _ => {}
    }
}

/// At times the list is damaged, and now and then longer than an input may be.
fn damage_requests(random: &mut Random, requests: &mut Vec<u8>) {
    match random.below(40) {
        0..=7 => damage::damage(random, requests),
        8 => kinds::held_record(random, requests),
        _ => {}
    }
    if random.chance(1, 300) && !requests.is_empty() {
        *requests = requests.repeat(MOST_INPUT / requests.len() + 1);
    }
}

/// A buffer's length near the length of something that will be written.
fn room(random: &mut Random, case: &Case) -> usize {
    let request = 6 + 2 * random.below(9);
    let size = *random.pick(&[
        case.scheme.len(),
        case.matrix.len(),
        request,
        70_000,
        70_000,
        70_000,
    ]);
    (size + random.below(3)).saturating_sub(1)
}
