//! Images to move forward and back, whole and damaged, with the highest id that an old one gives and with others; and a buffer's length for them.

use super::damage::damage;
use super::kinds::of_matrix;
use super::matrices::id;
use super::random::Random;
use super::spoil::spoil;
use crate::matrix::{write_matrix, Matrix, MOST_THINGS};
use crate::moving::{highest_listed, write_old_matrix};
use crate::scheme::Scheme;

pub struct Moves {
    /// Mostly an old image.
    pub old: Vec<u8>,
    /// Mostly a new image.
    pub new: Vec<u8>,
    pub room: usize,
}

/// A matrix of the scheme as an image of each kind; the two aren't always of one matrix.
pub fn moves(random: &mut Random, scheme: &Scheme, matrix: &Matrix) -> Moves {
    let (first, second) = (
        changed(random, scheme, matrix),
        changed(random, scheme, matrix),
    );
    let mut old = write_old_matrix(&first, scheme);
    let mut new = write_matrix(&second, scheme);
    set_highest(random, &mut new, &second);
    let images = (old.clone(), new.clone());
    damage_image(random, &mut old, scheme, &first, &images.1);
    damage_image(random, &mut new, scheme, &second, &images.0);
    let room = room(random, &old, &new);
    Moves { old, new, room }
}

/// Mostly the matrix itself; at times one of no things, or with an id that may be the last one.
fn changed(random: &mut Random, scheme: &Scheme, matrix: &Matrix) -> Matrix {
    let mut matrix = matrix.clone();
    match random.below(12) {
        0 => matrix = Matrix::new(),
        1 | 2 if matrix.things().len() < MOST_THINGS => {
            let any = id(random);
            let id = *random.pick(&[u16::MAX, any]);
            if matrix.type_of(id).is_none() {
                let kind = random.below(scheme.types.into()) as u8;
                matrix.create(scheme, id, kind);
                matrix.set_held(id, random.chance(1, 4));
            }
        }
        _ => {}
    }
    matrix
}

/// Mostly the highest listed id; the matrix's own one, just above the listed ones, or far above them.
fn set_highest(random: &mut Random, new: &mut [u8], matrix: &Matrix) {
    let listed = highest_listed(matrix);
    let any = random.from_to(listed.into(), 65_535) as u16;
    let highest = match random.below(8) {
        0..=3 => listed,
        4 => listed.saturating_add(1),
        5 => listed.saturating_add(random.from_to(1, 9) as u16),
        6 => *random.pick(&[u16::MAX, any]),
        _ => matrix.highest(),
    };
    new[6..8].copy_from_slice(&highest.to_le_bytes());
}

/// In about half of the cases; now and then it is the image of the other kind.
fn damage_image(
    random: &mut Random,
    image: &mut Vec<u8>,
    scheme: &Scheme,
    matrix: &Matrix,
    other: &[u8],
) {
    match random.below(24) {
        0..=7 => spoil(random, image, scheme, matrix),
        8 => {
            spoil(random, image, scheme, matrix);
            damage(random, image);
        }
        9 => damage(random, image),
        10 => of_matrix(random, image),
        11 => other_image(random, image, other),
        _ => {}
    }
}

/// All of it, or its head's kind or length alone.
fn other_image(random: &mut Random, image: &mut Vec<u8>, other: &[u8]) {
    match random.below(3) {
        0 => *image = other.to_vec(),
        1 => image[2] = other[2],
        _ => {
            let end = 4 + usize::from(image[0]);
            image.splice(4..end, other[4..4 + usize::from(other[0])].iter().copied());
            image[0] = other[0];
        }
    }
}

/// Near the length of what is made of one of them, none or hardly any, or enough for all.
fn room(random: &mut Random, old: &[u8], new: &[u8]) -> usize {
    let near = match random.below(8) {
        0 => return random.below(6),
        1 => return 70_000,
        2..=4 => old.len() + 2,
        _ => new.len().saturating_sub(2),
    };
    (near + random.below(5)).saturating_sub(3)
}
