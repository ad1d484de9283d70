//! Random matrices of a scheme, from empty to full.

use super::random::Random;
use crate::matrix::{all_rights, Matrix, MOST_THINGS};
use crate::scheme::Scheme;

pub fn matrix(random: &mut Random, scheme: &Scheme) -> Matrix {
    let count = match random.below(4) {
        0 => *random.pick(&[0, 1, 46, 47, 48, 48]),
        1 => random.from_to(0, MOST_THINGS),
        _ => random.from_to(2, 9),
    };
    let named: Vec<u8> = scheme
        .commands
        .iter()
        .flat_map(|command| command.parameters.clone())
        .collect();
    let favourite = &random.pick(&scheme.commands).parameters;
    // Of many ids that may be any one is near the last, and then creates can take hardly any.
    let draw = if random.chance(1, 8) { id } else { low_id };
    let mut matrix = Matrix::new();
    while matrix.things().len() < count {
        let id = draw(random);
        if matrix.type_of(id).is_none() {
            let kind = match random.below(6) {
                0..=2 => *random.pick(favourite),
                3 | 4 => *random.pick(&named),
                _ => random.below(scheme.types as usize) as u8,
            };
            matrix.create(scheme, id, kind);
        }
    }

    let places: Vec<(u16, u16)> = matrix.cells().keys().copied().collect();
    let density = *random.pick(&[0, 1, 4, 8]);
    for (row, column) in places {
        if random.chance(density, 8) {
            let rights = rights(random, scheme.rights);
            matrix.set_cell(row, column, rights);
        }
    }
    let highest = highest(random, matrix.highest());
    matrix.raise_highest(highest);
    matrix
}

/// Mostly the last listed id, or a bit above it; far above it, so near the last id that a few creates take the rest, or the last id itself. Without
/// things that is any number.
fn highest(random: &mut Random, last: u16) -> u16 {
    if last == 0 {
        let any = random.from_to(1, 65534) as u16;
        return *random.pick(&[0, 0, 0, 1, any, any, 65534, 65535]);
    }
    match random.below(32) {
        0..=17 => last,
        18..=25 => last.saturating_add(random.from_to(1, 9) as u16),
        26..=29 => random.from_to(last.into(), 65535) as u16,
        30 => 65535 - random.below(12) as u16,
        _ => 65535,
    }
}

/// An id that is small, or has both its bytes in use and is still far from the last one.
fn low_id(random: &mut Random) -> u16 {
    match random.below(16) {
        0 => random.from_to(1, 900) as u16,
        1 => *random.pick(&[255, 256, 257, 512]),
        _ => random.from_to(1, 90) as u16,
    }
}

/// An id that is small or has both its bytes in use or is the last one.
pub fn id(random: &mut Random) -> u16 {
    match random.below(16) {
        0 => 65535,
        1..=3 => random.from_to(1, 65535) as u16,
        4 => *random.pick(&[255, 256, 257, 512, 0x8000]),
        _ => random.from_to(1, 90) as u16,
    }
}

fn rights(random: &mut Random, n: u8) -> u64 {
    let all = all_rights(n);
    match random.below(4) {
        0 => all,
        1 => 1 << random.below(n as usize),
        2 => random.draw() & random.draw() & all,
        _ => random.draw() & all,
    }
}
