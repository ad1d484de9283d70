//! A poorer matrix: the richer one without some of its entries.

use super::making::drawn;
use super::plan::Lacking;
use crate::generate::random::Random;
use crate::incomplete::{Entry, Named};
use crate::matrix::Matrix;
use crate::scheme::Scheme;

/// So many draws are tried for a request that tests or destroys.
const TRIES: usize = 20;

pub fn poorer(random: &mut Random, lacking: Lacking, scheme: &Scheme, richer: &Matrix) -> Matrix {
    let mut poorer = richer.clone();
    let filled = richer.cells().iter().filter(|(_, &rights)| rights != 0);
    let filled: Vec<(u16, u16)> = filled.map(|(&place, _)| place).collect();
    if filled.is_empty() {
        return poorer;
    }
    let place = *random.pick(&filled);
    match lacking {
        Lacking::Nothing => {}
        Lacking::Right => leave_right_out(random, &mut poorer, &filled),
        Lacking::Cell => leave_out(&mut poorer, |found| found == place),
        Lacking::Row => leave_out(&mut poorer, |(row, _)| row == place.0),
        Lacking::Column => leave_out(&mut poorer, |(_, column)| column == place.1),
        Lacking::Scattered => scatter(random, &mut poorer, &filled),
        Lacking::Everything => leave_out(&mut poorer, |_| true),
        Lacking::Tested => leave_tested_out(random, scheme, &mut poorer),
        Lacking::OfDestroyed => leave_destroyed_out(random, scheme, &mut poorer),
    }
    poorer
}

/// All entries of these cells.
fn leave_out(matrix: &mut Matrix, is_left_out: impl Fn((u16, u16)) -> bool) {
    let places = matrix.cells().keys().copied();
    let places: Vec<(u16, u16)> = places.filter(|&place| is_left_out(place)).collect();
    for (row, column) in places {
        matrix.set_cell(row, column, 0);
    }
}

/// One right of a cell that has several, where there is such a cell.
fn leave_right_out(random: &mut Random, matrix: &mut Matrix, filled: &[(u16, u16)]) {
    let rights = |&(row, column): &(u16, u16)| matrix.cell(row, column).expect("it is filled");
    let several = filled.iter().filter(|place| rights(place).count_ones() > 1);
    let several: Vec<&(u16, u16)> = several.collect();
    if let [_, ..] = several[..] {
        let &&(row, column) = random.pick(&several);
        let rights = rights(&(row, column));
        let present: Vec<u8> = (0..64).filter(|right| rights >> right & 1 == 1).collect();
        let right = 1 << random.pick(&present);
        matrix.set_cell(row, column, rights & !right);
    }
}

/// Each entry with one probability.
fn scatter(random: &mut Random, matrix: &mut Matrix, filled: &[(u16, u16)]) {
    let of = *random.pick(&[2, 4, 8, 16]);
    for &(row, column) in filled {
        let rights = matrix.cell(row, column).expect("it is filled");
        let kept = (0..64).fold(0, |kept, right| match random.chance(1, of) {
            true => kept,
            false => kept | 1 << right,
        });
        matrix.set_cell(row, column, rights & kept);
    }
}

fn leave_entry_out(matrix: &mut Matrix, entry: Entry) {
    let Entry { row, column, right } = entry;
    let rights = matrix.cell(row, column).expect("it is there");
    matrix.set_cell(row, column, rights & !(1 << right));
}

/// The entry that a test of some request asks for.
fn leave_tested_out(random: &mut Random, scheme: &Scheme, matrix: &mut Matrix) {
    for _ in 0..TRIES {
        let Some(request) = drawn(random, scheme, matrix) else {
            continue;
        };
        let tested = Named::of(scheme, &request).tested();
        if tested.is_empty() {
            continue;
        }
        let entry = *random.pick(&tested);
        if entry.is_in(matrix) {
            return leave_entry_out(matrix, entry);
        }
    }
}

/// Of a thing that some request destroys: an entry of its row or its column, or all of either.
fn leave_destroyed_out(random: &mut Random, scheme: &Scheme, matrix: &mut Matrix) {
    for _ in 0..TRIES {
        let Some(request) = drawn(random, scheme, matrix) else {
            continue;
        };
        let mut gone = Named::of(scheme, &request).destroyed();
        gone.retain(|&id| matrix.type_of(id).is_some());
        if gone.is_empty() {
            continue;
        }
        let id = *random.pick(&gone);
        let in_row = random.chance(1, 2);
        let is_of = |(row, column): (u16, u16)| id == if in_row { row } else { column };
        if random.chance(1, 2) {
            return leave_out(matrix, is_of);
        }
        let cells = matrix.cells().keys().copied();
        let cells: Vec<(u16, u16)> = cells.filter(|&place| is_of(place)).collect();
        if let [_, ..] = cells[..] {
            let place = *random.pick(&cells);
            return leave_out(matrix, |found| found == place);
        }
    }
}
