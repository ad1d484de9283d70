//! A stored matrix moved from the image of before the highest id (its head of kind 3) to the one with it (kind 7), and back: each is read whole into a
//! matrix, and the other one written from that.

use crate::bytes::{put_record, Record, OLD_MATRIX_HEAD};
use crate::matrix::{find_rest, put_rest, read_counts, read_matrix, write_matrix, Matrix};
use crate::refusal::{Found, Refusal};
use crate::scheme::Scheme;

/// Forward or back.
pub type Moving = fn(&Scheme, &[u8]) -> Result<Vec<u8>, Refusal>;

/// The new image of an old one; its highest id is the highest listed one.
pub fn forward(scheme: &Scheme, old: &[u8]) -> Result<Vec<u8>, Refusal> {
    Ok(write_matrix(&read_old_matrix(old, scheme)?, scheme))
}

/// The old image of a new one; 23 at 0 for a matrix whose highest id an old image can't keep.
pub fn back(scheme: &Scheme, new: &[u8]) -> Result<Vec<u8>, Refusal> {
    let matrix = read_matrix(new, scheme)?;
    match matrix.highest() == highest_listed(&matrix) {
        true => Ok(write_old_matrix(&matrix, scheme)),
        false => Err(Refusal { number: 23, at: 0 }),
    }
}

/// 0 for no things.
pub fn highest_listed(matrix: &Matrix) -> u16 {
    matrix.things().keys().max().copied().unwrap_or(0)
}

/// The matrix of an old image, or the number and the record's position.
pub fn read_old_matrix(input: &[u8], scheme: &Scheme) -> Result<Matrix, Refusal> {
    Ok(find_old_matrix(input, scheme)?)
}

/// The same with the fault by name.
pub fn find_old_matrix(input: &[u8], scheme: &Scheme) -> Result<Matrix, Found> {
    let mut head = Record::read(input, 0, OLD_MATRIX_HEAD)?;
    let things = read_counts(&mut head, scheme)?;
    head.end()?;
    // No highest id is stated, so that none of a thing can be above it.
    find_rest(input, head.next, scheme, things, u16::MAX)
}

/// The old image, which doesn't tell the highest id.
pub fn write_old_matrix(matrix: &Matrix, scheme: &Scheme) -> Vec<u8> {
    let mut out = Vec::new();
    let head = [scheme.rights, matrix.things().len() as u8];
    put_record(&mut out, OLD_MATRIX_HEAD, &head);
    put_rest(&mut out, matrix);
    out
}
