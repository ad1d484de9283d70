//! A list of requests carried out by the independent program: the answers, and the matrix's bytes after each of the first.

use independent::answer::Answer;
use independent::matrix::{write_matrix, Matrix};
use independent::refusal::Found;
use independent::request::find_request;
use independent::scheme::Scheme;

use crate::ways::Ways;

/// So many requests of a list the driver also carries out one by one.
pub const ONE_BY_ONE: usize = 60;

pub struct Carried {
    pub answers: Vec<Answer>,
    /// The matrix's bytes after each of the first requests.
    pub after_each: Vec<Vec<u8>>,
    /// The matrix after them.
    pub matrix: Matrix,
    /// The matrix's bytes after the whole list.
    pub bytes: Vec<u8>,
    /// The record that can't be read, if the list doesn't end with its end.
    pub ending: Option<Found>,
    /// The same as the driver meets it, one by one: at the start of a list.
    pub ending_alone: Option<Found>,
}

pub fn carry(scheme: &Scheme, matrix: &Matrix, list: &[u8], ways: &mut Ways) -> Carried {
    ways.matrix(matrix, scheme);
    let mut matrix = matrix.clone();
    let mut carried = Carried {
        answers: Vec::new(),
        after_each: Vec::new(),
        matrix: matrix.clone(),
        bytes: Vec::new(),
        ending: None,
        ending_alone: None,
    };
    let mut at = 0;
    loop {
        match find_request(list, at) {
            Ok(Some((request, next))) => {
                let answer = ways.request(scheme, &mut matrix, request.command, &request.ids);
                carried.answers.push(answer);
                if carried.after_each.len() < ONE_BY_ONE {
                    carried.after_each.push(write_matrix(&matrix, scheme));
                    carried.matrix.clone_from(&matrix);
                }
                at = next;
            }
            Ok(None) => break,
            Err(found) => {
                carried.ending = Some(found);
                carried.ending_alone = find_request(alone(list, at), 0).err();
                break;
            }
        }
    }
    carried.bytes = write_matrix(&matrix, scheme);
    carried
}

/// The bytes that the record at a position says are its own, as far as they are there.
fn alone(list: &[u8], at: usize) -> &[u8] {
    let left = &list[at..];
    if left.len() < 4 {
        return left;
    }
    let length = 4 + usize::from(u16::from_le_bytes([left[0], left[1]]));
    &left[..length.min(left.len())]
}
