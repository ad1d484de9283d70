//! The independent program's side, from bytes to bytes as the library's functions are.

use independent::answer::Answer;
use independent::convert;
use independent::engine::Dense;
use independent::hold::mark;
use independent::matrix::{read_matrix, write_matrix, Matrix};
use independent::moving;
use independent::scheme::{read_scheme, write_scheme, Scheme};

pub fn scheme(bytes: &[u8]) -> Scheme {
    read_scheme(bytes).expect("a load is accepted").0
}

pub fn matrix(scheme_bytes: &[u8], bytes: &[u8]) -> (Scheme, Matrix) {
    let scheme = scheme(scheme_bytes);
    let matrix = read_matrix(bytes, &scheme).expect("a load is accepted");
    (scheme, matrix)
}

pub fn convert_scheme(bytes: &[u8]) -> Vec<u8> {
    let converted = convert::convert_scheme(&scheme(bytes)).expect("the load converts");
    write_scheme(&converted)
}

pub fn convert_matrix(scheme_bytes: &[u8], bytes: &[u8]) -> Vec<u8> {
    let (scheme, matrix) = matrix(scheme_bytes, bytes);
    let converted = convert::convert_scheme(&scheme).expect("the load converts");
    let matrix = convert::convert_matrix(&matrix, &scheme).expect("the load converts");
    write_matrix(&matrix, &converted)
}

pub fn hold(scheme_bytes: &[u8], bytes: &[u8], id: u16) -> Vec<u8> {
    let (scheme, matrix) = matrix(scheme_bytes, bytes);
    let marked = mark(&matrix, id, true).expect("the load has the thing");
    write_matrix(&marked, &scheme)
}

pub fn forward(scheme_bytes: &[u8], old: &[u8]) -> Vec<u8> {
    moving::forward(&scheme(scheme_bytes), old).expect("the load's old image is accepted")
}

pub fn back(scheme_bytes: &[u8], new: &[u8]) -> Vec<u8> {
    moving::back(&scheme(scheme_bytes), new).expect("the load's highest id is listed")
}

/// The answer's bytes, and the matrix afterwards.
pub fn one_request(
    scheme_bytes: &[u8],
    matrix_bytes: &[u8],
    request: &[u8],
) -> ([u8; Answer::BYTES], Vec<u8>) {
    let (scheme, matrix) = matrix(scheme_bytes, matrix_bytes);
    let mut dense = Dense::from_matrix(&matrix);
    let mut answer = [0; Answer::BYTES];
    run_list(&scheme, &mut dense, request, &mut answer);
    let after = write_matrix(&dense.to_matrix(&scheme), &scheme);
    (answer, after)
}

/// Reads requests from the bytes without allocation, as a quick program would; how many there were.
pub fn run_list(scheme: &Scheme, dense: &mut Dense, list: &[u8], answers: &mut [u8]) -> usize {
    let (mut at, mut count) = (0, 0);
    let mut room = answers.chunks_exact_mut(Answer::BYTES);
    while let Some((command, ids, length)) = request(&list[at..]) {
        let mut numbers = [0; 8];
        for (number, id) in numbers.iter_mut().zip(ids.chunks_exact(2)) {
            *number = u16::from_le_bytes([id[0], id[1]]);
        }
        let answer = dense.carry_out(scheme, command as usize, &numbers[..ids.len() / 2]);
        let place = room.next().expect("there is room for all answers");
        place.copy_from_slice(&answer.bytes());
        count += 1;
        at += length;
    }
    count
}

/// The command, the ids' bytes and the record's length; none at the end or where the record can't be read.
fn request(left: &[u8]) -> Option<(u8, &[u8], usize)> {
    let (front, rest) = left.split_first_chunk::<4>()?;
    let length = usize::from(u16::from_le_bytes([front[0], front[1]]));
    if u16::from_le_bytes([front[2], front[3]]) != 6 {
        return None;
    }
    let ([command, count], ids) = rest.get(..length)?.split_first_chunk::<2>()?;
    let is_whole = *count <= 8 && ids.len() == 2 * usize::from(*count);
    is_whole.then_some((*command, ids, 4 + length))
}
