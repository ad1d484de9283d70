//! What the tests share: the outline's key example, bytes written as text, and requests for both engines.
#![allow(dead_code)]

use independent::answer::Answer;
use independent::engine::{carry_out, Dense};
use independent::matrix::{read_matrix, Matrix};
use independent::request::write_request;
use independent::scheme::{read_scheme, Scheme};

/// The outline's 47 bytes.
pub const KEY_SCHEME: &str = "05 00 01 00 04 03 03 00 02 / \
    0D 00 02 00 02 00 01 01 01 00 00 01 01 01 02 01 01 / \
    11 00 02 00 02 01 02 02 01 01 00 01 00 02 00 00 01 01 03 00 01";

/// Things 5 manager, 9 key, 12 robot; the highest id 12; cells [5,9] = 1, [9,12] = 2; written by hand.
pub const KEY_MATRIX: &str = "04 00 07 00 04 03 0C 00 / \
    03 00 04 00 05 00 00 / 03 00 04 00 09 00 01 / 03 00 04 00 0C 00 02 / \
    0C 00 05 00 05 00 09 00 01 00 00 00 00 00 00 00 / \
    0C 00 05 00 09 00 0C 00 02 00 00 00 00 00 00 00";

/// The same as an old image, which tells no highest id; written by hand.
pub const OLD_KEY_MATRIX: &str = "02 00 03 00 04 03 / \
    03 00 04 00 05 00 00 / 03 00 04 00 09 00 01 / 03 00 04 00 0C 00 02 / \
    0C 00 05 00 05 00 09 00 01 00 00 00 00 00 00 00 / \
    0C 00 05 00 09 00 0C 00 02 00 00 00 00 00 00 00";

pub const RETIRE: usize = 0;
pub const LOAD: usize = 1;

/// Hexadecimal bytes; a slash is only for the eye.
pub fn bytes(text: &str) -> Vec<u8> {
    let parts = text.split_whitespace().filter(|part| *part != "/");
    parts
        .map(|part| u8::from_str_radix(part, 16).expect("two digits"))
        .collect()
}

pub fn key_scheme() -> Scheme {
    read_scheme(&bytes(KEY_SCHEME))
        .expect("the key example is a scheme")
        .0
}

pub fn key_matrix() -> Matrix {
    read_matrix(&bytes(KEY_MATRIX), &key_scheme()).expect("the key example has a matrix")
}

pub fn list(requests: &[(u8, &[u16])]) -> Vec<u8> {
    requests
        .iter()
        .flat_map(|(command, ids)| write_request(*command, ids).unwrap())
        .collect()
}

/// The number, the test's place and the steps.
pub type Answered = (u8, u8, u8);

/// Both engines must answer this, and have the same matrix after it.
pub fn carries_out(scheme: &Scheme, matrix: &mut Matrix, command: usize, ids: &[u16]) -> Answered {
    let mut dense = Dense::from_matrix(matrix);
    let before = matrix.clone();
    let answer = carry_out(scheme, matrix, command, ids);
    assert_eq!(answer, dense.carry_out(scheme, command, ids));
    assert_eq!(*matrix, dense.to_matrix(scheme));
    assert!(answer.number == 0 || *matrix == before);
    assert!(matrix.highest() >= before.highest());
    assert_eq!(matrix.on_hold(), before.on_hold());
    (answer.number, answer.test, answer.steps)
}

/// What a complete robot answers where the office answers this: the same, but what it carries out has twice the operations.
pub fn of_robot(scheme: &Scheme, command: usize, office: Answer) -> Answer {
    let more = match office.number {
        0 => scheme.commands[command].operations.len() as u8,
        _ => 0,
    };
    let steps = office.steps + more;
    Answer { steps, ..office }
}
