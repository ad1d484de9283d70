//! The library's side: buffers that are lent to every run.

use crate::loads::Load;

pub struct Buffers {
    pub answers: Vec<u8>,
    pub out: Vec<u8>,
}

impl Buffers {
    pub fn new() -> Buffers {
        Buffers {
            answers: vec![0; 7_000 * slushferret::ANSWER_BYTES],
            // With this room the library runs a list only once.
            out: vec![0; slushferret::MATRIX_BYTES],
        }
    }

    /// How many requests were answered.
    pub fn run(&mut self, load: &Load, requests: &[u8]) -> usize {
        let ran = slushferret::run(
            &load.scheme_bytes,
            &load.matrix_bytes,
            requests,
            &mut self.answers,
            &mut self.out,
        );
        ran.expect("a load is accepted").answers
    }
}
