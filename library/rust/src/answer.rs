//! An answer to a request, as it stands in the buffer of a run.

/// So many bytes an answer takes.
pub const ANSWER_BYTES: usize = 3;

/// The test's place with every number but 14.
const NO_TEST: u8 = 255;

/// The number of a request that names a thing on hold: it may be carried out once the thing is released.
pub const ON_HOLD: u8 = 18;

#[derive(Clone, Copy, Debug, PartialEq, Eq)]
pub struct Answer {
    /// 0, or 10 to 18.
    pub number: u8,
    /// With 14 the place, from 0, of the command's first test that doesn't hold.
    pub test: Option<u8>,
    /// How many tests were evaluated and operations carried out or refused: at most 48.
    pub steps: u8,
}

pub fn all(bytes: &[u8]) -> impl Iterator<Item = Answer> + '_ {
    bytes.chunks_exact(ANSWER_BYTES).map(|answer| Answer {
        number: answer[0],
        test: Some(answer[1]).filter(|&place| place != NO_TEST),
        steps: answer[2],
    })
}
