//! The robots' library for Rust: schemes, matrices and lists of requests as bytes. What each function promises stands in
//! `slushferret.h`; here a refusal is an error with its place, and the buffers' lengths can't be wrong.
//!
//! Nothing is allocated, and nothing is kept between two calls.
#![no_std]

mod answer;
mod foreign;
mod refusal;

pub use answer::{Answer, ANSWER_BYTES, ON_HOLD};
pub use refusal::{Place, Refusal, HIGHEST_LOST};

use foreign::Report;

/// Room for the longest of each.
pub const SCHEME_BYTES: usize = 6633;
pub const MATRIX_BYTES: usize = 37208;
pub const OLD_MATRIX_BYTES: usize = 37206;
pub const REQUEST_BYTES: usize = 22;

/// Where in a matrix's bytes the highest id stands that it ever had.
const HIGHEST_AT: usize = 6;

/// A list that was carried out.
#[derive(Clone, Copy, Debug, PartialEq, Eq)]
pub struct Run {
    /// How many answers were stored, `ANSWER_BYTES` each; `stored` reads them.
    pub answers: usize,
    /// How many bytes the matrix afterwards has.
    pub written: usize,
    /// The record that can't be read, if one ended the list; what came before it is carried out.
    pub ended_by: Option<Refusal>,
}

impl Run {
    /// The answers in the buffer that this run was lent, in the order of the requests.
    pub fn stored<'a>(&self, answers: &'a [u8]) -> impl Iterator<Item = Answer> + 'a {
        answer::all(answers).take(self.answers)
    }
}

/// The version of the interface that this wrapper was written for.
pub const VERSION: u32 = 7;

/// The version that the linked archive has: another one than `VERSION` means that the two don't belong together.
pub fn version() -> u32 {
    foreign::version()
}

/// The scheme's length, if the bytes are one.
pub fn check_scheme(scheme: &[u8]) -> Result<usize, Refusal> {
    let mut report = Report::new();
    let number = foreign::check_scheme(scheme, &mut report);
    report.result(number).map(|()| report.position())
}

/// The matrix's length, if the bytes are one of this scheme.
pub fn check_matrix(scheme: &[u8], matrix: &[u8]) -> Result<usize, Refusal> {
    let mut report = Report::new();
    let number = foreign::check_matrix(scheme, matrix, &mut report);
    report.result(number).map(|()| report.position())
}

/// The highest id that a matrix ever had, of bytes that `check_matrix` accepts or that a run wrote. Ids up to it are never
/// created again, so a new key gets one above it. An old image has none, and what stands there is something else.
pub fn highest_id(matrix: &[u8]) -> Option<u16> {
    let field = matrix.get(HIGHEST_AT..)?.first_chunk()?;
    Some(u16::from_le_bytes(*field))
}

/// Carries out a list of requests: an answer each, and the bytes of the matrix afterwards. On an error both buffers are as
/// they were.
///
/// A matrix with entries missing, the poorer, can only be stricter than the complete one, the richer, where no command tests
/// an absence and both have the same things, marks and highest id: each request before the poorer's first refusal has the
/// same answer on the richer, and after each of them the poorer has no entry that the richer lacks. Behind that refusal
/// nothing is promised, and the list goes on there: `slushferret.h` says how to stop.
pub fn run(
    scheme: &[u8],
    matrix: &[u8],
    requests: &[u8],
    answers: &mut [u8],
    out: &mut [u8],
) -> Result<Run, Refusal> {
    let mut report = Report::new();
    let number = foreign::run(scheme, matrix, requests, answers, out, &mut report);
    report.result(number)?;
    Ok(Run {
        answers: report.answers(),
        written: report.written(),
        ended_by: report.record(),
    })
}

/// Writes the converted scheme from the buffer's start on, and gives its length. On an error the buffer is as it was.
pub fn convert_scheme(scheme: &[u8], out: &mut [u8]) -> Result<usize, Refusal> {
    let mut report = Report::new();
    let number = foreign::convert_scheme(scheme, out, &mut report);
    report.result(number).map(|()| report.written())
}

/// Writes the converted matrix, given the scheme before its conversion, and gives its length. What is on hold stays on
/// hold. Each byte is stored to once (counted, not proved). On an error the buffer is as it was.
pub fn convert_matrix(scheme: &[u8], matrix: &[u8], out: &mut [u8]) -> Result<usize, Refusal> {
    let mut report = Report::new();
    let number = foreign::convert_matrix(scheme, matrix, out, &mut report);
    report.result(number).map(|()| report.written())
}

/// Puts the thing with this id on hold: it keeps its rights and takes part in no request (`ON_HOLD`). Writes the matrix
/// afterwards, and gives its length; if the thing is on hold already, that is the matrix as it was. On an error the buffer
/// is as it was.
pub fn hold(scheme: &[u8], matrix: &[u8], id: u16, out: &mut [u8]) -> Result<usize, Refusal> {
    let mut report = Report::new();
    let number = foreign::mark(true, scheme, matrix, id, out, &mut report);
    report.result(number).map(|()| report.written())
}

/// Releases the thing with this id: it isn't on hold any more. Writes the matrix afterwards, and gives its length; if the
/// thing wasn't on hold, that is the matrix as it was. On an error the buffer is as it was.
pub fn release(scheme: &[u8], matrix: &[u8], id: u16, out: &mut [u8]) -> Result<usize, Refusal> {
    let mut report = Report::new();
    let number = foreign::mark(false, scheme, matrix, id, out, &mut report);
    report.result(number).map(|()| report.written())
}

/// Turns an old image, from before there was a highest id, into a matrix: its highest id is the highest listed one, 0 for no
/// things, and all else stays, what is on hold too. Writes the matrix, and gives its length, 2 more than the old image's;
/// `back` gives that image again. On an error the buffer is as it was.
pub fn forward(scheme: &[u8], old: &[u8], out: &mut [u8]) -> Result<usize, Refusal> {
    let mut report = Report::new();
    let number = foreign::move_image(true, scheme, old, out, &mut report);
    report.result(number).map(|()| report.written())
}

/// Turns a matrix into an old image, for a robot that is still from before there was a highest id. Writes the image, and gives
/// its length, 2 less than the matrix's; `forward` gives the matrix again. `HIGHEST_LOST` where the highest id isn't the highest
/// listed one. What is on hold stays so: a robot from before there were marks refuses the image rather than lose one. On an
/// error the buffer is as it was.
pub fn back(scheme: &[u8], matrix: &[u8], out: &mut [u8]) -> Result<usize, Refusal> {
    let mut report = Report::new();
    let number = foreign::move_image(false, scheme, matrix, out, &mut report);
    report.result(number).map(|()| report.written())
}

/// Writes a request's record at a position, and gives the position behind it. On an error the buffer is as it was.
pub fn write_request(
    command: u8,
    ids: &[u16],
    out: &mut [u8],
    at: usize,
) -> Result<usize, Refusal> {
    let mut report = Report::new();
    let number = foreign::write_request(command, ids, out, at, &mut report);
    report.result(number).map(|()| report.written())
}
