//! A refusal: the outline's number, and where the fault lies.

use core::error::Error;
use core::fmt;

/// The number of a matrix that can't go back to a robot from before there was a highest id: that id would be lost there, and a
/// retired key's number might be given out again. It must stay with robots that have this library.
pub const HIGHEST_LOST: u8 = 23;

#[derive(Clone, Copy, Debug, PartialEq, Eq)]
pub enum Place {
    Scheme,
    /// The matrix; for `forward` the old image.
    Matrix,
    Requests,
    /// The buffer for the answers is too short.
    Answers,
    /// The output buffer is too short.
    Output,
}

#[derive(Clone, Copy, Debug, PartialEq, Eq)]
pub struct Refusal {
    /// The outline's number: 1 to 9, 20 to 22, 12 where no thing has the id that `hold` or `release` is given, or
    /// `HIGHEST_LOST` from `back`.
    pub number: u8,
    pub place: Place,
    /// The position of the record at fault; 0 where none is meant.
    pub at: usize,
}

impl fmt::Display for Refusal {
    fn fmt(&self, f: &mut fmt::Formatter) -> fmt::Result {
        let Refusal { number, place, at } = self;
        match place {
            Place::Scheme => write!(f, "refused with {number}, in the scheme at byte {at}"),
            Place::Matrix => write!(f, "refused with {number}, in the matrix at byte {at}"),
            Place::Requests => write!(f, "refused with {number}, in the requests at byte {at}"),
            Place::Answers => write!(f, "refused with {number}: too little room for the answers"),
            Place::Output => write!(f, "refused with {number}: too little room for the output"),
        }
    }
}

impl Error for Refusal {}
