//! One result: a call in words, and the numbers that the driver tells of it.

use std::fmt;

use crate::buffer::Buffer;

/// What the library was asked, with the lengths lent.
#[derive(Clone, Copy, Debug)]
pub enum Call {
    CheckScheme {
        report: usize,
    },
    CheckMatrix,
    ConvertScheme {
        out: usize,
    },
    ConvertMatrix {
        out: usize,
    },
    RunList {
        answers: usize,
        out: usize,
    },
    RunAlone {
        request: usize,
    },
    RunDirect {
        request: usize,
    },
    WriteRequest {
        request: usize,
        out: usize,
        at: usize,
    },
    /// A hold, or else a release, in the case's matrix.
    Mark {
        held: bool,
        id: u16,
        out: usize,
    },
    /// The same in the matrix that the marks before it left.
    MarkInTurn {
        held: bool,
        id: u16,
    },
    /// The list on the matrix that all marks left.
    RunMarked,
    /// Forward, or else back.
    Move {
        forward: bool,
        what: Moved,
    },
    Inputs,
}

#[derive(Clone, Copy, Debug)]
pub enum Moved {
    /// One of the case's images.
    Image { image: usize, out: usize },
    /// What that gave, the other way.
    Again { image: usize },
    /// The matrix that the requests left.
    After,
}

impl Call {
    /// The driver's number for it.
    fn code(self) -> u64 {
        match self {
            Call::CheckScheme { .. } => 1,
            Call::CheckMatrix => 2,
            Call::ConvertScheme { .. } => 3,
            Call::ConvertMatrix { .. } => 4,
            Call::RunList { .. }
            | Call::RunAlone { .. }
            | Call::RunDirect { .. }
            | Call::RunMarked => 5,
            Call::WriteRequest { .. } => 6,
            Call::Mark { held: true, .. } | Call::MarkInTurn { held: true, .. } => 7,
            Call::Mark { .. } | Call::MarkInTurn { .. } => 8,
            Call::Move { forward: true, .. } => 9,
            Call::Move { .. } => 10,
            Call::Inputs => 11,
        }
    }
}

impl fmt::Display for Call {
    fn fmt(&self, f: &mut fmt::Formatter) -> fmt::Result {
        match self {
            Call::CheckScheme { report } => {
                write!(f, "checking the scheme, with a report of {report} numbers")
            }
            Call::CheckMatrix => write!(f, "checking the matrix"),
            Call::ConvertScheme { out } => write!(f, "converting the scheme into {out} bytes"),
            Call::ConvertMatrix { out } => write!(f, "converting the matrix into {out} bytes"),
            Call::RunList { answers, out } => write!(
                f,
                "running the list, with {answers} bytes for the answers and {out} for the matrix"
            ),
            Call::RunAlone { request } => {
                write!(f, "running request {request} of the list by itself")
            }
            Call::RunDirect { request } => write!(f, "running the direct request {request}"),
            Call::WriteRequest { request, out, at } => write!(
                f,
                "writing the direct request {request} at {at} of {out} bytes"
            ),
            Call::Mark { held, id, out } => {
                write!(f, "{} {id} into {out} bytes", mark_words(*held))
            }
            Call::MarkInTurn { held, id } => {
                write!(f, "{} {id} behind the marks before", mark_words(*held))
            }
            Call::RunMarked => write!(f, "running the list behind all marks"),
            Call::Move { forward, what } => write!(f, "moving {} {what}", way(*forward)),
            Call::Inputs => write!(f, "after all calls"),
        }
    }
}

impl fmt::Display for Moved {
    fn fmt(&self, f: &mut fmt::Formatter) -> fmt::Result {
        match self {
            Moved::Image { image, out } => write!(f, "image {image} into {out} bytes"),
            Moved::Again { image } => write!(f, "what image {image} gave"),
            Moved::After => write!(f, "the matrix that the requests left"),
        }
    }
}

fn mark_words(held: bool) -> &'static str {
    if held {
        "holding"
    } else {
        "releasing"
    }
}

fn way(forward: bool) -> &'static str {
    if forward {
        "forward"
    } else {
        "back"
    }
}

/// The numbers of a report: five are told, and the driver has two more as a guard.
pub const REPORT: usize = 7;
const UNTOLD: u64 = 0xA5A5_A5A5_A5A5_A5A5;

/// The report's numbers where so many are lent.
pub fn report(told: [usize; 5], lent: usize) -> [u64; REPORT] {
    let mut report = [UNTOLD; REPORT];
    for (place, number) in told.into_iter().enumerate().take(lent) {
        report[place] = number as u64;
    }
    report
}

pub struct Told {
    pub call: Call,
    /// Each number with what it is.
    pub numbers: Vec<(&'static str, u64)>,
}

impl Told {
    pub fn new(call: Call, number: u8, report: [u64; REPORT]) -> Told {
        let mut numbers = vec![("the call", call.code()), ("the number", u64::from(number))];
        let names = [
            "where the fault lies",
            "the position",
            "how many answers",
            "how many bytes",
            "the record's number",
            "the report's sixth number",
            "the report's seventh number",
        ];
        numbers.extend(names.into_iter().zip(report));
        Told { call, numbers }
    }

    pub fn answers(mut self, buffer: Buffer) -> Told {
        self.numbers.extend([
            ("the end of what was stored as answers", buffer.end),
            ("the hash of the answers' buffer", buffer.hash),
        ]);
        self
    }

    pub fn out(mut self, buffer: Buffer) -> Told {
        self.numbers.extend([
            ("the end of what was stored as output", buffer.end),
            ("the hash of the output", buffer.hash),
        ]);
        self
    }

    /// What was only lent to be read: the case's three parts, and the images.
    pub fn inputs(parts: u64, images: u64) -> Told {
        let call = Call::Inputs;
        Told {
            call,
            numbers: vec![
                ("the call", call.code()),
                ("the inputs' hash", parts),
                ("the images' hash", images),
            ],
        }
    }
}
