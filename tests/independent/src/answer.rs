//! What a request is answered, and its bytes in a list's buffer: no other file knows how many they are.

use crate::scheme::{Command, MOST_OPERATIONS, MOST_TESTS};

/// The place that comes with every number but 14.
pub const NO_TEST: u8 = 255;

/// No request takes more steps.
pub const MOST_STEPS: u8 = MOST_TESTS + MOST_OPERATIONS;

#[derive(Clone, Copy, Debug, PartialEq, Eq)]
pub struct Answer {
    pub number: u8,
    /// With 14, the place of the first test that doesn't hold, counted from 0 in the command's tests as written.
    pub test: u8,
    /// How many tests were evaluated, the false one among them, and how many operations were come to, the faulty one among them.
    pub steps: u8,
}

/// By what ends a request: each says what it counts.
impl Answer {
    /// So many it takes of a list's buffer.
    pub const BYTES: usize = 3;

    /// 10 to 13, 18, and 27: nothing.
    pub fn before_tests(number: u8) -> Answer {
        let (test, steps) = (NO_TEST, 0);
        Answer {
            number,
            test,
            steps,
        }
    }

    /// 14, for the test at this place: the tests up to it.
    pub fn stopped_by(place: usize) -> Answer {
        Answer {
            number: 14,
            test: place as u8,
            steps: place as u8 + 1,
        }
    }

    /// 15 to 17, for the operation at this place: all tests, and the operations up to it.
    pub fn at_operation(number: u8, command: &Command, place: usize) -> Answer {
        Answer {
            number,
            test: NO_TEST,
            steps: (command.tests.len() + place + 1) as u8,
        }
    }

    /// 0: all tests and all operations.
    pub fn carried_out(command: &Command) -> Answer {
        Answer {
            number: 0,
            test: NO_TEST,
            steps: (command.tests.len() + command.operations.len()) as u8,
        }
    }

    pub fn bytes(self) -> [u8; Answer::BYTES] {
        [self.number, self.test, self.steps]
    }
}

/// The answers to a list, each directly behind the one before.
pub fn list_bytes(answers: &[Answer]) -> Vec<u8> {
    answers.iter().flat_map(|answer| answer.bytes()).collect()
}
