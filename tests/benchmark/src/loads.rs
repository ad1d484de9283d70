//! The loads: a scheme, a matrix of it, and a list of requests.

use independent::generate::random::Random;
use independent::matrix::{write_matrix, Matrix};
use independent::request::write_request;
use independent::scheme::{write_scheme, Command, Operation, Scheme, Test};

pub struct Load {
    pub scheme: Scheme,
    pub matrix: Matrix,
    pub scheme_bytes: Vec<u8>,
    pub matrix_bytes: Vec<u8>,
    pub requests: Vec<u8>,
    /// How many requests the list has.
    pub count: usize,
}

impl Load {
    /// The list is so many times these requests.
    fn new(scheme: Scheme, matrix: Matrix, times: usize, list: &[(u8, Vec<u16>)]) -> Load {
        let mut requests = Vec::new();
        for (command, ids) in list {
            requests.extend(write_request(*command, ids).expect("at most 8 ids"));
        }
        Load {
            scheme_bytes: write_scheme(&scheme),
            matrix_bytes: write_matrix(&matrix, &scheme),
            requests: requests.repeat(times),
            count: times * list.len(),
            scheme,
            matrix,
        }
    }

    pub fn first_request(&self) -> &[u8] {
        let length = 4 + usize::from(u16::from_le_bytes([self.requests[0], self.requests[1]]));
        &self.requests[..length]
    }

    /// As many things come before it as after it, or one more.
    pub fn middle_thing(&self) -> u16 {
        let things = self.matrix.things();
        let id = things.keys().nth(things.len() / 2);
        *id.expect("a load has things")
    }
}

/// The outline's key example: its seven requests, a thousand times.
pub fn key_list() -> Load {
    let test = |present, right, row, column| Test {
        present,
        right,
        row,
        column,
    };
    let enter = |right, row, column| Operation::Enter { right, row, column };
    let retire = Command {
        parameters: vec![0, 1],
        tests: vec![test(true, 0, 0, 1)],
        operations: vec![enter(2, 1, 1)],
    };
    let load = Command {
        parameters: vec![1, 2],
        tests: vec![test(true, 1, 0, 1), test(false, 2, 0, 0)],
        operations: vec![enter(3, 0, 1)],
    };
    let scheme = Scheme {
        rights: 4,
        types: 3,
        subjects: 3,
        commands: vec![retire, load],
    };
    let mut matrix = Matrix::new();
    for (id, kind) in [(5, 0), (9, 1), (12, 2)] {
        matrix.create(&scheme, id, kind);
    }
    matrix.set_cell(5, 9, 1);
    matrix.set_cell(9, 12, 2);
    let seven = [
        (1, vec![9, 12]),
        (0, vec![5, 9]),
        (1, vec![9, 12]),
        (0, vec![9, 9]),
        (0, vec![5, 8]),
        (0, vec![5]),
        (2, vec![]),
    ];
    Load::new(scheme, matrix, 1_000, &seven)
}

/// 48 subjects with full cells and 32 commands of 8 parameters and 16 tests, on random ids; every request is carried out.
pub fn full_list() -> Load {
    let command = |number: u8| Command {
        parameters: vec![0; 8],
        tests: tests(number, 60),
        operations: vec![
            Operation::Enter {
                right: number,
                row: 0,
                column: 1,
            },
            Operation::Delete {
                right: 62,
                row: 2,
                column: 3,
            },
        ],
    };
    let scheme = Scheme {
        rights: 64,
        types: 1,
        subjects: 1,
        commands: (0..32).map(command).collect(),
    };
    let matrix = full_matrix(&scheme, 48, u64::MAX >> 1);
    let random = &mut Random::new(1, 0);
    let list: Vec<(u8, Vec<u16>)> = (0..7_000)
        .map(|k| (k % 32, (0..8).map(|_| id(random.below(48))).collect()))
        .map(|(command, ids)| (command as u8, ids))
        .collect();
    Load::new(scheme, matrix, 1, &list)
}

/// At 47 things a 48th is created and destroyed in turn, each with the next id, since none is used again.
pub fn turning_list() -> Load {
    let command = |operation| Command {
        parameters: vec![0],
        tests: Vec::new(),
        operations: vec![operation],
    };
    let scheme = Scheme {
        rights: 4,
        types: 1,
        subjects: 1,
        commands: vec![
            command(Operation::Create { parameter: 0 }),
            command(Operation::Destroy { parameter: 0 }),
        ],
    };
    let matrix = full_matrix(&scheme, 47, 0);
    let first = matrix.highest() + 1;
    let turns = (first..first + 3_500).flat_map(|id| [(0, vec![id]), (1, vec![id])]);
    let turns: Vec<(u8, Vec<u16>)> = turns.collect();
    Load::new(scheme, matrix, 1, &turns)
}

/// No scheme and no matrix has more bytes.
pub fn largest() -> Load {
    let scheme = large_scheme(64, 32);
    let matrix = full_matrix(&scheme, 48, u64::MAX);
    Load::new(scheme, matrix, 1, &[(0, (0..8).map(id).collect())])
}

/// The largest that converts.
pub fn largest_convertible() -> Load {
    let scheme = large_scheme(32, 16);
    let matrix = full_matrix(&scheme, 48, u64::from(u32::MAX));
    Load::new(scheme, matrix, 1, &[(0, (0..8).map(id).collect())])
}

fn large_scheme(rights: u8, operations: u8) -> Scheme {
    let command = |number: u8| Command {
        parameters: vec![0; 8],
        tests: tests(number, rights),
        operations: (0..operations)
            .map(|k| Operation::Enter {
                right: (number + k) % rights,
                row: k % 8,
                column: (number + k) % 8,
            })
            .collect(),
    };
    Scheme {
        rights,
        types: 16,
        subjects: u16::MAX,
        commands: (0..32).map(command).collect(),
    }
}

/// 16 tests for the presence of different rights in different cells.
fn tests(number: u8, rights: u8) -> Vec<Test> {
    (0..16)
        .map(|k| Test {
            present: true,
            right: (number + k) % rights,
            row: k % 8,
            column: (number + k) % 8,
        })
        .collect()
}

/// So many subjects, with the same rights in every cell.
fn full_matrix(scheme: &Scheme, things: usize, rights: u64) -> Matrix {
    let mut matrix = Matrix::new();
    for k in 0..things {
        matrix.create(scheme, id(k), 0);
    }
    for row in 0..things {
        for column in 0..things {
            matrix.set_cell(id(row), id(column), rights);
        }
    }
    matrix
}

fn id(k: usize) -> u16 {
    100 + 7 * k as u16
}
