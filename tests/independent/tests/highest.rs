//! A key number is never used again: what the highest id decides, on both engines, and what keeps it.

mod common;

use common::*;
use independent::convert::{convert_matrix, convert_scheme};
use independent::matrix::{read_matrix, write_matrix, Matrix, MOST_THINGS};
use independent::scheme::{read_scheme, write_scheme, Command, Operation, Scheme};

const CREATE: usize = 0;
const CREATE_THREE: usize = 1;
const DESTROY: usize = 2;
const CREATE_AND_DESTROY: usize = 3;
const CREATE_AND_DESTROY_TWO: usize = 4;

/// The key example's types and rights. The three are created in another order than they stand in: the third parameter, the first, the second.
fn scheme() -> Scheme {
    let create = |parameter| Operation::Create { parameter };
    let destroy = |parameter| Operation::Destroy { parameter };
    let command = |operations: &[Operation], parameters: usize| Command {
        parameters: vec![1; parameters],
        tests: Vec::new(),
        operations: operations.to_vec(),
    };
    let scheme = Scheme {
        commands: vec![
            command(&[create(0)], 1),
            command(&[create(2), create(0), create(1)], 3),
            command(&[destroy(0)], 1),
            command(&[create(0), destroy(0)], 1),
            command(&[create(0), destroy(1), destroy(2)], 3),
        ],
        ..key_scheme()
    };
    assert!(read_scheme(&write_scheme(&scheme)).is_ok());
    scheme
}

/// Keys with these ids, and the highest id that there ever was.
fn keys(ids: &[u16], highest: u16) -> Matrix {
    let mut matrix = Matrix::new();
    for &id in ids {
        matrix.create(&scheme(), id, 1);
    }
    matrix.raise_highest(highest);
    matrix
}

/// The number, and the highest id afterwards.
fn gives(matrix: &mut Matrix, command: usize, ids: &[u16]) -> (u8, u16) {
    let (number, _, _) = carries_out(&scheme(), matrix, command, ids);
    (number, matrix.highest())
}

#[test]
fn a_key_that_is_gone_stays_gone() {
    let mut matrix = keys(&[30, 31], 31);
    assert_eq!(gives(&mut matrix, DESTROY, &[31]), (0, 31));
    assert_eq!(gives(&mut matrix, CREATE, &[31]), (15, 31));
    assert_eq!(gives(&mut matrix, CREATE, &[32]), (0, 32));
    assert_eq!(gives(&mut matrix, DESTROY, &[30]), (0, 32));
    assert_eq!(gives(&mut matrix, CREATE, &[30]), (15, 32));
    assert_eq!(gives(&mut matrix, DESTROY, &[32]), (0, 32));
    assert!(matrix.things().is_empty());
    for id in [1, 30, 31, 32] {
        assert_eq!(gives(&mut matrix, CREATE, &[id]), (15, 32));
    }
}

#[test]
fn only_the_highest_id_counts() {
    for highest in [9, 10, 255, 256, 40_000] {
        for id in [1, 8, 9, highest - 1, highest] {
            let answer = gives(&mut keys(&[5, 9], highest), CREATE, &[id]);
            assert_eq!(answer, (15, highest), "{id} of {highest}");
        }
        for id in [highest + 1, highest + 2, 65_535] {
            let answer = gives(&mut keys(&[5, 9], highest), CREATE, &[id]);
            assert_eq!(answer, (0, id), "{id} of {highest}");
        }
        assert_eq!(
            gives(&mut keys(&[5, 9], highest), CREATE, &[0]),
            (12, highest)
        );
    }
}

#[test]
fn behind_the_last_id_there_is_none() {
    for things in [&[][..], &[7], &[7, 65_535]] {
        let mut matrix = keys(things, 65_535);
        for id in [1, 7, 8, 65_534, 65_535] {
            assert_eq!(gives(&mut matrix, CREATE, &[id]), (15, 65_535));
        }
    }
    let mut matrix = keys(&[7], 65_534);
    assert_eq!(gives(&mut matrix, CREATE, &[65_535]), (0, 65_535));
    assert_eq!(gives(&mut matrix, DESTROY, &[65_535]), (0, 65_535));
    assert_eq!(gives(&mut matrix, CREATE, &[65_535]), (15, 65_535));
}

/// In the order of the creates, and not of the parameters.
#[test]
fn several_creates_must_rise() {
    let numbers = |ids: [u16; 3]| {
        let mut matrix = keys(&[5], 9);
        let (number, _, steps) = carries_out(&scheme(), &mut matrix, CREATE_THREE, &ids);
        (number, steps, matrix.highest())
    };
    assert_eq!(numbers([11, 12, 10]), (0, 3, 12));
    assert_eq!(numbers([300, 65_535, 10]), (0, 3, 65_535));
    assert_eq!(numbers([10, 11, 12]), (15, 2, 9));
    assert_eq!(numbers([12, 11, 10]), (15, 3, 9));
    assert_eq!(numbers([11, 11, 10]), (15, 3, 9));
    assert_eq!(numbers([10, 11, 10]), (15, 2, 9));
    assert_eq!(numbers([11, 10, 10]), (15, 3, 9));
    assert_eq!(numbers([11, 12, 9]), (15, 1, 9));
    assert_eq!(numbers([9, 12, 10]), (15, 2, 9));
    assert_eq!(numbers([11, 5, 10]), (15, 3, 9));
}

#[test]
fn a_refused_request_leaves_the_highest() {
    let mut matrix = keys(&[5, 6], 9);
    let before = matrix.clone();
    assert_eq!(gives(&mut matrix, CREATE_THREE, &[300, 300, 10]), (15, 9));
    assert_eq!(
        gives(&mut matrix, CREATE_AND_DESTROY_TWO, &[10, 5, 5]),
        (17, 9)
    );
    assert_eq!(
        gives(&mut matrix, CREATE_AND_DESTROY_TWO, &[10, 5, 7]),
        (12, 9)
    );
    assert_eq!(matrix, before);
    assert_eq!(gives(&mut matrix, CREATE, &[10]), (0, 10));

    let ids: Vec<u16> = (1..MOST_THINGS as u16 - 1).collect();
    let mut almost = keys(&ids, 60);
    assert_eq!(gives(&mut almost, CREATE_THREE, &[62, 63, 61]), (16, 60));
    assert_eq!(gives(&mut almost, CREATE, &[61]), (0, 61));
}

/// What is created and destroyed at once has been there.
#[test]
fn an_id_counts_that_no_reading_saw() {
    let mut matrix = keys(&[5], 5);
    assert_eq!(gives(&mut matrix, CREATE_AND_DESTROY, &[31]), (0, 31));
    assert_eq!(matrix.type_of(31), None);
    assert_eq!(gives(&mut matrix, CREATE_AND_DESTROY, &[31]), (15, 31));
    assert_eq!(gives(&mut matrix, CREATE, &[30]), (15, 31));
}

#[test]
fn the_highest_is_written_and_read() {
    let scheme = scheme();
    for (ids, highest) in [
        (&[][..], 0),
        (&[], 1),
        (&[], 65_535),
        (&[5, 9], 9),
        (&[5, 9], 10),
        (&[5, 9], 0x1234),
        (&[65_535], 65_535),
    ] {
        let matrix = keys(ids, highest);
        let bytes = write_matrix(&matrix, &scheme);
        assert_eq!(bytes[..6], [4, 0, 7, 0, 4, ids.len() as u8]);
        assert_eq!(bytes[6..8], highest.to_le_bytes());
        assert_eq!(bytes.len(), 8 + 7 * ids.len());
        assert_eq!(read_matrix(&bytes, &scheme), Ok(matrix));
    }
    // Two matrices that differ in nothing else are two contents.
    assert_ne!(keys(&[5], 5), keys(&[5], 6));
}

#[test]
fn the_largest_matrix_has_37208_bytes() {
    let enter = Operation::Enter {
        right: 0,
        row: 0,
        column: 0,
    };
    let command = Command {
        parameters: vec![0],
        tests: Vec::new(),
        operations: vec![enter],
    };
    let scheme = Scheme {
        rights: 64,
        types: 1,
        subjects: 1,
        commands: vec![command],
    };
    let mut matrix = Matrix::new();
    let ids = 1..=MOST_THINGS as u16;
    for id in ids.clone() {
        matrix.create(&scheme, id, 0);
    }
    for row in ids.clone() {
        for column in ids.clone() {
            matrix.set_cell(row, column, u64::MAX);
        }
    }
    let bytes = write_matrix(&matrix, &scheme);
    assert_eq!(bytes.len(), 37_208);
    assert_eq!(read_matrix(&bytes, &scheme), Ok(matrix));
}

#[test]
fn office_and_robot_have_the_same_highest() {
    let scheme = key_scheme();
    let robot_scheme = convert_scheme(&scheme).unwrap();
    for highest in [12, 13, 65_535] {
        let mut office = key_matrix();
        office.raise_highest(highest);
        let mut robot = convert_matrix(&office, &scheme).unwrap();
        assert_eq!(robot.highest(), highest);
        let bytes = write_matrix(&robot, &robot_scheme);
        assert_eq!(bytes[6..8], highest.to_le_bytes());
        for (command, ids) in [(LOAD, [9, 12]), (RETIRE, [5, 9]), (LOAD, [9, 12])] {
            carries_out(&scheme, &mut office, command, &ids);
            carries_out(&robot_scheme, &mut robot, command, &ids);
            assert_eq!((office.highest(), robot.highest()), (highest, highest));
        }
    }
}
