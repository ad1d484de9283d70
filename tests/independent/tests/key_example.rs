//! Every result that the outline lists under "The key example", starred or not.

mod common;

use common::*;
use independent::convert::{check, convert_matrix, convert_scheme};
use independent::matrix::{read_matrix, write_matrix, Matrix, MOST_THINGS};
use independent::print::play;
use independent::scheme::{read_scheme, write_scheme, Command, Operation, Scheme};
use independent::Refusal;

#[test]
fn the_scheme_has_47_bytes_and_says_what_the_outline_says() {
    let input = bytes(KEY_SCHEME);
    assert_eq!(input.len(), 47);
    let (scheme, next) = read_scheme(&input).unwrap();
    assert_eq!(next, 47);
    assert_eq!((scheme.rights, scheme.types, scheme.subjects), (4, 3, 0b11));
    assert_eq!(scheme.commands[RETIRE].parameters, [0, 1]);
    assert_eq!(scheme.commands[LOAD].parameters, [1, 2]);
    assert_eq!(
        scheme.commands[RETIRE].operations,
        [Operation::Enter {
            right: 2,
            row: 1,
            column: 1
        }]
    );
    assert_eq!(
        scheme.commands[LOAD].operations,
        [Operation::Enter {
            right: 3,
            row: 0,
            column: 1
        }]
    );
    assert_eq!(write_scheme(&scheme), input);
}

#[test]
fn the_matrix_has_six_cells() {
    let matrix = key_matrix();
    assert_eq!(matrix.cells().len(), 6);
    assert_eq!(matrix.cell(5, 9), Some(1));
    assert_eq!(matrix.cell(9, 12), Some(2));
    assert_eq!(matrix.cell(12, 9), None);
    assert_eq!(matrix.highest(), 12);
    assert_eq!(bytes(KEY_MATRIX).len(), 61);
    assert_eq!(write_matrix(&matrix, &key_scheme()), bytes(KEY_MATRIX));
}

#[test]
fn load_then_retire_then_load() {
    let (scheme, mut matrix) = (key_scheme(), key_matrix());
    let mut gives = |command, ids: &[u16], answer| {
        assert_eq!(carries_out(&scheme, &mut matrix, command, ids), answer);
        matrix.clone()
    };
    assert_eq!(gives(LOAD, &[9, 12], (0, 255, 3)).cell(9, 12), Some(10));
    assert_eq!(gives(RETIRE, &[5, 9], (0, 255, 2)).cell(9, 9), Some(4));
    gives(LOAD, &[9, 12], (14, 1, 2));
}

#[test]
fn refused_before_the_tests() {
    let (scheme, mut matrix) = (key_scheme(), key_matrix());
    let mut gives = |command, ids: &[u16], number| {
        let answer = carries_out(&scheme, &mut matrix, command, ids);
        assert_eq!(answer, (number, 255, 0));
    };
    gives(RETIRE, &[9, 9], 13);
    gives(RETIRE, &[5, 8], 12);
    gives(RETIRE, &[5], 11);
    gives(2, &[], 10);
    gives(RETIRE, &[5; 9], 11);
}

#[test]
fn converted() {
    let (scheme, matrix) = (key_scheme(), key_matrix());
    let (converted, mut start) = (
        convert_scheme(&scheme).unwrap(),
        convert_matrix(&matrix, &scheme).unwrap(),
    );
    for (&place, &rights) in start.cells() {
        let expected = match place {
            (5, 9) => 225,
            (9, 12) => 210,
            _ => 240,
        };
        assert_eq!(rights, expected, "{place:?}");
    }
    assert_eq!((start.cells().len(), start.highest()), (6, 12));

    let mut gives = |command, ids: &[u16], answer| {
        assert_eq!(carries_out(&converted, &mut start, command, ids), answer);
        start.clone()
    };
    gives(LOAD, &[9, 12], (0, 255, 4));
    let after = gives(RETIRE, &[5, 9], (0, 255, 3));
    assert_eq!(after.cell(9, 12), Some(90));
    assert_eq!(after.cell(9, 9), Some(180));
    gives(LOAD, &[9, 12], (14, 1, 2));

    // The head is the outline's; the commands are worked out by hand from its rules.
    let expected = bytes(
        "05 00 01 00 08 03 03 00 02 / \
         11 00 02 00 02 00 01 01 01 00 00 01 02 01 02 01 01 02 06 01 01 / \
         15 00 02 00 02 01 02 02 01 01 00 01 01 06 00 00 02 01 03 00 01 02 07 00 01",
    );
    assert_eq!(expected.len(), 55);
    assert_eq!(write_scheme(&converted), expected);
    assert_eq!(read_scheme(&expected), Ok((converted, 55)));
}

/// Subject type 0 of the key example's kind, with one command that has these operations.
fn scheme_of(parameters: &[u8], operations: &[Operation]) -> Scheme {
    let command = Command {
        parameters: parameters.to_vec(),
        tests: Vec::new(),
        operations: operations.to_vec(),
    };
    Scheme {
        commands: vec![command],
        ..key_scheme()
    }
}

#[test]
fn a_command_that_destroys_one_key_twice() {
    let operations = [
        Operation::Destroy { parameter: 0 },
        Operation::Destroy { parameter: 1 },
    ];
    let scheme = scheme_of(&[1, 1], &operations);
    assert!(read_scheme(&write_scheme(&scheme)).is_ok());
    let mut matrix = key_matrix();
    assert_eq!(carries_out(&scheme, &mut matrix, 0, &[9, 9]), (17, 255, 2));
    assert_eq!(matrix.type_of(9), Some(1));
    assert_eq!(matrix, key_matrix());
}

fn things(scheme: &Scheme, count: usize) -> Matrix {
    let mut matrix = Matrix::new();
    for id in 1..=count {
        matrix.create(scheme, id as u16, (id % 3) as u8);
    }
    matrix
}

#[test]
fn creates_at_the_limit() {
    let one = scheme_of(&[1], &[Operation::Create { parameter: 0 }]);
    // An id above the highest gives 16, any other 15: used, the highest itself, or one that no thing has.
    let mut full = things(&one, MOST_THINGS);
    full.raise_highest(60);
    for (id, number) in [(100, 16), (61, 16), (60, 15), (59, 15), (48, 15), (7, 15)] {
        assert_eq!(carries_out(&one, &mut full, 0, &[id]), (number, 255, 1));
    }

    let mut almost = things(&one, MOST_THINGS - 1);
    assert_eq!(
        carries_out(&one, &mut almost.clone(), 0, &[100]),
        (0, 255, 1)
    );
    let operations = [
        Operation::Create { parameter: 0 },
        Operation::Create { parameter: 1 },
    ];
    let two = scheme_of(&[1, 2], &operations);
    assert_eq!(carries_out(&two, &mut almost, 0, &[100, 101]), (16, 255, 2));
    assert_eq!((almost.type_of(100), almost.type_of(101)), (None, None));
    // New ids that don't rise: 15 comes before 16.
    assert_eq!(carries_out(&two, &mut almost, 0, &[100, 100]), (15, 255, 2));
    assert_eq!(carries_out(&two, &mut almost, 0, &[101, 100]), (15, 255, 2));
    assert_eq!(almost, things(&one, MOST_THINGS - 1));
}

#[test]
fn conversion_at_the_limits() {
    let enter = Operation::Enter {
        right: 0,
        row: 0,
        column: 0,
    };
    let with = |rights: u8, operations: &[Operation]| Scheme {
        rights,
        ..scheme_of(&[0], operations)
    };
    assert_eq!(check(&with(32, &[enter])), 0);
    assert_eq!(check(&with(33, &[enter])), 21);
    assert_eq!(check(&with(32, &[enter; 16])), 0);
    assert_eq!(check(&with(32, &[enter; 17])), 22);
    // 20 goes before 21, and 21 before 22.
    assert_eq!(check(&with(33, &[enter; 17])), 21);
    let mut late = with(33, &[enter; 17]);
    late.commands
        .push(scheme_of(&[0], &[Operation::Destroy { parameter: 0 }]).commands[0].clone());
    assert_eq!(check(&late), 20);

    let largest = with(32, &[enter; 16]);
    let converted = convert_scheme(&largest).unwrap();
    assert_eq!(
        (converted.rights, converted.commands[0].operations.len()),
        (64, 32)
    );
    assert!(read_scheme(&write_scheme(&converted)).is_ok());
    let mut matrix = things(&largest, 2);
    matrix.set_cell(1, 2, 0x8000_0001);
    let matrix = convert_matrix(&matrix, &largest).unwrap();
    assert_eq!(matrix.cell(1, 2), Some(0x7FFF_FFFE_8000_0001));
    assert_eq!(matrix.cell(1, 1), Some(0xFFFF_FFFF_0000_0000));
    let bytes = write_matrix(&matrix, &converted);
    assert_eq!(read_matrix(&bytes, &converted), Ok(matrix));
}

#[test]
fn empty_input_as_a_scheme() {
    assert_eq!(read_scheme(&[]), Err(Refusal { number: 1, at: 0 }));
}

#[test]
fn the_printout() {
    let requests = list(&[(1, &[9, 12]), (0, &[5, 9]), (1, &[9, 12])]);
    let expected = "request command result test\n0 1 0 255\n1 0 0 255\n2 1 14 1\nend 3 3 4\n";
    assert_eq!(
        play(&bytes(KEY_SCHEME), &bytes(KEY_MATRIX), &requests),
        expected
    );
}
