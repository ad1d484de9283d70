//! Where several faults meet, the outline's order decides: each line is a damaged input, its number and its position.

mod common;

use common::*;
use independent::bytes::{Record, THING};
use independent::matrix::{read_matrix, read_thing};
use independent::request::{read_request, write_request, Next};
use independent::scheme::{read_scheme, write_scheme, Command, Operation, Scheme, Test};
use independent::Refusal;

fn scheme_gives(text: &str, number: u8, at: usize) {
    assert_eq!(
        read_scheme(&bytes(text)),
        Err(Refusal { number, at }),
        "{text}"
    );
}

/// One command behind a head of 4 rights and 3 types, of which 0 and 1 are subjects.
fn command_gives(body: &str, number: u8) {
    let body = bytes(body);
    let mut input = bytes("05 00 01 00 04 03 03 00 01");
    input.extend([body.len() as u8, 0, 2, 0]);
    input.extend(&body);
    let answer = read_scheme(&input);
    if number == 0 {
        assert_eq!(answer.map(|(_, next)| next), Ok(input.len()), "{body:x?}");
    } else {
        assert_eq!(
            answer.map(|_| ()),
            Err(Refusal { number, at: 9 }),
            "{body:x?}"
        );
    }
}

#[test]
fn fronts() {
    scheme_gives("05 00 01", 1, 0);
    scheme_gives("05 00 02 00", 2, 0);
    scheme_gives("05 00 01 01 04 03 03 00 02", 2, 0);
    scheme_gives("05 00 01 00 00", 1, 0);
    scheme_gives("05 00 01 00 04 03 03 00 01", 1, 9);
    scheme_gives("05 00 01 00 04 03 03 00 01 00 00 02", 1, 9);
    scheme_gives("05 00 01 00 04 03 03 00 01 01 00 02 00", 1, 9);
    scheme_gives("05 00 01 00 04 03 03 00 01 01 00 01 00", 2, 9);
}

#[test]
fn scheme_heads() {
    scheme_gives("00 00 01 00", 3, 0);
    scheme_gives("01 00 01 00 00", 4, 0);
    scheme_gives("01 00 01 00 41", 4, 0);
    scheme_gives("01 00 01 00 40", 3, 0);
    scheme_gives("02 00 01 00 04 00", 4, 0);
    scheme_gives("02 00 01 00 04 11", 4, 0);
    scheme_gives("03 00 01 00 04 03 08", 3, 0);
    scheme_gives("04 00 01 00 04 03 08 00", 6, 0);
    scheme_gives("04 00 01 00 04 10 FF FF", 3, 0);
    scheme_gives("04 00 01 00 04 0F FF FF", 6, 0);
    scheme_gives("05 00 01 00 04 03 03 00 00", 4, 0);
    scheme_gives("05 00 01 00 04 03 03 00 21", 4, 0);
    scheme_gives("06 00 01 00 04 03 03 00 01 00", 3, 0);
    scheme_gives("06 00 01 00 04 03 03 00 00 00", 4, 0);
}

#[test]
fn parameters_and_tests() {
    command_gives("", 3);
    command_gives("00", 4);
    command_gives("09", 4);
    command_gives("02 03", 5);
    command_gives("02 02", 3);
    command_gives("01 00 11", 4);
    command_gives("01 00 10", 3);
    command_gives("01 00 01 02 09 09 09", 6);
    command_gives("01 00 01 01 04 09 09", 5);
    command_gives("01 02 01 01 03 01 09", 5);
    command_gives("01 02 01 01 03 00 09", 6);
    command_gives("01 00 01 01 03 00 01", 5);
    command_gives("01 00 01 01 03 00 00", 3);
    command_gives("01 00 00 00", 4);
    command_gives("01 00 00 21", 4);
}

#[test]
fn operations() {
    command_gives("01 00 00 01 00", 6);
    command_gives("01 00 00 01 05", 6);
    command_gives("01 00 00 01 01 04", 5);
    command_gives("01 02 00 01 02 03 01", 5);
    command_gives("01 02 00 01 02 03 00", 6);
    command_gives("01 00 00 01 02 03 00 01", 5);
    command_gives("01 00 00 01 02 03 00 00", 0);
    command_gives("01 00 00 01 02 03 00 00 00", 3);
    // Out of the groups' order at the code, before the right.
    command_gives("01 00 00 02 01 00 00 00 03 FF", 6);
    command_gives("01 00 00 02 04 00 00 00 01 FF", 6);
    command_gives("01 00 00 02 04 00 00 00 03 FF", 6);
    command_gives("01 00 00 02 01 00 00 00 02 00 00 00", 0);
    // Create and destroy: 6 for a right, 5 for a row, 6 for the row's form, 6 for a column.
    for code in ["03", "04"] {
        command_gives(&format!("01 02 00 01 {code} FF 09 FF"), 6);
        command_gives(&format!("01 02 00 01 {code} 00 01 FF"), 5);
        command_gives(&format!("01 02 00 01 {code} 00 00"), 3);
        command_gives(&format!("01 02 00 01 {code} 00 00 FF"), 6);
        command_gives(&format!("01 02 00 01 {code} 00 00 00"), 0);
        command_gives(&format!("01 02 00 02 {code} 00 00 00 {code} 00 00"), 6);
        command_gives(
            &format!("02 02 02 00 02 {code} 00 00 00 {code} 00 01 00"),
            0,
        );
    }
    // A new parameter appears in no test, neither as a row nor as a column.
    command_gives("02 00 00 01 01 00 00 01 01 03 00 00", 6);
    command_gives("02 00 00 01 01 00 00 01 01 03 00 01", 6);
    command_gives("02 00 00 01 01 00 00 00 01 03 00 01 00", 0);
    // Created, entered and destroyed in one body.
    command_gives("01 00 00 03 03 00 00 00 01 00 00 00 04 00 00 00", 0);
}

#[test]
fn after_the_last_command() {
    for more in ["00", "0D 00 02 00 02 00", "FF FF FF FF FF"] {
        scheme_gives(&format!("{KEY_SCHEME} {more}"), 8, 47);
    }
    // An earlier faulty record wins, and so does its leftover.
    let faulty = KEY_SCHEME.replace("11 00 02 00 02 01 02", "11 00 02 00 02 01 03");
    scheme_gives(&format!("{faulty} 00"), 5, 26);
    let short = KEY_SCHEME.replace("11 00", "10 00");
    scheme_gives(&short, 3, 26);
}

#[test]
fn the_largest_scheme() {
    let test = Test {
        present: false,
        right: 63,
        row: 7,
        column: 7,
    };
    let enter = Operation::Enter {
        right: 63,
        row: 7,
        column: 0,
    };
    let command = Command {
        parameters: vec![15; 8],
        tests: vec![test; 16],
        operations: vec![enter; 32],
    };
    let scheme = Scheme {
        rights: 64,
        types: 16,
        subjects: 0xFFFF,
        commands: vec![command; 32],
    };
    let bytes = write_scheme(&scheme);
    assert_eq!(bytes.len(), 9 + 32 * (4 + 1 + 8 + 1 + 64 + 1 + 128));
    assert_eq!(read_scheme(&bytes), Ok((scheme, bytes.len())));
}

fn matrix_gives(text: &str, number: u8, at: usize) {
    let answer = read_matrix(&bytes(text), &key_scheme());
    if number == 0 {
        assert!(answer.is_ok(), "{text}");
    } else {
        assert_eq!(answer, Err(Refusal { number, at }), "{text}");
    }
}

#[test]
fn matrix_heads() {
    matrix_gives("", 1, 0);
    matrix_gives("00 00 07 00", 3, 0);
    matrix_gives("01 00 07 00 00", 4, 0);
    matrix_gives("01 00 07 00 41", 4, 0);
    matrix_gives("01 00 07 00 03", 6, 0);
    matrix_gives("01 00 07 00 04", 3, 0);
    matrix_gives("02 00 07 00 03 31", 6, 0);
    matrix_gives("02 00 07 00 04 31", 4, 0);
    // The highest id is missing or cut, whether there are things or not; of its values none is a fault.
    matrix_gives("02 00 07 00 04 00", 3, 0);
    matrix_gives("03 00 07 00 04 00 00", 3, 0);
    matrix_gives("03 00 07 00 04 31 00", 4, 0);
    matrix_gives("05 00 07 00 04 00 00 00 00", 3, 0);
    for highest in ["00 00", "01 00", "00 01", "FF FF"] {
        matrix_gives(&format!("04 00 07 00 04 00 {highest}"), 0, 0);
        matrix_gives(&format!("04 00 07 00 04 00 {highest} 00"), 1, 8);
        matrix_gives(&format!("04 00 07 00 04 01 {highest}"), 1, 8);
    }
}

/// The kind of before, with the body that it had and with that of now; before its body's end is looked at.
#[test]
fn matrix_heads_of_before() {
    matrix_gives("02 00 03 00 04 00", 2, 0);
    matrix_gives("04 00 03 00 04 00 00 00", 2, 0);
    matrix_gives("02 00 03 00", 2, 0);
    matrix_gives("FF FF 03 00", 2, 0);
    matrix_gives("02 00 07 00", 1, 0);
    matrix_gives("02 00 03", 1, 0);
    let things = "03 00 04 00 05 00 00 / 03 00 04 00 09 00 01 / 03 00 04 00 0C 00 02";
    matrix_gives(&format!("02 00 03 00 04 03 / {things}"), 2, 0);
    matrix_gives(&format!("02 00 07 00 04 03 / {things}"), 3, 0);
    // A head may stand nowhere else.
    let head = "04 00 07 00 04 01 05 00";
    matrix_gives(&format!("{head} / {head}"), 2, 8);
    matrix_gives(&format!("{head} / 03 00 04 00 05 00 00 / {head}"), 2, 15);
}

#[test]
fn things() {
    let one = "04 00 07 00 04 01 FF FF";
    matrix_gives(&format!("{one} / 0C 00 05 00"), 2, 8);
    matrix_gives("04 00 07 00 04 00 FF FF / 03 00 04 00 01 00 00", 2, 8);
    matrix_gives(&format!("{one} / 01 00 04 00 00"), 3, 8);
    matrix_gives(&format!("{one} / 02 00 04 00 00 00"), 6, 8);
    let two = "04 00 07 00 04 02 FF FF";
    let second = |first: &str, second: &str, number: u8| {
        matrix_gives(&format!("{two} / {first} / {second}"), number, 15);
    };
    second("03 00 04 00 05 00 00", "02 00 04 00 00 00", 6);
    second("03 00 04 00 05 00 00", "02 00 04 00 05 00", 7);
    second("03 00 04 00 05 01 00", "03 00 04 00 06 00 09", 7);
    matrix_gives(&format!("{one} / 03 00 04 00 05 00 03"), 5, 8);
    matrix_gives(&format!("{one} / 04 00 04 00 05 00 02 00"), 3, 8);
    matrix_gives(&format!("{one} / 03 00 04 00 FF FF 02"), 0, 0);
}

/// An id above the head's highest is found behind one that isn't above the last, and before the type and the body's end.
#[test]
fn things_above_the_highest() {
    let one = |highest: &str, thing: &str, number: u8| {
        let head = format!("04 00 07 00 04 01 {highest}");
        matrix_gives(&format!("{head} / {thing}"), number, 8);
    };
    one("05 00", "03 00 04 00 05 00 00", 0);
    one("06 00", "03 00 04 00 05 00 00", 0);
    one("04 00", "03 00 04 00 05 00 00", 6);
    one("00 00", "03 00 04 00 01 00 00", 6);
    one("05 01", "03 00 04 00 05 01 00", 0);
    one("04 01", "03 00 04 00 05 01 00", 6);
    one("FF 00", "03 00 04 00 00 01 00", 6);
    one("FE FF", "03 00 04 00 FF FF 00", 6);
    one("04 00", "03 00 04 00 05 00 09", 6);
    one("05 00", "03 00 04 00 05 00 09", 5);
    one("04 00", "01 00 04 00 05", 3);
    one("04 00", "02 00 04 00 05 00", 6);
    one("05 00", "02 00 04 00 05 00", 3);
    one("04 00", "04 00 04 00 05 00 00 00", 6);
    one("05 00", "04 00 04 00 05 00 00 00", 3);
    one("00 00", "02 00 04 00 00 00", 6);

    let two = |highest: &str, second: &str, number: u8, at: usize| {
        let first = "03 00 04 00 05 00 00";
        let head = format!("04 00 07 00 04 02 {highest}");
        matrix_gives(&format!("{head} / {first} / {second}"), number, at);
    };
    two("09 00", "03 00 04 00 09 00 00", 0, 0);
    two("08 00", "03 00 04 00 09 00 00", 6, 15);
    two("05 00", "03 00 04 00 09 00 00", 6, 15);
    two("05 00", "03 00 04 00 05 00 00", 7, 15);
    two("05 00", "03 00 04 00 04 00 00", 7, 15);
    two("04 00", "03 00 04 00 05 00 00", 6, 8);
    two("08 00", "03 00 04 00 09 00 09", 6, 15);
}

/// Where no whole matrix comes to it: behind a thing that is itself above the highest 7 comes first.
#[test]
fn a_thing_not_above_the_last_comes_first() {
    let gives = |thing: &str, last: u16, highest: u16, number: u8| {
        let bytes = bytes(thing);
        let record = Record::read(&bytes, 0, THING).expect("a thing's front");
        let answer = read_thing(record, &key_scheme(), last, highest);
        let found = answer.map_or_else(|found| found.fault.number(), |_| 0);
        assert_eq!(found, number, "{thing} behind {last}, of {highest}");
    };
    let nine = "03 00 04 00 09 00 00";
    gives(nine, 8, 9, 0);
    gives(nine, 9, 9, 7);
    gives(nine, 9, 8, 7);
    gives(nine, 8, 8, 6);
    gives("03 00 04 00 00 00 00", 9, 0, 6);
    gives("03 00 04 00 09 00 09", 9, 8, 7);
    gives("03 00 04 00 09 00 09", 8, 8, 6);
    gives("03 00 04 00 09 00 09", 8, 9, 5);
}

#[test]
fn cells() {
    let things = "04 00 07 00 04 03 0C 00 / \
        03 00 04 00 05 00 00 / 03 00 04 00 09 00 01 / 03 00 04 00 0C 00 02";
    let cell = |body: &str, number: u8| {
        let length = format!("{:02X}", bytes(body).len());
        matrix_gives(&format!("{things} {length} 00 05 00 {body}"), number, 29);
    };
    cell("00", 3);
    cell("00 00", 5);
    cell("06 00 FF", 5);
    cell("0C 00 FF", 6);
    cell("05 00", 3);
    cell("05 00 06 00", 5);
    cell("05 00 05 00 10 00 00", 3);
    cell("05 00 05 00 10 00 00 00 00 00 00 00", 5);
    cell("05 00 05 00 01 00 00 00 00 00 00 80", 5);
    cell("05 00 05 00 00 00 00 00 00 00 00 00", 6);
    cell("05 00 05 00 00 00 00 00 00 00 00 00 00", 6);
    cell("05 00 05 00 0F 00 00 00 00 00 00 00 00", 3);
    cell("05 00 05 00 0F 00 00 00 00 00 00 00", 0);
    // A place not above the one before, at the column.
    let first = format!("{things} 0C 00 05 00 09 00 09 00 0F 00 00 00 00 00 00 00");
    matrix_gives(&format!("{first} 04 00 05 00 09 00 09 00"), 7, 45);
    matrix_gives(&format!("{first} 04 00 05 00 09 00 05 00"), 7, 45);
    matrix_gives(&format!("{first} 04 00 05 00 05 00 0C 00"), 7, 45);
    matrix_gives(&format!("{first} 04 00 05 00 05 00 08 00"), 5, 45);
    matrix_gives(&format!("{first} 04 00 05 00 09 00 0C 00"), 3, 45);
    matrix_gives(&format!("{first} 00"), 1, 45);
    matrix_gives(&format!("{first} 03 00 04 00 0D 00 00"), 2, 45);
}

#[test]
fn request_records() {
    let gives = |text: &str, number: u8| {
        let expected = Next::Refused(Refusal { number, at: 0 });
        assert_eq!(read_request(&bytes(text), 0), expected, "{text}");
    };
    assert_eq!(read_request(&[], 0), Next::End);
    gives("02 00 06", 1);
    gives("FF 00 05 00", 2);
    gives("01 00 06 00", 1);
    gives("00 00 06 00", 3);
    gives("01 00 06 00 FF", 3);
    gives("02 00 06 00 FF 09", 4);
    gives("03 00 06 00 FF 01 00", 3);
    gives("05 00 06 00 FF 01 00 00 00", 3);
    let record = write_request(255, &[0, 65535]).unwrap();
    assert_eq!(record, bytes("06 00 06 00 FF 02 00 00 FF FF"));
    assert!(matches!(
        read_request(&record, 0),
        Next::Request { next: 10, .. }
    ));
    assert_eq!(read_request(&record, 10), Next::End);
    assert_eq!(write_request(0, &[1; 9]), Err(4));
    assert_eq!(write_request(0, &[1; 8]).unwrap().len(), 22);
}
