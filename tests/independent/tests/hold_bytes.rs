//! Things on hold in bytes: kind 8 where a thing may stand and nowhere else, with the checks of any thing in their order; and that each content has one
//! encoding.

mod common;

use common::*;
use independent::bytes::{HELD_THING, THING};
use independent::convert::{convert_matrix, convert_scheme};
use independent::matrix::{read_matrix, thing_kind, write_matrix, Matrix};
use independent::print::{list_matrix, play};
use independent::request::{read_request, Next};
use independent::scheme::read_scheme;
use independent::Refusal;

fn gives(text: &str, number: u8, at: usize) {
    let answer = read_matrix(&bytes(text), &key_scheme());
    match number {
        0 => assert!(answer.is_ok(), "{text}"),
        _ => assert_eq!(answer, Err(Refusal { number, at }), "{text}"),
    }
}

#[test]
fn the_kinds_are_those_of_the_outline() {
    assert_eq!((thing_kind(false), thing_kind(true)), (THING, HELD_THING));
    assert_eq!((THING, HELD_THING), (4, 8));
}

#[test]
fn only_a_thing_may_be_of_kind_8() {
    let head = "04 00 07 00 04 01 0C 00";
    let held = "03 00 08 00 05 00 00";
    gives(&format!("{head} / {held}"), 0, 0);
    gives("04 00 08 00 04 00 0C 00", 2, 0);
    gives(held, 2, 0);
    gives(&format!("04 00 07 00 04 00 0C 00 / {held}"), 2, 8);
    gives(&format!("{head} / {held} / {held}"), 2, 15);
    let cell = "05 00 05 00 01 00 00 00 00 00 00 00";
    gives(&format!("{head} / {held} / 0C 00 05 00 {cell}"), 0, 0);
    gives(&format!("{head} / {held} / 0C 00 08 00 {cell}"), 2, 15);
    // In a scheme and in a list it is a strange kind like any other.
    let scheme = |text: String| read_scheme(&bytes(&text)).map(|_| ());
    let refused = |at| Err(Refusal { number: 2, at });
    let as_head = KEY_SCHEME.replacen("05 00 01 00", "05 00 08 00", 1);
    assert_eq!(scheme(as_head), refused(0));
    let as_command = KEY_SCHEME.replacen("0D 00 02 00", "0D 00 08 00", 1);
    assert_eq!(scheme(as_command), refused(9));
    let as_last = KEY_SCHEME.replacen("11 00 02 00", "11 00 08 00", 1);
    assert_eq!(scheme(as_last), refused(26));
    let at = 0;
    let wanted = Next::Refused(Refusal { number: 2, at });
    assert_eq!(read_request(&bytes("02 00 08 00 00 00"), 0), wanted);
}

/// Numbers that a reader could take for 4 or 8.
#[test]
fn other_kinds_are_strange() {
    let mut kinds: Vec<u16> = (0..=20).filter(|kind| ![4, 8].contains(kind)).collect();
    kinds.extend([0x0104, 0x0108, 0x0400, 0x0800, 0x0408, 0x8008, 0xFFFF]);
    for kind in kinds {
        let [low, high] = kind.to_le_bytes();
        let head = "04 00 07 00 04 02 0C 00";
        let front = format!("{low:02X} {high:02X}");
        gives(&format!("{head} / 03 00 {front} 05 00 00"), 2, 8);
        let first = "03 00 08 00 05 00 00";
        gives(&format!("{head} / {first} / 03 00 {front} 09 00 01"), 2, 15);
    }
}

/// Front (1), kind (2), end (1), then id: 3, 6 (of 0), 7, 6 (of the highest); type: 3, 5; then 3.
#[test]
fn the_checks_are_those_of_a_thing() {
    for kind in ["04 00", "08 00"] {
        let one = |highest: &str, length: &str, body: &str, number: u8| {
            let head = format!("04 00 07 00 04 01 {highest}");
            gives(&format!("{head} / {length} 00 {kind} {body}"), number, 8);
        };
        one("05 00", "03", "05 00 00", 0);
        one("05 00", "03", "05 00", 1);
        one("05 00", "FF", "05 00 00", 1);
        one("05 00", "00", "", 3);
        one("05 00", "01", "05", 3);
        one("05 00", "02", "00 00", 6);
        one("00 00", "02", "00 00", 6);
        one("04 00", "02", "05 00", 6);
        one("05 00", "02", "05 00", 3);
        one("04 00", "03", "05 00 03", 6);
        one("05 00", "03", "05 00 03", 5);
        one("05 00", "04", "05 00 03 00", 5);
        one("05 00", "04", "05 00 02 00", 3);
        one("04 01", "03", "05 01 00", 6);
        one("05 01", "03", "05 01 00", 0);
    }
    gives("04 00 07 00 04 01 05 00 / 03 00 08", 1, 8);
    gives("04 00 07 00 04 01 05 00", 1, 8);
}

#[test]
fn ids_rise_over_both_kinds_together() {
    for first in ["04", "08"] {
        for second in ["04", "08"] {
            let two = |id: &str, number: u8| {
                let head = "04 00 07 00 04 02 FF FF";
                let things = format!("03 00 {first} 00 05 00 00 / 03 00 {second} 00 {id} 01");
                gives(&format!("{head} / {things}"), number, 15);
            };
            two("06 00", 0);
            two("05 01", 0);
            two("05 00", 7);
            two("04 00", 7);
            two("00 00", 6);
        }
    }
}

/// The key example with each set of marks: the same bytes but for the kinds, which read back as the same content.
#[test]
fn each_content_has_one_encoding() {
    let scheme = key_scheme();
    for marks in 0..8 {
        let mut matrix = key_matrix();
        let mut wanted = bytes(KEY_MATRIX);
        for (bit, (id, kind)) in [(5, 10), (9, 17), (12, 24)].into_iter().enumerate() {
            let held = marks >> bit & 1 == 1;
            matrix.set_held(id, held);
            wanted[kind] = if held { 8 } else { 4 };
        }
        let written = write_matrix(&matrix, &scheme);
        assert_eq!(written, wanted);
        assert_eq!(read_matrix(&written, &scheme), Ok(matrix));
    }
}

#[test]
fn conversion_copies_the_marks() {
    let scheme = key_scheme();
    let mut matrix = key_matrix();
    matrix.set_held(5, true);
    matrix.set_held(12, true);
    let robot_scheme = convert_scheme(&scheme).unwrap();
    let robot = write_matrix(&convert_matrix(&matrix, &scheme).unwrap(), &robot_scheme);
    assert_eq!(robot.len(), 125);
    let head = bytes("04 00 07 00 08 03 0C 00");
    let things = bytes("03 00 08 00 05 00 00 / 03 00 04 00 09 00 01 / 03 00 08 00 0C 00 02");
    assert_eq!(robot[..29], [head, things].concat());
    // A cell of a thing on hold gains partners like any other.
    assert_eq!(
        robot[29..45],
        bytes("0C 00 05 00 05 00 05 00 F0 00 00 00 00 00 00 00")
    );
}

#[test]
fn a_matrix_of_things_on_hold_is_as_long() {
    let scheme = key_scheme();
    let mut matrix = Matrix::new();
    for id in 1..=48 {
        matrix.create(&scheme, id, 1);
    }
    let free = write_matrix(&matrix, &scheme);
    for id in 1..=48 {
        matrix.set_held(id, true);
    }
    let held = write_matrix(&matrix, &scheme);
    assert_eq!((free.len(), held.len()), (344, 344));
    let kinds = (0..48).map(|thing| held[8 + 7 * thing + 2]);
    assert!(kinds.eq([8; 48]));
    assert_eq!(read_matrix(&held, &scheme), Ok(matrix));
}

#[test]
fn what_is_printed_has_18_and_no_marks() {
    let mut matrix = bytes(KEY_MATRIX);
    matrix[17] = 8;
    let requests = list(&[(1, &[9, 12]), (0, &[5, 9]), (2, &[])]);
    assert_eq!(
        play(&bytes(KEY_SCHEME), &matrix, &requests),
        "request command result test\n0 1 18 255\n1 0 18 255\n2 2 10 255\nend 3 2 2\n"
    );
    let matrix = read_matrix(&matrix, &key_scheme()).unwrap();
    let text = list_matrix(&matrix);
    assert!(text.contains("thing 5 type 0\nthing 9 type 1 on hold\nthing 12 type 2\n"));
}
