//! What `play` prints where something can't be read, is empty, or is too long; and that the stored runs in tests/play are what it prints.

mod common;

use std::fs;
use std::path::PathBuf;

use common::*;
use independent::print::{play, MOST_INPUT};

#[test]
fn the_stored_runs_are_these() {
    let runs = PathBuf::from(env!("CARGO_MANIFEST_DIR")).join("../play");
    let mut count = 0;
    for entry in fs::read_dir(runs).unwrap() {
        let folder = entry.unwrap().path();
        if folder.is_dir() {
            // A missing file is empty input.
            let [scheme, matrix, requests] = ["scheme.bin", "matrix.bin", "requests.bin"]
                .map(|name| fs::read(folder.join(name)).unwrap_or_default());
            let expected = fs::read_to_string(folder.join("expected")).unwrap();
            let name = folder.display();
            assert_eq!(play(&scheme, &matrix, &requests), expected, "{name}");
            count += 1;
        }
    }
    assert!(count >= 13, "{count}");
}

#[test]
fn a_bad_scheme_or_matrix_prints_one_line() {
    assert_eq!(play(&[], &[], &[]), "bad 0 1\n");
    assert_eq!(play(&bytes(KEY_SCHEME), &[], &[]), "bad 0 1\n");
    let mut longer = bytes(KEY_SCHEME);
    longer.push(0);
    assert_eq!(play(&longer, &[], &[]), "bad 47 8\n");
    let mut matrix = bytes(KEY_MATRIX);
    matrix[12] = 0;
    assert_eq!(play(&bytes(KEY_SCHEME), &matrix, &[]), "bad 8 6\n");
}

#[test]
fn an_empty_list_is_a_list() {
    let text = play(&bytes(KEY_SCHEME), &bytes(KEY_MATRIX), &[]);
    assert_eq!(text, "request command result test\nend 3 2 2\n");
}

#[test]
fn a_bad_request_record_ends_the_list() {
    let mut requests = list(&[(1, &[9, 12]), (200, &[])]);
    requests.extend([1, 2, 3]);
    let text = play(&bytes(KEY_SCHEME), &bytes(KEY_MATRIX), &requests);
    assert_eq!(
        text,
        "request command result test\n0 1 0 255\n1 200 10 255\nbad 16 1\nend 3 2 3\n"
    );
}

#[test]
fn only_the_first_65536_bytes_count() {
    // Records of 6 bytes: 10922 fit, and 4 bytes of the next one are left.
    let requests = list(&vec![(7, &[][..]); 10_923]);
    assert_eq!(requests.len(), 65_538);
    let text = play(&bytes(KEY_SCHEME), &bytes(KEY_MATRIX), &requests);
    assert!(text.ends_with("\n10921 7 10 255\nbad 65532 1\nend 3 2 2\n"));

    // Records of 8 bytes end exactly there.
    let requests = list(&vec![(7, &[1][..]); 8_193]);
    let text = play(&bytes(KEY_SCHEME), &bytes(KEY_MATRIX), &requests);
    assert!(text.ends_with("\n8191 7 10 255\nend 3 2 2\n"));

    // What stands behind them is no input, so it isn't even leftover.
    let mut scheme = bytes(KEY_SCHEME);
    scheme.resize(MOST_INPUT + 10, 0);
    assert_eq!(play(&scheme, &[], &[]), "bad 47 8\n");
}
