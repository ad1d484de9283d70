//! What the program `edges` must print of moves and of what stands behind a head, worked out by hand: each number in its turn, what is in the buffers and
//! in the matrix afterwards, and how these tasks stand in the program's input.

mod common;

use common::*;
use independent::edges::{stdin, stdout};

/// Labels and the words behind them, up to the sums.
const MOVED: &[(&str, &str)] = &[
    // Forward: the number and the position, then how many bytes were written.
    ("forward-key-into-61", "0 0 61"),
    ("forward-key-into-60", "9 0"),
    ("forward-key-rooms-into-0", "9 0"),
    ("forward-key-rooms-into-59", "9 0"),
    ("forward-key-rooms-into-62", "0 0 61"),
    ("forward-empty-into-100", "1 0"),
    ("forward-empty-into-0", "1 0"),
    ("forward-front-of-3-kind-7-into-100", "1 0"),
    ("forward-front-alone-into-100", "1 0"),
    ("forward-front-alone-kind-7-into-0", "2 0"),
    ("forward-head-past-end-into-100", "1 0"),
    ("forward-head-past-end-kind-7-into-100", "2 0"),
    ("forward-head-length-53-into-100", "3 0"),
    ("forward-head-length-54-into-100", "1 0"),
    ("forward-kind-7-into-100", "2 0"),
    ("forward-kind-7-length-4-into-100", "2 0"),
    ("forward-new-key-into-100", "2 0"),
    ("forward-new-kind-3-into-100", "3 0"),
    ("forward-kind-259-into-100", "2 0"),
    ("forward-length-0-n-0-into-100", "3 0"),
    ("forward-length-1-into-100", "3 0"),
    ("forward-length-1-n-0-into-100", "4 0"),
    ("forward-length-1-n-5-into-100", "6 0"),
    ("forward-length-1-things-49-into-100", "3 0"),
    ("forward-length-3-into-100", "3 0"),
    ("forward-length-3-things-49-into-100", "4 0"),
    ("forward-n-0-into-100", "4 0"),
    ("forward-n-3-into-100", "6 0"),
    ("forward-n-64-into-100", "6 0"),
    ("forward-n-65-into-100", "4 0"),
    ("forward-n-5-things-49-into-100", "6 0"),
    ("forward-things-49-into-100", "4 0"),
    ("forward-things-0-into-8", "0 0 8"),
    ("forward-things-0-into-7", "9 0"),
    ("forward-things-0-and-more-into-0", "2 6"),
    ("forward-things-0-one-more-into-100", "1 6"),
    ("forward-things-2-and-more-into-100", "2 20"),
    ("forward-things-4-into-100", "2 27"),
    ("forward-things-48-no-cell-into-100", "1 27"),
    ("forward-no-thing-into-100", "1 6"),
    ("forward-second-missing-into-100", "1 13"),
    ("forward-third-cut-into-0", "1 20"),
    ("forward-one-more-into-100", "1 59"),
    ("forward-four-more-into-100", "2 59"),
    ("forward-thing-past-end-kind-5-into-100", "2 6"),
    ("forward-kind-7-for-cell-into-0", "2 43"),
    ("forward-id-0-type-3-into-100", "6 6"),
    ("forward-second-id-0-into-100", "6 13"),
    ("forward-id-same-type-3-into-100", "7 13"),
    ("forward-id-same-length-2-into-100", "7 13"),
    ("forward-id-below-into-0", "7 20"),
    ("forward-id-65535-into-29", "0 0 29"),
    ("forward-id-65535-at-first-into-100", "7 13"),
    ("forward-id-65535-type-3-into-100", "5 20"),
    ("forward-thing-length-1-id-0-into-100", "3 6"),
    ("forward-thing-length-2-into-100", "3 6"),
    ("forward-thing-length-4-type-3-into-100", "5 6"),
    ("forward-held-all-into-61", "0 0 61"),
    ("forward-held-id-same-into-100", "7 13"),
    ("forward-held-third-of-two-into-100", "2 20"),
    ("forward-held-cell-into-100", "2 27"),
    ("forward-row-6-into-100", "5 27"),
    ("forward-row-robot-column-10-into-100", "6 27"),
    ("forward-unknown-below-into-100", "5 43"),
    ("forward-place-same-no-rights-into-100", "7 43"),
    ("forward-right-4-into-100", "5 27"),
    ("forward-no-rights-into-100", "6 27"),
    ("forward-cell-length-2-row-6-into-100", "5 27"),
    ("forward-cell-length-4-same-into-100", "7 43"),
    ("forward-cell-length-13-no-rights-into-100", "6 27"),
    ("forward-largest-into-37208", "0 0 37208"),
    ("forward-largest-into-37207", "9 0"),
    ("forward-largest-one-more-into-38000", "1 37206"),
    ("forward-27-no-scheme-into-0", "27 0"),
    ("forward-27-rights-65-into-0", "27 0"),
    ("forward-27-commands-33-into-0", "27 0"),
    ("forward-27-rights-64-into-100", "6 0"),
    ("forward-27-types-16-into-100", "0 0 61"),
    ("forward-27-commands-1-into-100", "27 0"),
    ("forward-27-behind-parameters-0-into-100", "0 0 61"),
    ("forward-27-behind-parameters-1-into-100", "27 0"),
    ("forward-27-destroy-twice-into-0", "27 0"),
    ("forward-27-enter-right-3-into-100", "0 0 61"),
    // Back: the same, and 23 between what reading refuses and 9.
    ("back-key-matrix-into-59", "0 0 59"),
    ("back-key-matrix-into-58", "9 0"),
    ("back-key-rooms-into-60", "0 0 59"),
    ("back-matrix-kind-3-into-100", "2 0"),
    ("back-old-key-into-100", "2 0"),
    ("back-image-of-before-kind-7-into-100", "3 0"),
    ("back-matrix-head-length-3-into-100", "3 0"),
    ("back-things-49-into-100", "4 0"),
    ("back-head-n-5-into-0", "6 0"),
    ("back-highest-13-into-100", "23 0"),
    ("back-highest-268-into-100", "23 0"),
    ("back-highest-3072-into-100", "23 0"),
    ("back-highest-65535-into-100", "23 0"),
    ("back-highest-11-into-100", "6 22"),
    ("back-12-of-14-into-0", "23 0"),
    ("back-12-of-13-rooms-into-58", "23 0"),
    ("back-12-of-13-rooms-into-59", "23 0"),
    ("back-12-of-13-held-all-into-100", "23 0"),
    ("back-12-of-12-held-others-into-59", "0 0 59"),
    ("back-9-of-12-into-100", "23 0"),
    ("back-things-2-highest-9-into-20", "0 0 20"),
    ("back-id-65535-into-27", "0 0 27"),
    ("back-65534-of-65534-into-27", "0 0 27"),
    ("back-65534-of-65535-into-100", "23 0"),
    ("back-things-0-highest-0-into-6", "0 0 6"),
    ("back-things-0-highest-0-into-5", "9 0"),
    ("back-things-0-highest-1-into-100", "23 0"),
    ("back-things-0-highest-65535-into-100", "23 0"),
    ("back-nothing-of-1-into-0", "23 0"),
    ("back-nothing-into-0", "9 0"),
    ("back-of-13-one-more-into-0", "1 61"),
    ("back-of-13-third-of-two-into-100", "2 22"),
    ("back-of-13-cell-length-13-into-100", "3 29"),
    ("back-of-13-things-49-into-100", "4 0"),
    ("back-of-13-right-4-into-100", "5 45"),
    ("back-of-13-id-14-into-100", "6 22"),
    ("back-of-13-id-same-into-0", "7 15"),
    ("back-largest-into-37206", "0 0 37206"),
    ("back-largest-into-37205", "9 0"),
    ("back-largest-above-into-37206", "23 0"),
    ("back-27-no-scheme-into-0", "27 0"),
    ("back-27-tests-17-into-0", "27 0"),
    ("back-27-tests-0-into-100", "27 0"),
    ("back-27-subjects-7-into-100", "0 0 59"),
];

/// The number and the position, then the next position.
const RESTS: &[(&str, &str)] = &[
    ("rest-things-0", "0 0 6"),
    ("rest-things-1-and-more", "2 13"),
    ("rest-things-4", "2 27"),
    ("rest-things-4-no-cell", "1 27"),
    ("rest-id-65535", "0 0 27"),
    ("rest-held-all", "0 0 59"),
    ("rest-12-of-4", "6 6"),
    ("rest-12-of-5", "6 13"),
    ("rest-12-of-11", "6 20"),
    ("rest-12-of-12", "0 0 59"),
    ("rest-12-of-13", "0 0 59"),
    ("rest-268-of-267", "6 20"),
    ("rest-268-of-524", "0 0 27"),
    ("rest-65535-of-65534", "6 20"),
    ("rest-same-of-4", "6 6"),
    ("rest-same-of-5", "7 13"),
    ("rest-type-3-of-11", "6 20"),
    ("rest-length-1-of-11", "3 20"),
    ("rest-length-2-of-11", "6 20"),
    ("rest-nothing-of-256", "0 0 6"),
    ("rest-new-image", "0 0 61"),
    ("rest-behind-100", "0 0 153"),
    ("rest-behind-100-of-9", "6 114"),
    ("rest-behind-100-cut", "1 137"),
    ("rest-behind-101", "2 101"),
    ("rest-at-0", "2 0"),
    ("rest-at-13", "0 0 27"),
    ("rest-at-13-cells", "5 27"),
    ("rest-cells-alone", "5 27"),
    ("rest-end", "0 0 59"),
    ("rest-end-things-1", "1 59"),
    ("rest-before-end", "1 58"),
    ("rest-past-end", "27 0"),
    ("rest-far-past-end", "27 0"),
    ("rest-past-4-gigabytes", "27 0"),
    ("rest-past-all", "27 0"),
    ("rest-empty", "0 0 0"),
    ("rest-empty-things-1", "1 0"),
    ("rest-empty-past-end", "27 0"),
    ("rest-49-of-3", "27 0"),
    ("rest-255-of-3", "27 0"),
    ("rest-47-of-48-things", "2 329"),
    ("rest-48-of-48-things", "0 0 336"),
    ("rest-48-of-47-things", "1 329"),
    ("rest-48-of-49-things", "2 336"),
    ("rest-49-of-49-things", "27 0"),
    ("rest-lent-2303", "27 0"),
    ("rest-lent-2303-of-11", "27 0"),
    ("rest-lent-2305", "27 0"),
    ("rest-of-rights-0", "27 0"),
    ("rest-of-rights-1", "5 43"),
    ("rest-of-rights-2", "0 0 59"),
    ("rest-of-rights-64", "0 0 59"),
    ("rest-of-rights-65", "27 0"),
    ("rest-of-types-1", "5 13"),
    ("rest-of-types-17", "27 0"),
    ("rest-of-subjects-0", "6 27"),
    ("rest-of-subjects-1", "6 43"),
    ("rest-of-subjects-8", "27 0"),
    ("rest-of-commands-0", "27 0"),
    ("rest-of-commands-1", "0 0 59"),
    ("rest-of-commands-33", "27 0"),
    ("rest-of-no-scheme-cut", "27 0"),
    ("rest-full-fault", "7 37190"),
    ("rest-full", "0 0 37206"),
];

/// The words behind a label.
fn words<'a>(text: &'a str, label: &str) -> Vec<&'a str> {
    let mut lines = text.lines().map(|line| line.split(' '));
    let words = lines.find_map(|mut words| (words.next() == Some(label)).then_some(words));
    words.unwrap_or_else(|| panic!("{label}")).collect()
}

fn sum(numbers: impl IntoIterator<Item = u64>) -> u64 {
    let add = |sum: u64, number: u64| (sum * 1_000_003 + number) % ((1 << 40) - 87);
    numbers.into_iter().fold(1, add)
}

/// What a buffer of this length holds before: 1, 2, 3 and so on up to 251, and again from 1 on.
fn before(room: u64) -> Vec<u8> {
    (0..room).map(|place| (place % 251 + 1) as u8).collect()
}

#[test]
fn moves_are_refused_in_their_order() {
    let text = stdout();
    for (label, wanted) in MOVED {
        let words = words(&text, label);
        let said = &words[..words.len() - 2];
        assert_eq!(said.join(" "), *wanted, "{label}");
    }
    for (label, wanted) in RESTS {
        let words = words(&text, label);
        let said = &words[..words.len() - 1];
        assert_eq!(said.join(" "), *wanted, "{label}");
    }
}

/// The bytes stand at the start of the buffer, and what is behind them stays; with a refusal all of it does.
#[test]
fn what_is_in_the_buffers_is_told() {
    let text = stdout();
    let holds = |label: &str, room: u64, bytes: &[u8]| {
        let mut buffer = before(room);
        buffer[..bytes.len()].copy_from_slice(bytes);
        let wanted = sum(buffer.into_iter().map(u64::from)).to_string();
        let label = format!("{label}-into-{room}");
        let words = words(&text, &label);
        assert_eq!(words[words.len() - 2], wanted, "{label}");
    };
    let (new, old) = (bytes(KEY_MATRIX), bytes(OLD_KEY_MATRIX));
    holds("forward-key", 61, &new);
    holds("forward-key", 60, &[]);
    holds("forward-key-rooms", 62, &new);
    holds("forward-key-rooms", 1_000, &new);
    holds("forward-27-types-16", 100, &new);
    holds("forward-27-types-17", 100, &[]);
    holds("forward-nothing", 9, &[4, 0, 7, 0, 4, 0, 0, 0]);
    holds("forward-row-6", 100, &[]);
    let mut held = new.clone();
    (held[10], held[17], held[24]) = (8, 8, 8);
    holds("forward-held-all", 61, &held);
    let mut last = new[..29].to_vec();
    last[6..8].fill(255);
    last[26..28].fill(255);
    holds("forward-id-65535", 29, &last);
    holds("back-key-matrix", 59, &old);
    holds("back-key-matrix", 58, &[]);
    holds("back-key-rooms", 61, &old);
    holds("back-nothing", 8, &[2, 0, 3, 0, 4, 0]);
    holds("back-highest-13", 100, &[]);
    holds("back-12-of-13-rooms", 59, &[]);
    (held[10], held[24]) = (4, 4);
    let held = [&old[..6], &held[8..]].concat();
    holds("back-held-9", 59, &held);
}

/// Id, type and mark of each seat, the highest id, and two numbers for each cell.
fn matrix_sum(things: &[[u64; 3]], highest: u64, cells: &[(usize, u64)]) -> String {
    let mut numbers = things.concat();
    numbers.resize(3 * 48, 0);
    numbers.push(highest);
    let mut halves = vec![0; 2 * 2_400];
    for (place, rights) in cells {
        halves[2 * place] = *rights;
    }
    // Behind the matrix's own cells, where spoiled tables have left it.
    halves[2 * 2_304] = 5;
    sum(numbers.into_iter().chain(halves)).to_string()
}

/// What is read replaces all that was there, with the highest id that was stated; what is refused, nothing. A move leaves the matrix alone.
#[test]
fn what_stands_behind_a_head_is_kept() {
    let text = stdout();
    let stands = |label: &str, sum: &str| {
        assert_eq!(words(&text, label).last(), Some(&sum), "{label}");
    };
    let key = [[5, 0, 0], [9, 1, 0], [12, 2, 0]];
    let cells = [(1, 1), (50, 2)];
    stands("rest-no-cell", &matrix_sum(&key, 65_535, &[]));
    stands("rest-one-cell", &matrix_sum(&key, 65_535, &cells[..1]));
    stands("rest-things-2", &matrix_sum(&key[..2], 65_535, &[]));
    stands("rest-things-0", &matrix_sum(&[], 65_535, &[]));
    stands("rest-12-of-12", &matrix_sum(&key, 12, &cells));
    stands("rest-12-of-13", &matrix_sum(&key, 13, &cells));
    stands("rest-12-of-268", &matrix_sum(&key, 268, &cells));
    stands("rest-268-of-12", &matrix_sum(&key, 268, &cells));
    stands("rest-nothing-of-1", &matrix_sum(&[], 1, &[]));
    let held = [[5, 0, 1], [9, 1, 1], [12, 2, 1]];
    stands("rest-held-all", &matrix_sum(&held, 65_535, &cells));
    let spoiled = words(&text, "rest-spoiled-cell-2304").concat();
    stands("rest-spoiled-12-of-11", &spoiled);
    stands("rest-spoiled-things-4", &spoiled);
    stands("rest-spoiled", &matrix_sum(&key, 12, &cells));
    stands("rest-lent-0", &matrix_sum(&key, 12, &cells));
    stands("forward-key-into-61", &matrix_sum(&key, 12, &cells));
    stands("back-highest-13-into-100", &matrix_sum(&key, 12, &cells));
    let stranger = matrix_sum(&key, 0, &cells);
    stands("forward-beside-stranger-key-into-61", &stranger);
    stands("back-beside-stranger-key-into-59", &stranger);
}

/// Number, lengths of label and bytes, cells, room, position, label; then the bytes, before which a rest has the highest id and the number of things.
#[test]
fn moves_are_encoded() {
    let input = stdin();
    let stands = |number: u8, label: &str, (room, at): (u64, u64), bytes: &[u8]| {
        let length = (bytes.len() as u16).to_le_bytes();
        let case = [
            &[number, label.len() as u8][..],
            &length,
            &2_304u16.to_le_bytes(),
            &room.to_le_bytes(),
            &at.to_le_bytes(),
            label.as_bytes(),
            bytes,
        ]
        .concat();
        let mut parts = input.windows(case.len());
        assert!(parts.any(|part| part == case), "{label}");
    };
    let (new, old) = (bytes(KEY_MATRIX), bytes(OLD_KEY_MATRIX));
    stands(101, "forward-key-into-61", (61, 0), &old);
    stands(101, "forward-empty-into-0", (0, 0), &[]);
    stands(102, "back-key-matrix-into-58", (58, 0), &new);
    let rest = [&[12, 0, 3][..], &new].concat();
    stands(100, "rest-new-image", (0, 8), &rest);
    let rest = [&[255, 255, 255][..], &old].concat();
    stands(100, "rest-255-of-3", (0, 6), &rest);
    stands(
        100,
        "rest-past-all",
        (0, u64::MAX),
        &[&[255, 255, 3], &old[..]].concat(),
    );
    stands(100, "rest-empty", (0, 0), &[255, 255, 0]);
}
