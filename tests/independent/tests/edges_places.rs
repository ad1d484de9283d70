//! What the program `edges` must print of bytes placed in a buffer, worked out by hand, and how that task stands in the program's input.

use independent::edges::{stdin, stdout};

/// Labels, the number and the next position, and all that is in the buffer afterwards; before, it holds 1, 2, 3 and so on.
#[rustfmt::skip]
const PLACED: &[(&str, &str, &[u8])] = &[
    ("place-0-at-0-of-16", "0 0", &FRESH),
    ("place-0-at-7-of-16", "0 7", &FRESH),
    ("place-0-at-16-of-16", "0 16", &FRESH),
    ("place-0-at-17-of-16", "9", &FRESH),
    ("place-0-at-18446744073709551615-of-16", "9", &FRESH),
    ("place-0-at-0-of-0", "0 0", &[]),
    ("place-0-at-1-of-0", "9", &[]),
    ("place-0-at-18446744073709551615-of-0", "9", &[]),
    ("place-1-at-0-of-0", "9", &[]),
    ("place-1-at-0-of-1", "0 1", &[255]),
    ("place-1-at-1-of-1", "9", &[1]),
    ("place-1-at-15-of-16", "0 16", &[1, 2, 3, 4, 5, 6, 7, 8, 9, 10, 11, 12, 13, 14, 15, 255]),
    ("place-1-at-16-of-16", "9", &FRESH),
    ("place-3-at-0-of-0", "9", &[]),
    ("place-3-at-0-of-2", "9", &[1, 2]),
    ("place-3-at-0-of-3", "0 3", &[255, 254, 253]),
    ("place-3-at-0-of-16", "0 3", &[255, 254, 253, 4, 5, 6, 7, 8, 9, 10, 11, 12, 13, 14, 15, 16]),
    ("place-3-at-7-of-16", "0 10", &[1, 2, 3, 4, 5, 6, 7, 255, 254, 253, 11, 12, 13, 14, 15, 16]),
    ("place-3-at-13-of-16", "0 16", &[1, 2, 3, 4, 5, 6, 7, 8, 9, 10, 11, 12, 13, 255, 254, 253]),
    ("place-3-at-14-of-16", "9", &FRESH),
    ("place-3-at-16-of-16", "9", &FRESH),
    ("place-3-at-17-of-16", "9", &FRESH),
    ("place-16-at-0-of-16", "0 16", &[
        255, 254, 253, 252, 251, 250, 249, 248, 247, 246, 245, 244, 243, 242, 241, 240,
    ]),
    ("place-16-at-1-of-16", "9", &FRESH),
    ("place-17-at-0-of-16", "9", &FRESH),
    ("place-3-at-4294967296-of-16", "9", &FRESH),
    ("place-1-at-18446744073709551614-of-16", "9", &FRESH),
    ("place-2-at-18446744073709551614-of-16", "9", &FRESH),
    ("place-3-at-18446744073709551614-of-16", "9", &FRESH),
    ("place-1-at-18446744073709551615-of-16", "9", &FRESH),
    ("place-3-at-18446744073709551615-of-16", "9", &FRESH),
    ("place-3-at-18446744073709551615-of-0", "9", &[]),
];

const FRESH: [u8; 16] = [1, 2, 3, 4, 5, 6, 7, 8, 9, 10, 11, 12, 13, 14, 15, 16];

/// What stands behind a label: the answer and the sum of the buffer, then the matrix's sum alone.
fn is_told(text: &str, label: &str, words: &str, buffer: &[u8]) {
    let add = |sum: u64, byte: &u8| (sum * 1_000_003 + u64::from(*byte)) % ((1 << 40) - 87);
    let start = format!("{label} {words} {} ", buffer.iter().fold(1, add));
    let mut rests = text.lines().filter_map(|line| line.strip_prefix(&start));
    assert!(rests.any(|rest| !rest.contains(' ')), "{start}");
}

#[test]
fn bytes_are_placed_or_nothing_is() {
    let text = stdout();
    for (label, words, buffer) in PLACED {
        is_told(&text, label, words, buffer);
    }
}

/// Before, a buffer holds no more than 251, and then 1 again.
#[test]
fn many_bytes_are_placed() {
    let text = stdout();
    let before = |room: usize| (1..=251).cycle().take(room);
    let many = |length: usize| (0..=255).rev().cycle().take(length);
    let placed = |length: usize, at: usize, room: usize| {
        let behind = before(room).skip(at + length);
        let buffer: Vec<u8> = before(at).chain(many(length)).chain(behind).collect();
        let label = format!("place-{length}-at-{at}-of-{room}");
        is_told(&text, &label, &format!("0 {}", at + length), &buffer);
    };
    placed(300, 5, 305);
    placed(300, 5, 400);
    placed(37_200, 8, 37_208);
    let refused = |label: &str, room: usize| {
        is_told(&text, label, "9", &before(room).collect::<Vec<u8>>());
    };
    refused("place-300-at-6-of-305", 305);
    refused("place-300-at-18446744073709551316-of-400", 400);
}

/// Number, lengths of label and bytes, cells, room, position, label; then the bytes to be placed.
#[test]
fn places_are_encoded() {
    let input = stdin();
    let stands = |label: &str, (room, at): (u64, u64), bytes: &[u8]| {
        let case = [
            &[47, label.len() as u8, bytes.len() as u8, 0],
            &2_304u16.to_le_bytes()[..],
            &room.to_le_bytes(),
            &at.to_le_bytes(),
            label.as_bytes(),
            bytes,
        ]
        .concat();
        let mut parts = input.windows(case.len());
        assert!(parts.any(|part| part == case), "{label}");
    };
    stands("place-3-at-13-of-16", (16, 13), &[255, 254, 253]);
    stands("place-0-at-7-of-16", (16, 7), &[]);
    stands(
        "place-2-at-18446744073709551614-of-16",
        (16, u64::MAX - 1),
        &[255, 254],
    );
}
