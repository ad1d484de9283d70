//! What the program `edges` must print of things on hold, worked out by hand: 18 in its turn, kind 8 where it may stand, marks in the matrix's sum, ids
//! in words, and how they stand in the program's input.

use independent::edges::{stdin, stdout};

/// Labels and the words behind them, up to the matrix's sum.
const SAID: &[(&str, &str)] = &[
    // Readings: the number, the position, and the next position.
    ("held-head", "2 0"),
    ("held-cell", "2 29"),
    ("held-second-cell", "2 45"),
    ("held-third-of-two", "2 22"),
    ("held-fourth-missing", "1 29"),
    ("cell-for-fourth-held", "2 29"),
    ("kind-9-for-thing", "2 8"),
    ("kind-12-for-thing", "2 8"),
    ("kind-0-for-thing", "2 8"),
    ("kind-260-for-thing", "2 8"),
    ("kind-264-for-thing", "2 8"),
    ("kind-2048-for-thing", "2 8"),
    ("kind-9-behind-held", "2 15"),
    ("held-id-0", "6 8"),
    ("held-id-same", "7 15"),
    ("id-same-behind-held", "7 15"),
    ("held-id-same-behind-held", "7 15"),
    ("held-id-below", "7 22"),
    ("id-below-behind-held", "7 22"),
    ("held-above-highest", "6 22"),
    ("held-same-above-highest", "7 15"),
    ("held-above-type-3", "6 22"),
    ("held-type-3", "5 8"),
    ("held-length-0", "3 8"),
    ("held-length-2", "3 8"),
    ("held-length-4", "3 8"),
    ("held-past-end", "1 8"),
    ("held-cut", "1 22"),
    ("held-front-cut", "1 8"),
    ("held-9", "0 0 61"),
    ("held-5-12-by-head", "0 0 61"),
    ("held-all-totals", "0 3 2 2"),
    // Things alone: their kind, id and type too.
    ("mark-4-of-both", "0 0 4 9 1 22"),
    ("mark-8-of-both", "0 0 8 9 1 22"),
    ("mark-264-of-both", "2 15"),
    ("mark-8-of-free", "2 15"),
    ("mark-4-of-held", "2 15"),
    ("mark-8-of-held", "0 0 8 9 1 22"),
    ("mark-of-0", "3 15"),
    ("mark-id-0", "6 15"),
    ("mark-behind-9", "7 15"),
    ("mark-behind-9-of-8", "7 15"),
    ("mark-behind-8-of-8", "6 15"),
    ("mark-behind-8-of-9", "0 0 8 9 1 22"),
    ("mark-type-3", "5 15"),
    ("mark-of-4", "3 15"),
    ("mark-as-head", "2 0"),
    ("mark-as-cell", "2 29"),
    // What of the head, the scheme, the things and the matrix is accepted.
    ("mark-at-47-accepted", "1 1 1 1"),
    ("mark-free-47-accepted", "1 1 0 0"),
    ("mark-free-47-off-accepted", "1 1 1 1"),
    ("mark-free-3-accepted", "1 1 0 0"),
    ("27-mark-at-free-3-matrix", "1 1 0 0"),
    ("27-mark-at-free-3-totals", "27"),
    ("27-mark-at-free-3-request", "27 255 0"),
    ("27-mark-at-free-47-request", "27 255 0"),
    ("27-mark-at-free-47-quietly", "27"),
    ("27-mark-at-free-47-cells-where-they-lie", "27"),
    // Requests: the number, the test, the steps.
    ("on-hold-9-load-9-12", "18 255 0"),
    ("on-hold-9-retire-5-9", "18 255 0"),
    ("on-hold-9-load-9-0", "18 255 0"),
    ("on-hold-9-load-9-8", "18 255 0"),
    ("on-hold-9-load-9-5", "18 255 0"),
    ("on-hold-9-load-0-9", "12 255 0"),
    ("on-hold-9-retire-9-9", "13 255 0"),
    ("on-hold-9-retire-8-9", "12 255 0"),
    ("on-hold-9-retire-12-9", "13 255 0"),
    ("on-hold-9-load-9", "11 255 0"),
    ("on-hold-9-command-2-9-12", "10 255 0"),
    ("on-hold-12-load-9-12", "18 255 0"),
    ("on-hold-12-load-8-12", "12 255 0"),
    ("on-hold-12-load-5-12", "13 255 0"),
    ("on-hold-12-retire-5-12", "13 255 0"),
    ("on-hold-12-retire-5-9", "0 255 2"),
    ("on-hold-5-load-9-12", "0 255 3"),
    ("on-hold-all-retire-9-5", "13 255 0"),
    ("on-hold-before-test", "18 255 0"),
    ("on-hold-at-0", "18 255 0"),
    ("on-hold-at-7", "18 255 0"),
    ("on-hold-last-behind-none", "12 255 0"),
    ("on-hold-last-behind-type", "13 255 0"),
    ("on-hold-eight-times", "18 255 0"),
    ("on-hold-none-of-it", "0 255 1"),
    ("on-hold-first-before-none", "18 255 0"),
    ("on-hold-first-before-type", "18 255 0"),
    ("on-hold-object", "13 255 0"),
    ("on-hold-create-7", "15 255 1"),
    ("on-hold-create-10-7", "15 255 2"),
    ("on-hold-replace-10-7", "18 255 0"),
    ("on-hold-replace-7-8", "15 255 1"),
    ("on-hold-replace-7-7", "18 255 0"),
    ("on-hold-replace-0-7", "12 255 0"),
    ("on-hold-destroy-8-7", "18 255 0"),
    ("on-hold-destroy-7-7", "18 255 0"),
    ("on-hold-destroy-8-8", "17 255 2"),
    ("on-hold-create-10", "0 255 1"),
    ("on-hold-full-create-49", "16 255 1"),
    ("on-hold-full-create-1", "15 255 1"),
    ("on-hold-full-replace-49-1", "18 255 0"),
    // Holds and releases: the number.
    ("release-9-first", "0"),
    ("hold-9", "0"),
    ("hold-9-again", "0"),
    ("release-9-again", "0"),
    ("hold-no-thing-0", "12"),
    ("hold-no-thing-265", "12"),
    ("hold-no-thing-2304", "12"),
    ("release-no-thing-65535", "12"),
    ("hold-nothing-9", "12"),
    ("hold-48-of-48", "0"),
    ("hold-49-of-48", "12"),
    ("hold-260-at-47", "0"),
    ("27-hold-no-scheme-9", "27"),
    ("27-hold-commands-33-no-thing", "27"),
    ("27-hold-mark-at-free-3-9", "27"),
    ("27-hold-mark-at-free-47-no-thing", "27"),
    ("27-hold-highest-11-9", "27"),
    ("hold-lent-2303", "27"),
    ("release-lent-2303", "27"),
    ("hold-lent-2304", "0"),
    ("release-lent-2304", "12"),
    ("hold-lent-2305", "27"),
    ("hold-asked-load", "18 255 0"),
    ("hold-asked-load-after", "0 255 3"),
    ("hold-destroyed-refused", "18 255 0"),
    ("hold-destroyed", "0 255 2"),
    ("hold-destroyed-1-gone", "12"),
    ("hold-destroyed-created", "0 255 2"),
    ("hold-robot-of-office-scheme", "27"),
    ("hold-robot-load", "18 255 0"),
    ("hold-robot-load-after", "0 255 4"),
    // Ids in words: whether it is one, and which.
    ("id-in-nothing", "0"),
    ("id-in-byte-47", "0"),
    ("id-in-byte-48", "1 0"),
    ("id-in-byte-57", "1 9"),
    ("id-in-byte-58", "0"),
    ("id-in-256", "1 256"),
    ("id-in-00000", "1 0"),
    ("id-in-00012", "1 12"),
    ("id-in-12345", "1 12345"),
    ("id-in-65535", "1 65535"),
    ("id-in-65536", "1 0"),
    ("id-in-65545", "1 0"),
    ("id-in-99999", "1 0"),
    ("id-in-000000", "0"),
    ("id-in-065535", "0"),
    ("id-in-100000", "0"),
    ("id-in-byte-97-at-0", "0"),
    ("id-in-byte-43-at-0", "0"),
    ("id-in-byte-45-at-1", "0"),
    ("id-in-byte-97-at-4", "0"),
    ("id-in-12-space", "0"),
    ("id-in-byte-0-behind-12", "0"),
    ("id-in-byte-255", "0"),
    ("id-in-12345-a", "0"),
    ("id-in-200-zeros", "0"),
];

/// What is located and what is planned: two numbers, each with its place, of which four words and then two are told.
const PLANS: &[(&str, u8, u8)] = &[
    ("locate-1-2", 18, 17),
    ("locate-2-1", 18, 17),
    ("locate-2-4", 0, 17),
    ("locate-1-0", 18, 17),
    ("locate-0-1", 12, 17),
    ("locate-10-1", 12, 17),
    ("locate-1-6", 18, 17),
    ("locate-6-1", 13, 17),
    ("locate-3-2", 13, 17),
    ("locate-new-1", 0, 15),
    ("locate-new-then-1", 18, 17),
    ("locate-last", 18, 17),
    ("locate-last-behind-0", 12, 17),
    ("locate-last-behind-2", 13, 17),
    ("locate-not-the-ninth", 0, 17),
    ("locate-first-6", 0, 17),
    ("locate-first-3", 18, 17),
    ("destroy-1-4", 18, 0),
    ("create-at-0", 0, 0),
    ("destroy-47-48", 18, 0),
    ("create-two-at-46", 0, 0),
    ("create-at-stray", 0, 0),
    ("create-twice-15", 0, 15),
    ("destroy-1-create-10", 18, 0),
];

/// The words behind a label.
fn words<'a>(text: &'a str, label: &str) -> Vec<&'a str> {
    let mut lines = text.lines().map(|line| line.split(' '));
    let words = lines.find_map(|mut words| (words.next() == Some(label)).then_some(words));
    words.unwrap_or_else(|| panic!("{label}")).collect()
}

fn sum(numbers: impl IntoIterator<Item = u64>) -> u64 {
    let add = |sum: u64, number: u64| (sum * 1_000_003 + number) % ((1 << 40) - 87);
    numbers.into_iter().fold(1, add)
}

#[test]
fn what_is_on_hold_is_told_in_its_turn() {
    let text = stdout();
    for (label, wanted) in SAID {
        let words = words(&text, label);
        let (_, said) = words.split_last().expect("the matrix's sum");
        assert_eq!(said.join(" "), *wanted, "{label}");
    }
    for (label, located, planned) in PLANS {
        let words = words(&text, &format!("plan-on-hold-{label}"));
        assert_eq!(words[0], located.to_string(), "{label}");
        assert_eq!(words[4], planned.to_string(), "{label}");
    }
}

/// Number, 255 and no steps; before, the buffer holds 1, 2, 3 and so on.
#[test]
fn a_list_has_18_among_its_answers() {
    let text = stdout();
    let lists: [(&str, [u8; 9]); 2] = [
        ("on-hold-list-9", [18, 255, 0, 18, 255, 0, 18, 255, 0]),
        ("on-hold-list-12", [18, 255, 0, 0, 255, 2, 18, 255, 0]),
    ];
    for (label, buffer) in lists {
        let sum = sum(buffer.map(u64::from)).to_string();
        assert_eq!(words(&text, label)[..3], ["0", "3", &sum], "{label}");
    }
}

/// A seat, and id, type and mark of the thing there.
type Seat = (usize, [u64; 3]);

fn matrix_sum(seats: &[Seat], highest: u64, cells: &[(usize, u64)]) -> String {
    sum_of_lent(2_400, seats, highest, cells)
}

/// Id, type and mark of each seat, in the order of the seats; then the highest id, and two numbers for each cell that is lent.
fn sum_of_lent(lent: usize, seats: &[Seat], highest: u64, cells: &[(usize, u64)]) -> String {
    let mut numbers = vec![0; 3 * 48];
    for (seat, thing) in seats {
        numbers[3 * seat..3 * seat + 3].copy_from_slice(thing);
    }
    numbers.push(highest);
    let mut halves = vec![0; 2 * 2_400];
    for (place, rights) in cells {
        halves[2 * place] = *rights;
    }
    // Behind the matrix's own cells, where spoiled tables have left it.
    halves[2 * 2_304] = 5;
    halves.truncate(2 * lent);
    sum(numbers.into_iter().chain(halves)).to_string()
}

#[test]
fn marks_show_in_the_sum() {
    let text = stdout();
    let stands = |label: &str, sum: String| {
        assert_eq!(words(&text, label).last(), Some(&&sum[..]), "{label}");
    };
    // The marks of 5, 9 and 12, and what is written at a seat behind them.
    let key = |marks: [u64; 3], more: &[Seat]| {
        let [five, nine, twelve] = marks;
        let things = [[5, 0, five], [9, 1, nine], [12, 2, twelve]];
        let seats: Vec<_> = things.into_iter().enumerate().collect();
        let cells = [(1, 1), (48 + 2, 2)];
        matrix_sum(&[&seats, more].concat(), 12, &cells)
    };
    stands("held-9", key([0, 1, 0], &[]));
    stands("held-all-by-head", key([1, 1, 1], &[]));
    stands("held-type-3", key([0, 0, 0], &[]));
    stands("mark-at-0", key([1, 0, 0], &[]));
    stands("mark-at-47", key([1, 0, 0], &[(47, [7, 1, 1])]));
    stands("mark-at-48", key([1, 0, 0], &[(47, [7, 1, 1])]));
    stands("mark-free-at-49", key([1, 0, 0], &[(47, [7, 1, 1])]));
    stands("mark-over-47", key([1, 0, 0], &[(47, [7, 1, 0])]));
    stands("mark-free-47", key([1, 0, 0], &[(47, [0, 0, 1])]));
    stands("on-hold-9-load-9-12", key([0, 1, 0], &[]));
    stands("release-9-first", key([0, 0, 0], &[]));
    stands("hold-9", key([0, 1, 0], &[]));
    stands("hold-9-again", key([0, 1, 0], &[]));
    stands("hold-12", key([1, 1, 1], &[]));
    stands("release-9-again", key([1, 0, 1], &[]));
    stands("hold-no-thing-265", key([1, 0, 1], &[]));
    stands("release-12", key([0, 0, 0], &[]));
    stands("hold-lent-2305", key([0, 1, 0], &[]));
    let stray = [(3, [0, 0, 1])];
    stands("27-hold-mark-at-free-3-9", key([0, 0, 0], &stray));
    stands("no-things-no-marks", matrix_sum(&[], 0, &[(1, 1), (50, 2)]));
}

/// A label, the number, what differs from the key example's seats before and in what is given back, and the highest id.
type Marked = (
    &'static str,
    &'static str,
    &'static [Seat],
    &'static [Seat],
    u64,
);

const FREE: [u64; 3] = [0; 3];
const STRAY: [u64; 3] = [0, 0, 1];
const FIVE: Seat = (0, [5, 0, 1]);
const NINE: Seat = (1, [9, 1, 1]);
const SECOND: Seat = (47, [9, 1, 0]);
const SECOND_ON: Seat = (47, [9, 1, 1]);
const LAST: Seat = (47, [65_535, 1, 0]);
const LAST_ON: Seat = (47, [65_535, 1, 1]);
const NOTHING: &[Seat] = &[(0, FREE), (1, FREE), (2, FREE)];
const FREE_ON: &[Seat] = &[(3, STRAY), (47, STRAY)];
const FREE_AND_NINE: &[Seat] = &[(3, STRAY), (47, STRAY), NINE];
const FREE_0_ON: &[Seat] = &[(0, STRAY), (3, STRAY), (47, STRAY)];

#[rustfmt::skip]
const MARKED: &[Marked] = &[
    ("marked-5", "0", &[], &[FIVE], 12),
    ("marked-9", "0", &[], &[NINE], 12),
    ("marked-12", "0", &[], &[(2, [12, 2, 1])], 12),
    ("unmarked-5-never-on", "0", &[], &[], 12),
    ("marked-no-thing-0", "12", &[], &[], 12),
    ("marked-no-thing-8", "12", &[], &[], 12),
    ("marked-no-thing-265", "12", &[], &[], 12),
    ("marked-5-again", "0", &[FIVE], &[FIVE], 12),
    ("unmarked-5", "0", &[FIVE], &[], 12),
    ("unmarked-9-beside-5", "0", &[FIVE], &[FIVE], 12),
    ("marked-last", "0", &[FIVE, LAST], &[FIVE, LAST_ON], 65_535),
    ("marked-below-last", "12", &[FIVE, LAST], &[FIVE, LAST], 65_535),
    ("unmarked-last", "0", &[FIVE, LAST_ON], &[FIVE, LAST], 65_535),
    ("marked-first-9-of-none-on", "0", &[FIVE, SECOND], &[FIVE, NINE, SECOND], 65_535),
    ("marked-first-9-of-first-on", "0", &[FIVE, NINE, SECOND], &[FIVE, NINE, SECOND], 65_535),
    ("unmarked-first-9-of-first-on", "0", &[FIVE, NINE, SECOND], &[FIVE, SECOND], 65_535),
    ("unmarked-first-9-of-both-on", "0", &[FIVE, NINE, SECOND_ON], &[FIVE, SECOND_ON], 65_535),
    ("marked-0-of-nothing", "12", NOTHING, NOTHING, 9),
    ("marked-9-of-nothing", "12", NOTHING, NOTHING, 9),
    ("marked-9-beside-free", "0", FREE_ON, FREE_AND_NINE, 12),
    ("unmarked-9-beside-free", "0", FREE_ON, FREE_ON, 12),
    ("marked-0-of-free", "12", FREE_ON, FREE_ON, 12),
    ("unmarked-0-of-free", "12", FREE_ON, FREE_ON, 12),
    ("unmarked-0-of-free-0", "12", FREE_0_ON, FREE_0_ON, 12),
    ("marked-type-255", "0", &[(3, [7, 255, 0])], &[(3, [7, 255, 1])], 12),
    ("marked-above-highest", "0", &[(3, [7, 255, 0])], &[(3, [7, 255, 0]), (2, [12, 2, 1])], 0),
    ("marked-without-scheme", "0", &[(3, [7, 255, 0])], &[(3, [7, 255, 0]), NINE], 0),
];

/// What is given back is told over the cells that are lent; the line ends with the matrix as it was.
#[test]
fn a_mark_is_set_among_things_as_they_are() {
    let text = stdout();
    let stands =
        |label: &str, lent: usize, number: &str, [before, after]: [&[Seat]; 2], highest| {
            let key = [(0, [5, 0, 0]), (1, [9, 1, 0]), (2, [12, 2, 0])];
            let cells = [(1, 1), (48 + 2, 2)];
            let given = sum_of_lent(lent, &[&key, after].concat(), highest, &cells);
            let kept = matrix_sum(&[&key, before].concat(), highest, &cells);
            assert_eq!(words(&text, label), [number, &given, &kept], "{label}");
        };
    for (label, number, before, after, highest) in MARKED {
        stands(label, 2_304, number, [before, after], *highest);
    }
    for lent in [0, 2, 2_305, 2_400] {
        let label = format!("marked-9-lent-{lent}");
        stands(&label, lent, "0", [&[], &[NINE]], 12);
    }
    stands("marked-8-lent-0", 0, "12", [&[], &[]], 12);
}

/// Things 1 to 9 at the first seats, each third of type 0, with some of them changed.
fn nine(changes: &[Seat]) -> Vec<Seat> {
    let thing = |id: u64| (id as usize - 1, [id, (id % 3).min(1), 0]);
    (1..=9).map(thing).chain(changes.iter().copied()).collect()
}

/// A created thing has no mark, wherever it comes to sit, and the others keep theirs.
#[test]
fn plans_and_requests_leave_the_marks_of_the_others() {
    let free = [0; 3];
    let (held, stray) = ((8, [9, 0, 1]), (47, [0, 0, 1]));
    let rows: &[(&str, &[Seat], u64)] = &[
        (
            "plan-on-hold-destroyed-4",
            &[(0, [1, 1, 1]), (3, [4, 1, 1])],
            9,
        ),
        ("plan-on-hold-destroy-1-4", &[(0, free), (3, free)], 9),
        (
            "plan-on-hold-create-at-0",
            &[(0, [10, 1, 0]), (3, free)],
            10,
        ),
        (
            "plan-on-hold-create-at-3",
            &[(0, [10, 1, 0]), (3, [11, 1, 0])],
            11,
        ),
        ("plan-on-hold-stray-47", &[(9, [0, 0, 1]), stray], 9),
        (
            "plan-on-hold-create-at-stray",
            &[(9, [10, 1, 0]), stray],
            10,
        ),
        ("plan-on-hold-destroy-1-create-10", &[(0, [10, 1, 0])], 10),
        // By requests: what is destroyed was released before, and the thing at its seat can be held again.
        ("hold-destroyed", &[(0, free), (3, free), held], 9),
        (
            "hold-destroyed-created",
            &[(0, [10, 1, 0]), (3, [11, 0, 0]), held],
            11,
        ),
        (
            "hold-destroyed-11",
            &[(0, [10, 1, 1]), (3, [11, 0, 1]), held],
            11,
        ),
    ];
    let text = stdout();
    for (label, changes, highest) in rows {
        let sum = matrix_sum(&nine(changes), *highest, &[]);
        assert_eq!(words(&text, label).last(), Some(&&sum[..]), "{label}");
    }
}

/// The mark is the fourth byte of a thing that is put, and hold and release have an id alone. Set among things as they are, a mark has an id before it; an
/// id in a word has that word.
#[test]
fn marks_are_encoded() {
    let input = stdin();
    let stands = |number: u8, label: &str, at: u64, bytes: &[u8]| {
        let front = [number, label.len() as u8, bytes.len() as u8, 0];
        let (cells, room) = (2_304u16.to_le_bytes(), [0; 8]);
        let parts: [&[u8]; 6] = [
            &front,
            &cells,
            &room,
            &at.to_le_bytes(),
            label.as_bytes(),
            bytes,
        ];
        let case = parts.concat();
        assert!(
            input.windows(case.len()).any(|part| part == case),
            "{label}"
        );
    };
    stands(16, "mark-at-47", 47, &[7, 0, 1, 1]);
    stands(16, "mark-over-47", 47, &[7, 0, 1, 0]);
    stands(16, "mark-free-47", 47, &[0, 0, 0, 1]);
    stands(18, "hold-no-thing-265", 0, &[9, 1]);
    stands(18, "hold-260-at-47", 0, &[4, 1]);
    stands(19, "release-260-at-47", 0, &[4, 1]);
    stands(65, "marked-no-thing-265", 0, &[9, 1, 1]);
    stands(65, "unmarked-5", 0, &[5, 0, 0]);
    stands(76, "id-in-nothing", 0, b"");
    stands(76, "id-in-00012", 0, b"00012");
}

/// What is written and converted, as a sum of the buffer: kind 8 for what is on hold, and nothing else changes.
#[test]
fn marks_are_written() {
    let text = stdout();
    let key: Vec<u8> = [
        &[4, 0, 7, 0, 4, 3, 12, 0][..],
        &[
            3, 0, 4, 0, 5, 0, 0, 3, 0, 8, 0, 9, 0, 1, 3, 0, 4, 0, 12, 0, 2,
        ],
        &[12, 0, 5, 0, 5, 0, 9, 0, 1, 0, 0, 0, 0, 0, 0, 0],
        &[12, 0, 5, 0, 9, 0, 12, 0, 2, 0, 0, 0, 0, 0, 0, 0],
    ]
    .concat();
    let written = sum(key.iter().map(|&byte| u64::from(byte))).to_string();
    for label in ["held-9-written", "held-9-written-by-head"] {
        assert_eq!(words(&text, label)[..3], ["0", "61", &written], "{label}");
    }
    let mut robot = [&[4, 0, 7, 0, 8, 3, 12, 0], &key[8..29]].concat();
    for (row, column, rights) in [
        (5, 5, 240),
        (5, 9, 225),
        (5, 12, 240),
        (9, 5, 240),
        (9, 9, 240),
        (9, 12, 210),
    ] {
        robot.extend([12, 0, 5, 0, row, 0, column, 0, rights, 0, 0, 0, 0, 0, 0, 0]);
    }
    let written = sum(robot.iter().map(|&byte| u64::from(byte))).to_string();
    for label in ["held-9-of-robot", "hold-robot-written"] {
        assert_eq!(words(&text, label)[..3], ["0", "125", &written], "{label}");
    }
}
