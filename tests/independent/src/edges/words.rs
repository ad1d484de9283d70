//! Ids in words, as hold and release are given them: one to five digits and no other byte, up to the last id and above it.

use super::{case, Case, Task};

pub fn cases() -> Vec<Case> {
    let mut cases = vec![word("nothing", b"")];
    for byte in b'/'..=b':' {
        cases.push(word(&format!("byte-{byte}"), &[byte]));
    }
    for digits in DIGITS {
        cases.push(word(digits, digits.as_bytes()));
    }
    for place in 0..5 {
        for byte in [b'a', b"+-"[place % 2]] {
            let mut bytes = *b"12345";
            bytes[place] = byte;
            cases.push(word(&format!("byte-{byte}-at-{place}"), &bytes));
        }
    }
    for (label, bytes) in OTHERS {
        cases.push(word(label, bytes));
    }
    cases.push(word("200-zeros", &[b'0'; 200]));
    cases.push(word("200-nines", &[b'9'; 200]));
    cases
}

fn word(label: &str, bytes: &[u8]) -> Case {
    case(format!("id-in-{label}"), Task::IdIn(bytes.to_vec()))
}

/// Zeros in front count as digits. From 65536 on it is an id that no thing has.
const DIGITS: &[&str] = &[
    "256", "00000", "00012", "10000", "12345", "65535", "65536", "65545", "99999", "000000",
    "065535", "100000",
];

const OTHERS: &[(&str, &[u8])] = &[
    ("space", b" "),
    ("12-space", b"12 "),
    ("byte-0", b"\0"),
    ("byte-0-behind-12", b"12\0"),
    ("byte-255", b"\xFF"),
    ("12345-a", b"12345a"),
];
