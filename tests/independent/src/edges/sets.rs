//! Sets of rights, of types and of kinds: empty, full and in between, asked with numbers at the edges of what a set can hold; and these numbers alone.

use super::{case, Case, Task};

/// Around the limits of parameters, types and rights.
const NUMBERS: [u8; 9] = [0, 1, 7, 8, 15, 16, 63, 64, 255];

pub fn cases() -> Vec<Case> {
    let mut cases = Vec::new();
    for (name, set) in [
        ("none", 0),
        ("first", 1),
        ("last", 1 << 63),
        ("some", 0x8000_0001_0000_00F0),
        ("all", u64::MAX),
    ] {
        for right in [0, 4, 63, 64, 255] {
            for n in [0, 1, 32, 63, 64, 65, 255] {
                let label = format!("set-{name}-right-{right}-of-{n}");
                cases.push(case(label, Task::Rights { set, right, n }));
            }
        }
    }
    for (name, set) in [("none", 0), ("some", 0x8011), ("all", u16::MAX)] {
        for kind in [0, 4, 5, 15, 16, 255] {
            let label = format!("types-{name}-and-{kind}");
            cases.push(case(label, Task::Types { set, kind }));
        }
        for kind in [0, 4, 5, 15, 16, 256, u16::MAX] {
            let label = format!("kinds-{name}-and-{kind}");
            cases.push(case(label, Task::Kinds { set, kind }));
        }
    }
    for one in NUMBERS {
        for other in NUMBERS {
            let label = format!("number-{one}-and-{other}");
            cases.push(case(label, Task::Numbers(one, other)));
        }
    }
    cases
}
