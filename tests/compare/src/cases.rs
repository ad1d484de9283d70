//! The input of the C programs in tests/library: each case in the form that cases.h there says.

use std::io::{self, Write};
use std::ops::Range;

use independent::generate::{case, Case};

use crate::images::{images, Image};
use crate::Stop;

/// Buffers of just the right length take many calls, so that only some cases try them.
pub fn tries_edges(number: u64) -> bool {
    number % 4 == 0
}

pub fn write(seed: u64, numbers: Range<u64>, mut out: impl Write) -> Result<(), Stop> {
    for number in numbers {
        let case = case(seed, number);
        let bytes = bytes(&case, tries_edges(number), &images(&case, number));
        if !sent(out.write_all(&bytes))? {
            return Ok(());
        }
    }
    sent(out.flush()).map(|_| ())
}

/// Whether there still is a reader: one that stops early, as `head` does, is no failure.
fn sent(answer: io::Result<()>) -> Result<bool, Stop> {
    match answer {
        Ok(()) => Ok(true),
        Err(error) if error.kind() == io::ErrorKind::BrokenPipe => Ok(false),
        Err(error) => Err(Stop::Failed(format!("the cases can't be written: {error}"))),
    }
}

fn bytes(case: &Case, edges: bool, images: &[Image]) -> Vec<u8> {
    let mut bytes = Vec::new();
    let lengths = [
        case.scheme.len(),
        case.matrix.len(),
        case.requests.len(),
        case.room,
        usize::from(edges),
        case.direct.len(),
        case.marks.len(),
        images.len(),
        case.moved_room,
    ];
    for length in lengths {
        bytes.extend(four_bytes(length));
    }
    bytes.extend(&case.scheme);
    bytes.extend(&case.matrix);
    bytes.extend(&case.requests);
    for (command, ids) in &case.direct {
        let count = u8::try_from(ids.len()).expect("a direct request has a few ids");
        bytes.extend([*command, count]);
        for id in ids {
            bytes.extend(id.to_le_bytes());
        }
    }
    for (id, held) in &case.marks {
        bytes.extend(id.to_le_bytes());
        bytes.push(u8::from(*held));
    }
    for image in images {
        bytes.extend(four_bytes(image.bytes.len()));
        bytes.push(u8::from(image.forward));
        bytes.extend(&image.bytes);
    }
    bytes
}

fn four_bytes(length: usize) -> [u8; 4] {
    let length = u32::try_from(length).expect("the parts of a case are short");
    length.to_le_bytes()
}
