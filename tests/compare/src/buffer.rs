//! A buffer as the driver tells it: the end of what is no longer the pattern, and a hash of all up to there.

/// Bytes on both sides of what is lent; the library may not touch them.
pub const GUARD: usize = 64;

const EMPTY: u64 = 0xcbf2_9ce4_8422_2325;

#[derive(Clone, Copy, Debug, PartialEq, Eq)]
pub struct Buffer {
    pub end: u64,
    pub hash: u64,
}

/// What the driver tells of a buffer in which these bytes were stored from a position on, and nothing else was.
pub fn stored(at: usize, bytes: &[u8]) -> Buffer {
    let start = GUARD + at;
    let last = (0..bytes.len())
        .rev()
        .find(|&k| bytes[k] != pattern(start + k));
    let Some(last) = last else {
        return UNTOUCHED;
    };
    let before = (0..start).fold(EMPTY, |from, k| add(from, pattern(k)));
    Buffer {
        end: (start + last + 1) as u64,
        hash: hash(before, &bytes[..=last]),
    }
}

pub const UNTOUCHED: Buffer = Buffer {
    end: 0,
    hash: EMPTY,
};

/// One hash over several parts.
pub fn hash_all(parts: &[&[u8]]) -> u64 {
    parts.iter().fold(EMPTY, |from, part| hash(from, part))
}

fn pattern(at: usize) -> u8 {
    (at as u8).wrapping_mul(167).wrapping_add(13)
}

/// FNV-1a, 64 bits.
fn hash(from: u64, bytes: &[u8]) -> u64 {
    bytes.iter().fold(from, |from, &byte| add(from, byte))
}

fn add(from: u64, byte: u8) -> u64 {
    (from ^ u64::from(byte)).wrapping_mul(0x100_0000_01b3)
}
