//! The sums that stand for what was lent: each place counts by its value and its position.

use super::seats::Seat;

/// The largest prime below 2 to the 40.
const PRIME: u64 = (1 << 40) - 87;

fn add(sum: u64, value: u64) -> u64 {
    (sum * 1_000_003 + value) % PRIME
}

fn all(values: impl IntoIterator<Item = u64>) -> u64 {
    values.into_iter().fold(1, add)
}

pub fn bytes(bytes: &[u8]) -> u64 {
    all(bytes.iter().map(|&byte| u64::from(byte)))
}

pub fn ids(ids: &[u16]) -> u64 {
    all(ids.iter().map(|&id| u64::from(id)))
}

/// Id, type and mark of each seat, the highest id, then the two halves of each cell.
pub fn matrix(seats: &[Seat], highest: u16, cells: &[u64]) -> u64 {
    let things = seats.iter().flat_map(|seat| {
        let (id, kind, held) = (seat.id, seat.kind, seat.held);
        [u64::from(id), u64::from(kind), u64::from(held)]
    });
    let cells = cells.iter();
    let cells = cells.flat_map(|cell| [cell & 0xFFFF_FFFF, cell >> 32]);
    all(things.chain([u64::from(highest)]).chain(cells))
}

/// What a lent buffer holds before the call: no zeros.
pub fn pattern(room: u64) -> Vec<u8> {
    (0..room).map(|place| (place % 251 + 1) as u8).collect()
}
