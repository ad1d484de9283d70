//! Where a request's things sit, and what its creates and destroys make of them: the checks 12, 13, 18 and 15 to 17 on the seats alone.

use super::seats::{Seat, Seats, SEATS};
use super::values::CommandValue;

/// The seat of each parameter's thing.
pub type Spots = [u8; 8];

/// As many places as there are parameters and ids: the seat of each, 0 of a new parameter; or the first fault.
pub fn located(seats: &Seats, command: &CommandValue, ids: &[u16]) -> Result<Spots, u8> {
    let mut spots = [0; 8];
    for (place, (&kind, &id)) in command.used_types().iter().zip(ids).enumerate() {
        if id == 0 {
            return Err(12);
        }
        if !command.is_new(place as u8) {
            match seats.thing(u64::MAX, id) {
                None => return Err(12),
                Some(thing) if thing.kind != kind => return Err(13),
                Some(thing) if thing.held => return Err(18),
                Some(_) => spots[place] = seats.seat_in(u64::MAX, id) as u8,
            }
        }
    }
    Ok(spots)
}

/// The things after all operations, and where the created ones sit too; or the first fault and its operation's place. An id that isn't there is 0, which
/// is above no highest id.
pub fn planned(
    seats: &Seats,
    command: &CommandValue,
    ids: &[u16],
    mut spots: Spots,
) -> Result<(Seats, Spots), (u8, u8)> {
    let mut after = seats.clone();
    for (place, &[code, _, row, _]) in command.used_operations().iter().enumerate() {
        let id = ids.get(usize::from(row)).copied().unwrap_or(0);
        let fault = |number| (number, place as u8);
        match code {
            3 => {
                let free = after.seat_in(u64::MAX, 0);
                // By the highest alone, also where a thing has an id above it.
                if id <= after.highest() {
                    return Err(fault(15));
                }
                if free == SEATS {
                    return Err(fault(16));
                }
                after.put_thing(free as u64, Seat::of(id, command.type_of(row)));
                let spot = spots.get_mut(usize::from(row));
                spot.into_iter().for_each(|spot| *spot = free as u8);
            }
            4 => {
                let spot = spots.get(usize::from(row)).copied().unwrap_or(0);
                // A thing that is already gone no longer sits there.
                if after.id_at(spot) != id {
                    return Err(fault(17));
                }
                after.put_thing(spot.into(), Seat::default());
            }
            _ => {}
        }
    }
    Ok((after, spots))
}
