//! The list of a pair: requests that the poorer carries out, then the refusal that it is drawn for, then some that show what can come behind that.

use super::aimed::{aimed, Aim};
use super::making::{drawn, Making, FEW, MANY};
use super::plan::{Ending, Lacking, Plan};
use super::spoiled::spoiled;
use crate::generate::random::Random;
use crate::incomplete::{entries_more, Entry, Named};
use crate::matrix::{Matrix, MOST_THINGS};
use crate::request::Request;
use crate::scheme::Scheme;

pub fn list(
    random: &mut Random,
    scheme: &Scheme,
    plan: &Plan,
    (poorer, richer): (&Matrix, &Matrix),
) -> Vec<Request> {
    let mut making = Making::of(scheme, poorer, richer);
    let missing = making.missing();
    lead(&mut making, random, plan, &missing);
    if plan.ending != Ending::NoRefusal {
        end(&mut making, random, plan);
        if plan.lacking == Lacking::Tested {
            making.seek(random, MANY, aim(Aim::Test, &missing), |_, richer| {
                matches!(richer, 0 | 14..=17)
            });
        }
        behind(&mut making, random, plan.is_full);
    }
    making.requests
}

// ---- what is wanted of the two numbers

fn carried_out(poorer: u8, _: u8) -> bool {
    poorer == 0
}

fn parted(poorer: u8, richer: u8) -> bool {
    poorer == 0 && richer != 0
}

fn are(wanted: (u8, u8)) -> impl Fn(u8, u8) -> bool {
    move |poorer, richer| (poorer, richer) == wanted
}

/// Candidates that do this with one of these entries.
fn aim<'a>(
    aim: Aim,
    entries: &'a [Entry],
) -> impl Fn(&Making, &mut Random) -> Option<Request> + 'a {
    move |making, random| {
        let request = making.drawn(random)?;
        aimed(random, aim, request, (making.scheme, entries))
    }
}

// ---- up to the first refusal

/// Among them such as do something with what is missing at first, where it was left out for that.
fn lead(making: &mut Making, random: &mut Random, plan: &Plan, missing: &[Entry]) {
    // What is entered before it is tested makes no refusal.
    let makes_up = plan.lacking == Lacking::Tested && plan.ending == Ending::NoRefusal;
    if makes_up {
        making.seek(random, MANY, aim(Aim::Enter, missing), carried_out);
    }
    let count = *random.pick(&[0, 1, 2, 3, 5, 8, 12, 16]);
    for place in 0..count {
        if place == count / 2 && plan.lacking == Lacking::OfDestroyed {
            making.seek(random, MANY, aim(Aim::Destroy, missing), carried_out);
        }
        // Where nothing is promised, rather one that the richer refuses.
        if !(plan.tests_absence && making.seek(random, FEW, Making::drawn, parted)) {
            making.seek(random, FEW, Making::drawn, carried_out);
        }
    }
    if makes_up {
        making.seek(random, MANY, aim(Aim::Test, missing), carried_out);
    }
}

/// The refusal that the list is drawn for, if one is found.
fn end(making: &mut Making, random: &mut Random, plan: &Plan) {
    if plan.is_full {
        fill_up(making, random, plan.ending);
    }
    match plan.ending {
        Ending::NoRefusal => {}
        Ending::Alone => {
            if !(random.chance(1, 2) && part(making, random, plan.is_full)) {
                let missing = making.missing();
                making.seek(random, MANY, aim(Aim::Test, &missing), are((14, 0)));
            }
        }
        Ending::Both => {
            // What stops the poorer alone may be a test before the one that stops both.
            let missing = making.missing();
            if !making.seek(random, FEW, aim(Aim::Test, &missing), are((14, 14))) {
                making.seek(random, MANY, Making::drawn, are((14, 14)));
            }
        }
        Ending::Same(number) => {
            let candidate = |making: &Making, random: &mut Random| {
                let request = making.drawn(random)?;
                let (scheme, matrix) = (making.scheme, &making.poorer.matrix);
                spoiled(random, number, request, (scheme, matrix))
            };
            // Where the poorer lacks what a test asks for, the richer may be refused by an operation all the same.
            let poorer = match number {
                15..=17 if random.chance(1, 6) => 14,
                _ => number,
            };
            making.seek(random, MANY, candidate, are((poorer, number)));
        }
    }
}

/// Creates until there are 48 things, or nearly; until there is room for one where the richer is to create it alone.
fn fill_up(making: &mut Making, random: &mut Random, ending: Ending) {
    let most = MOST_THINGS - usize::from(ending == Ending::Alone);
    let left = most.saturating_sub(making.poorer.matrix.things().len());
    for _ in 0..left.min(8) {
        let candidate = |making: &Making, random: &mut Random| {
            let request = making.drawn(random)?;
            let creates = !Named::of(making.scheme, &request).created().is_empty();
            creates.then_some(request)
        };
        making.seek(random, MANY, candidate, carried_out);
    }
}

/// One that the richer carries out alone, by which it then has less: an entry that both had, or room for a thing. Whether there is one.
fn part(making: &mut Making, random: &mut Random, is_full: bool) -> bool {
    let missing = making.missing();
    let candidate = |making: &Making, random: &mut Random| {
        let request = aim(Aim::Test, &missing)(making, random)?;
        let named = Named::of(making.scheme, &request);
        let is_shared = |entry: &Entry| entry.is_in(&making.poorer.matrix);
        let parts = match is_full {
            true => !named.created().is_empty(),
            false => named.deleted().iter().any(is_shared),
        };
        (parts && named.destroyed().is_empty()).then_some(request)
    };
    making.seek(random, MANY, candidate, are((14, 0)))
}

// ---- behind the first refusal

/// Mostly such as the poorer carries out and the richer refuses.
fn behind(making: &mut Making, random: &mut Random, is_full: bool) {
    if random.chance(1, 2) {
        part(making, random, is_full);
    }
    // A test that stops only the richer is of what only the poorer has, in a cell that both have.
    let mut more = entries_more(&making.poorer.matrix, &making.richer.matrix);
    more.retain(|entry| {
        let cell = making.richer.matrix.cell(entry.row, entry.column);
        cell.is_some()
    });
    making.seek(random, MANY, aim(Aim::Test, &more), are((0, 14)));
    let either = |making: &Making, random: &mut Random| {
        let side = *random.pick(&[&making.poorer, &making.poorer, &making.richer]);
        drawn(random, making.scheme, &side.matrix)
    };
    for _ in 0..random.below(8) {
        let rather = *random.pick(&[12, 15, 16]);
        let is_found = match random.below(4) {
            0 => false,
            1 => making.seek(random, FEW, either, parted),
            _ => making.seek(random, MANY / 2, either, are((0, rather))),
        };
        if !is_found {
            making.seek(random, 1, either, |_, _| true);
        }
    }
}
