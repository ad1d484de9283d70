//! What a request does that both matrices of a pair carry out while entries are missing.

use super::Did;
use crate::incomplete::{entries_more, Entry, Named};
use crate::matrix::Matrix;
use crate::scheme::Scheme;

/// The poorer and the richer, before or after it.
type Two<'a> = (&'a Matrix, &'a Matrix);

/// Nothing where nothing is missing before it.
pub fn did(named: &Named, scheme: &Scheme, before: Two, after: Two) -> Vec<(Did, bool)> {
    let missing = entries_more(before.1, before.0);
    if missing.is_empty() {
        return Vec::new();
    }
    let (created, gone) = (only(after.0, before.0), only(before.0, after.0));
    let is_subject = |id: &u16| {
        after
            .0
            .type_of(*id)
            .is_some_and(|kind| scheme.is_subject_type(kind))
    };
    let mut did = tested(named, before);
    did.extend([
        (Did::CreatedSubject, created.iter().any(is_subject)),
        (Did::CreatedObject, !created.iter().all(is_subject)),
        (Did::CreatedSeveral, created.len() > 1),
        (
            Did::CreatedAndDestroyed,
            !created.is_empty() && !gone.is_empty(),
        ),
        (Did::NamedTwice, named.names_twice()),
        (Did::BesideHeld, !before.0.on_hold().is_empty()),
    ]);
    did.extend(destroyed(&missing, &gone));
    did.extend(entered(&named.entered(), &missing, &created, before));
    did.extend(deleted(&named.deleted(), &missing, before));
    did
}

/// The things that only the first has.
fn only(first: &Matrix, second: &Matrix) -> Vec<u16> {
    let things = first.things().keys().copied();
    things.filter(|&id| second.type_of(id).is_none()).collect()
}

fn tested(named: &Named, (poorer, richer): Two) -> Vec<(Did, bool)> {
    let tested = named.tested();
    let is_beside = |entry: &Entry| {
        let cell = |matrix: &Matrix| matrix.cell(entry.row, entry.column);
        cell(poorer) != cell(richer)
    };
    vec![
        (Did::NoTests, tested.is_empty()),
        (Did::TestedBeside, tested.iter().any(is_beside)),
    ]
}

fn destroyed(missing: &[Entry], gone: &[u16]) -> Vec<(Did, bool)> {
    let row = |id: &u16| missing.iter().any(|entry| entry.row == *id);
    let column = |id: &u16| missing.iter().any(|entry| entry.column == *id);
    let complete = |id: &u16| !row(id) && !column(id);
    vec![
        (Did::DestroyedComplete, gone.iter().any(complete)),
        (Did::DestroyedRow, gone.iter().any(row)),
        (Did::DestroyedColumn, gone.iter().any(column)),
        (
            Did::DestroyedLast,
            missing.iter().all(|entry| entry.is_of(gone)),
        ),
    ]
}

fn entered(
    entered: &[Entry],
    missing: &[Entry],
    created: &[u16],
    (poorer, richer): Two,
) -> Vec<(Did, bool)> {
    let is_new = |entry: &Entry| !entry.is_in(richer);
    let has = |entry: &Entry| entry.is_in(poorer);
    vec![
        (
            Did::EnteredMissing,
            entered.iter().any(|entry| missing.contains(entry)),
        ),
        (Did::EnteredNew, entered.iter().any(is_new)),
        (Did::EnteredBoth, entered.iter().any(has)),
        (
            Did::EnteredCreated,
            entered.iter().any(|entry| entry.is_of(created)),
        ),
        (
            Did::EnteredLast,
            missing.iter().all(|entry| entered.contains(entry)),
        ),
    ]
}

fn deleted(deleted: &[Entry], missing: &[Entry], (poorer, richer): Two) -> Vec<(Did, bool)> {
    let is_none = |entry: &Entry| !entry.is_in(richer);
    let has = |entry: &Entry| entry.is_in(poorer);
    vec![
        (
            Did::DeletedMissing,
            deleted.iter().any(|entry| missing.contains(entry)),
        ),
        (Did::DeletedNone, deleted.iter().any(is_none)),
        (Did::DeletedBoth, deleted.iter().any(has)),
        (
            Did::DeletedLast,
            missing.iter().all(|entry| deleted.contains(entry)),
        ),
    ]
}
