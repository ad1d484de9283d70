//! Moves of all matrices that the other cases know, there and back; and 27 before all else, for schemes that no reading gives.

use std::collections::{BTreeMap, BTreeSet};

use super::backs::BACK;
use super::examples::{KEY_MATRIX, KEY_SCHEME};
use super::forwards::FORWARD;
use super::old_images::OLD_KEY;
use super::rooms::{Way, ENOUGH};
use super::{case, strangers, Case, Task};
use crate::matrix::{read_matrix, Matrix};
use crate::moving::write_old_matrix;
use crate::scheme::{read_scheme, write_scheme, Scheme};

/// `before` are the cases whose matrices are moved; what they move themselves isn't moved again.
pub fn cases(before: &[Case]) -> Vec<Case> {
    let mut cases = there_and_back(before);
    cases.extend(of_strangers());
    cases
}

// ---- there and back

/// What of a scheme a move depends on: n, m, the subject types.
type Head = (u8, u8, u16);

fn head(scheme: &Scheme) -> Head {
    (scheme.rights, scheme.types, scheme.subjects)
}

/// A scheme, and the new images of its matrices.
type Known = (Scheme, Vec<(Vec<u8>, Matrix)>);

/// Every new image that is read, by the scheme that was read last before it, and the first scheme of each head.
fn known(cases: &[Case]) -> Vec<Known> {
    let mut of_heads: BTreeMap<Head, Known> = BTreeMap::new();
    let mut scheme = None;
    for case in cases {
        match &case.task {
            Task::ReadScheme(bytes) => {
                scheme = read_scheme(bytes).ok().map(|(scheme, _)| scheme).or(scheme);
            }
            Task::ReadMatrix(bytes) => {
                let Some(scheme) = &scheme else { continue };
                let Ok(matrix) = read_matrix(bytes, scheme) else {
                    continue;
                };
                let first = || (scheme.clone(), Vec::new());
                let (_, images) = of_heads.entry(head(scheme)).or_insert_with(first);
                let image = (bytes.clone(), matrix);
                if !images.contains(&image) {
                    images.push(image);
                }
            }
            _ => {}
        }
    }
    of_heads.into_values().collect()
}

/// The images that cases move already, whatever the scheme.
fn moved_before(cases: &[Case]) -> BTreeSet<Vec<u8>> {
    let image = |case: &Case| match &case.task {
        Task::Forward { old, .. } => Some(old.clone()),
        Task::Back { new, .. } => Some(new.clone()),
        _ => None,
    };
    cases.iter().filter_map(image).collect()
}

/// Each image once, into just enough: the new one back, and the old one of the same matrix forward.
fn there_and_back(before: &[Case]) -> Vec<Case> {
    let mut moved = moved_before(before);
    let mut cases = Vec::new();
    for (number, (scheme, images)) in known(before).iter().enumerate() {
        let read = Task::ReadScheme(write_scheme(scheme));
        cases.push(case(format!("known-{number}-scheme"), read));
        for (place, (new, matrix)) in images.iter().enumerate() {
            let old = write_old_matrix(matrix, scheme);
            let label = format!("known-{number}-{place}");
            let (old_room, new_room) = (old.len() as u64, new.len() as u64);
            if moved.insert(new.clone()) {
                cases.push(BACK.case(&label, new, old_room));
            }
            if moved.insert(old.clone()) {
                cases.push(FORWARD.case(&label, &old, new_room));
            }
        }
    }
    cases
}

// ---- strangers

/// Strangers by their heads and by their commands, and neighbours of them that aren't.
const STRANGERS: &[&str] = &[
    "27-no-scheme",
    "27-rights-0",
    "27-rights-3",
    "27-rights-64",
    "27-rights-65",
    "27-types-0",
    "27-types-16",
    "27-types-17",
    "27-subjects-7",
    "27-subjects-11",
    "27-commands-0",
    "27-commands-1",
    "27-commands-32",
    "27-commands-33",
    "27-parameters-0",
    "27-tests-0",
    "27-tests-17",
    "27-operations-33",
    "27-behind-parameters-0",
    "27-behind-parameters-1",
    "27-behind-operations-code",
    "27-third-whole",
    "27-last-operation",
    "27-enter-right-3",
    "27-enter-right-4",
    "27-destroy-twice",
];

/// With these, reading's own numbers and 9 are shown to come later.
const BEFORE_ALL: &[&str] = &[
    "27-no-scheme",
    "27-rights-65",
    "27-commands-33",
    "27-tests-17",
    "27-destroy-twice",
];

/// Images that move with the key example's scheme; then such as can't be read, into no room.
fn of_strangers() -> Vec<Case> {
    let mut strangers = strangers::schemes();
    strangers.retain(|(label, _)| STRANGERS.contains(&&label[..]));
    assert_eq!(strangers.len(), STRANGERS.len(), "each is there");
    let mut cases = Vec::new();
    for (label, tasks) in strangers {
        let start = Task::ReadScheme(KEY_SCHEME.to_vec());
        let numbered = [start].into_iter().chain(tasks).enumerate();
        let made = |(number, task)| case(format!("{label}-moved-{number}"), task);
        cases.extend(numbered.map(made));
        let asked = |way: &Way, image: &[u8], room| way.case(&label, image, room);
        cases.push(asked(&FORWARD, &OLD_KEY, ENOUGH));
        cases.push(asked(&BACK, &KEY_MATRIX, ENOUGH));
        if BEFORE_ALL.contains(&&label[..]) {
            cases.push(asked(&FORWARD, &[2, 0, 7], 0));
            cases.push(asked(&BACK, &[4, 0, 3], 0));
        }
    }
    cases
}
