//! The generator reaches every refusal number, each fault by name, each test's place, each number of steps, all that the highest id decides and each way
//! to stand to a mark and to a move; a seed gives the same cases always.

use std::collections::BTreeSet;

use independent::answer::MOST_STEPS;
use independent::generate::{case, random::Random, schemes};
use independent::print::MOST_INPUT;
use independent::refusal::Fault;
use independent::request::find_request;
use independent::scheme::{find_scheme, Operation, Scheme, MOST_TESTS};
use independent::statistics::{Asked, Met, Moved, Stands, Statistics, Stood};

const SEED: u64 = 1;
const COUNT: u64 = 10_000;

#[test]
fn every_number_and_every_fault_is_reached() {
    let statistics = Statistics::of(SEED, COUNT);
    let reached = |numbers: &[u8], asked: Asked| {
        for &number in numbers {
            assert!(
                statistics.count(number, asked) > 0,
                "{number} of {asked:?}\n{statistics}"
            );
        }
    };
    reached(&[0, 1, 2, 3, 4, 5, 6, 8], Asked::Scheme);
    reached(&[0, 1, 2, 3, 4, 5, 6, 7], Asked::Matrix);
    reached(&[0, 1, 2, 3, 4], Asked::RequestRecord);
    reached(&[0, 10, 11, 12, 13, 14, 15, 16, 17, 18], Asked::Request);
    reached(&[0, 9, 20, 21, 22], Asked::Conversion);
    reached(&[0, 9, 12], Asked::Marking);
    reached(&[0, 4, 9], Asked::Writing);
    reached(&[0, 1, 2, 3, 4, 5, 6, 7, 9], Asked::Forward);
    reached(&[0, 1, 2, 3, 4, 5, 6, 7, 9, 23], Asked::Back);
    for &fault in Fault::ALL {
        assert!(
            statistics.fault(fault) > 0,
            "{}\n{statistics}",
            fault.words()
        );
    }
    requests_end_everywhere(&statistics);
    for &met in Met::ALL {
        let count = statistics.highest.count(met);
        assert!(count > 0, "{}\n{statistics}", met.words());
    }
    for &stood in Stood::ALL {
        let count = statistics.held.count(stood);
        assert!(count > 0, "{}\n{statistics}", stood.words());
    }
    images_stand_every_way(&statistics);
    assert_few_are_on_hold(&statistics);
}

/// To a move; and no way is met that has no words.
fn images_stand_every_way(statistics: &Statistics) {
    for moved in Moved::all() {
        let count = statistics.moves.count(moved);
        assert!(count > 0, "{}\n{statistics}", moved.words());
    }
    assert_eq!(statistics.moves.met(), Moved::all().into_iter().collect());
}

/// Each way has words of its own, by which a comparison tells it from the others.
#[test]
fn ways_to_stand_to_a_move_differ() {
    let all = Moved::all();
    let words: BTreeSet<String> = all.iter().map(|moved| moved.words()).collect();
    assert_eq!((words.len(), all.len()), (171, 171));
}

/// Where too many requests name a thing on hold the other numbers are hardly met.
fn assert_few_are_on_hold(statistics: &Statistics) {
    let requests = |number| statistics.count(number, Asked::Request);
    let all: u64 = (0..=18).map(requests).sum();
    assert!(requests(18) * 8 < all, "{statistics}");
    assert!(requests(0) * 5 > all, "{statistics}");
}

/// Kind 8 stands as a scheme's head and as a command, as a list's first record and as a later one.
#[test]
fn kind_8_stands_in_schemes_and_lists() {
    let mut stood = [0; 4];
    for number in 0..COUNT {
        let case = case(SEED, number);
        let refused = |bytes: &[u8], at: usize| bytes.get(at + 2..at + 4) == Some(&[8, 0]);
        if let Err(found) = find_scheme(&case.scheme) {
            if found.fault == Fault::Kind && refused(&case.scheme, found.at) {
                stood[usize::from(found.at > 0)] += 1;
            }
        }
        let mut at = 0;
        let found = loop {
            match find_request(&case.requests, at) {
                Ok(Some((_, next))) => at = next,
                other => break other,
            }
        };
        if found.is_err_and(|found| found.fault == Fault::Kind) && refused(&case.requests, at) {
            stood[2 + usize::from(at > 0)] += 1;
        }
    }
    assert!(stood.iter().all(|&count| count > 10), "{stood:?}");
}

/// At each test, after each number of steps and no other, and at each operation that can be faulty, behind tests and behind none.
fn requests_end_everywhere(statistics: &Statistics) {
    let answers = &statistics.answers;
    for test in 0..MOST_TESTS {
        assert!(answers.stopped_by(test) > 0, "test {test}\n{statistics}");
    }
    for steps in 0..=MOST_STEPS {
        assert!(answers.took(steps) > 0, "{steps} steps\n{statistics}");
    }
    let counted: u64 = (0..=MOST_STEPS).map(|steps| answers.took(steps)).sum();
    let numbers = statistics.numbers.iter();
    let requests = numbers.filter(|((_, asked), _)| *asked == Asked::Request);
    assert_eq!(counted, requests.map(|(_, count)| count).sum());

    for number in 15..=17 {
        for stands in [Stands::First, Stands::Between, Stands::Last] {
            // Before the first operation nothing is gone.
            let can_be = (number, stands) != (17, Stands::First);
            for has_tests in [false, true] {
                let is_met = answers.faulty(number, stands, has_tests) > 0;
                assert_eq!(is_met, can_be, "{number} {stands:?}\n{statistics}");
            }
        }
    }
}

#[test]
fn a_case_has_one_to_four_marks() {
    let counts = (0..1_000).map(|number| case(SEED, number).marks.len());
    assert_eq!(
        counts.collect::<BTreeSet<usize>>(),
        BTreeSet::from([1, 2, 3, 4])
    );
}

#[test]
fn a_seed_and_a_number_give_one_case() {
    for number in 0..50 {
        assert_eq!(case(SEED, number), case(SEED, number));
        assert_ne!(case(SEED, number), case(SEED + 1, number));
        assert_ne!(case(SEED, number), case(SEED, number + 1));
    }
}

#[test]
fn every_limit_is_reached() {
    let schemes: Vec<Scheme> = (0..2_000)
        .map(|number| schemes::scheme(&mut Random::new(SEED, number)))
        .collect();
    let commands = || schemes.iter().flat_map(|scheme| &scheme.commands);
    let some = |holds: bool| assert!(holds);
    for n in [1, 32, 33, 64] {
        some(schemes.iter().any(|scheme| scheme.rights == n));
    }
    some(
        schemes.iter().any(|scheme| scheme.types == 1)
            && schemes.iter().any(|scheme| scheme.types == 16),
    );
    some(schemes.iter().any(|scheme| scheme.subjects == 0));
    some(schemes.iter().any(|scheme| scheme.commands.len() == 1));
    some(schemes.iter().any(|scheme| scheme.commands.len() == 32));
    for k in [1, 8] {
        some(commands().any(|command| command.parameters.len() == k));
    }
    for tests in [0, 16] {
        some(commands().any(|command| command.tests.len() == tests));
    }
    for operations in [1, 16, 17, 32] {
        some(commands().any(|command| command.operations.len() == operations));
    }
    // A parameter that one command both creates and destroys, and eight creates at once.
    some(commands().any(|command| {
        (0..8).any(|parameter| {
            command.is_new(parameter)
                && command
                    .operations
                    .contains(&Operation::Destroy { parameter })
        })
    }));
    some(commands().any(|command| (0..8).all(|parameter| command.is_new(parameter))));
    some((0..1_000).any(|number| case(SEED, number).requests.len() > MOST_INPUT));
}
