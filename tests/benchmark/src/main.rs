//! Prints the table. Each line is measured in the same process for both, in turns, and the best of all rounds counts.

mod library;
mod loads;
mod table;
mod theirs;

use independent::answer::Answer;
use independent::engine::Dense;
use independent::request::write_request;

use loads::Load;
use table::Table;

fn main() {
    let heading: Vec<String> = std::env::args().skip(1).collect();
    let [heading] = &heading[..] else {
        eprintln!("expected: benchmark HEADING, which tests/benchmark/run does: it says what the library was compiled for");
        std::process::exit(2);
    };
    println!("library: {heading}");
    println!("independent: tests/independent, requests by engine::Dense; its readers and writers allocate");
    println!(
        "best of {} rounds in turns, one process; buffers are lent as the call before left them, not cleared",
        table::ROUNDS
    );
    print_requests();
    print_calls();
}

fn print_requests() {
    let mut table = Table::new("ns a request, in a list of 7,000");
    for (name, load) in [
        ("(a) the key example's seven requests", loads::key_list()),
        (
            "(b) 8 parameters, 16 tests, 48 subjects",
            loads::full_list(),
        ),
        (
            "(c) a create and a destroy at 47 things",
            loads::turning_list(),
        ),
    ] {
        list(&mut table, name, &load);
    }
    table.print();
}

fn print_calls() {
    let mut table = Table::new("µs a call, on the bytes");
    let (key, largest) = (loads::key_list(), loads::largest());
    let convertible = loads::largest_convertible();
    check(&mut table, "the key scheme", "the key matrix", &key);
    check(
        &mut table,
        "the largest scheme",
        "the largest matrix",
        &largest,
    );
    convert(&mut table, "the key scheme", "the key matrix", &key);
    convert(
        &mut table,
        "the largest scheme",
        "the largest matrix",
        &convertible,
    );
    one_request(&mut table, "the key matrix", &key);
    one_request(&mut table, "the largest matrix", &largest);
    hold(&mut table, "the largest matrix", &largest);
    moves(&mut table, "the largest matrix", &largest);
    write(&mut table);
    table.print();
}

/// A run of the list less a run of an empty one: what the requests themselves take.
fn list(table: &mut Table, name: &str, load: &Load) {
    let (mut ours, mut theirs) = (library::Buffers::new(), vec![0; Answer::BYTES * load.count]);
    let start = Dense::from_matrix(&load.matrix);
    let run = |theirs: &mut [u8]| {
        let mut dense = start.clone();
        theirs::run_list(&load.scheme, &mut dense, &load.requests, theirs)
    };
    assert_eq!(ours.run(load, &load.requests), load.count);
    assert_eq!(run(&mut theirs), load.count);
    assert_eq!(
        ours.answers[..theirs.len()],
        theirs,
        "{name}: the answers differ"
    );

    let per = 1e9 / load.count as f64;
    let empty = table::alone(&mut || {
        ours.run(load, &[]);
    });
    let (with, theirs) = table::in_turns(
        &mut || {
            ours.run(load, &load.requests);
        },
        &mut || {
            run(&mut theirs);
        },
    );
    table.line(name, (with - empty) * per, theirs * per);
}

fn check(table: &mut Table, scheme: &str, matrix: &str, load: &Load) {
    let (s, m) = (&load.scheme_bytes, &load.matrix_bytes);
    assert_eq!(slushferret::check_scheme(s), Ok(s.len()));
    assert_eq!(slushferret::check_matrix(s, m), Ok(m.len()));
    table.calls(
        &format!("check {scheme}, {} bytes", s.len()),
        &mut || slushferret::check_scheme(s),
        &mut || theirs::scheme(s),
    );
    table.calls(
        &format!("check {matrix} with its scheme, {} bytes", m.len()),
        &mut || slushferret::check_matrix(s, m),
        &mut || theirs::matrix(s, m),
    );
}

fn convert(table: &mut Table, scheme: &str, matrix: &str, load: &Load) {
    let (s, m) = (&load.scheme_bytes, &load.matrix_bytes);
    let mut out = vec![0; slushferret::MATRIX_BYTES];
    let wanted = theirs::convert_scheme(s);
    assert_eq!(slushferret::convert_scheme(s, &mut out), Ok(wanted.len()));
    assert_eq!(out[..wanted.len()], wanted, "the converted schemes differ");
    let wanted = theirs::convert_matrix(s, m);
    assert_eq!(
        slushferret::convert_matrix(s, m, &mut out),
        Ok(wanted.len())
    );
    assert_eq!(out[..wanted.len()], wanted, "the converted matrices differ");
    table.calls(
        &format!("convert {scheme}, {} bytes", s.len()),
        &mut || slushferret::convert_scheme(s, &mut out),
        &mut || theirs::convert_scheme(s),
    );
    table.calls(
        &format!("convert {matrix}, {} bytes", m.len()),
        &mut || slushferret::convert_matrix(s, m, &mut out),
        &mut || theirs::convert_matrix(s, m),
    );
}

/// Scheme, matrix and one request read and checked, the request carried out, the matrix written.
fn one_request(table: &mut Table, matrix: &str, load: &Load) {
    let (s, m) = (&load.scheme_bytes, &load.matrix_bytes);
    let request = load.first_request();
    let mut ours = library::Buffers::new();
    let (answer, wanted) = theirs::one_request(s, m, request);
    assert_eq!(ours.run(load, request), 1);
    assert_eq!(ours.answers[..answer.len()], answer, "the answers differ");
    assert_eq!(ours.out[..wanted.len()], wanted, "the matrices differ");
    table.calls(
        &format!("run one request on {matrix}"),
        &mut || ours.run(load, request),
        &mut || theirs::one_request(s, m, request),
    );
}

/// Scheme and matrix read and checked, the thing in the middle put on hold, the matrix written.
fn hold(table: &mut Table, matrix: &str, load: &Load) {
    let (s, m) = (&load.scheme_bytes, &load.matrix_bytes);
    let id = load.middle_thing();
    let mut out = vec![0; slushferret::MATRIX_BYTES];
    let wanted = theirs::hold(s, m, id);
    assert_ne!(wanted, *m, "the thing isn't on hold before");
    assert_eq!(slushferret::hold(s, m, id, &mut out), Ok(wanted.len()));
    assert_eq!(out[..wanted.len()], wanted, "the matrices differ");
    table.calls(
        &format!("hold a thing of {matrix}, {} bytes", m.len()),
        &mut || slushferret::hold(s, m, id, &mut out),
        &mut || theirs::hold(s, m, id),
    );
}

/// Scheme and image read and checked, the other image written.
fn moves(table: &mut Table, matrix: &str, load: &Load) {
    let (s, new) = (&load.scheme_bytes, &load.matrix_bytes);
    let mut out = vec![0; slushferret::MATRIX_BYTES];
    let old = theirs::back(s, new);
    assert_eq!(slushferret::back(s, new, &mut out), Ok(old.len()));
    assert_eq!(out[..old.len()], old, "the old images differ");
    assert_eq!(slushferret::forward(s, &old, &mut out), Ok(new.len()));
    assert_eq!(out[..new.len()], new[..], "the new images differ");
    assert_eq!(theirs::forward(s, &old), *new, "there and back");
    table.calls(
        &format!("move {matrix} forward, {} bytes", old.len()),
        &mut || slushferret::forward(s, &old, &mut out),
        &mut || theirs::forward(s, &old),
    );
    table.calls(
        &format!("move {matrix} back, {} bytes", new.len()),
        &mut || slushferret::back(s, new, &mut out),
        &mut || theirs::back(s, new),
    );
}

fn write(table: &mut Table) {
    let ids = [1, 2, 3, 4, 5, 6, 7, 8];
    let mut out = [0; slushferret::REQUEST_BYTES];
    assert_eq!(slushferret::write_request(3, &ids, &mut out, 0), Ok(22));
    assert_eq!(out[..], write_request(3, &ids).expect("at most 8 ids"));
    table.calls(
        "write a request of 8 ids",
        &mut || slushferret::write_request(3, &ids, &mut out, 0),
        &mut || write_request(3, &ids),
    );
}
