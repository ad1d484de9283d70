//! The program: each subcommand calls one part of the library, so that a script can compare it with the project's.

use std::fmt::Display;
use std::io::{ErrorKind, Write};
use std::path::Path;
use std::process::ExitCode;
use std::{env, fs};

use independent::convert::{convert_matrix, convert_scheme};
use independent::edges;
use independent::generate::case;
use independent::hold::mark;
use independent::matrix::{find_matrix, write_matrix, Matrix};
use independent::moving::{back, forward, Moving};
use independent::print::{bad, list_matrix, list_scheme, play};
use independent::refusal::{Found, Refusal};
use independent::scheme::{find_scheme, write_scheme, Scheme};
use independent::statistics::Statistics;

const EXPECTED: &str = "expected one of
  independent play FOLDER                  scheme.bin, matrix.bin, requests.bin; a missing file is empty input
  independent read-scheme FILE             `ok NEXT` and a listing, or `bad POSITION NUMBER`
  independent read-matrix SCHEME MATRIX    `ok NEXT` and a listing, or `bad POSITION NUMBER`
  independent convert SCHEME MATRIX OUT-SCHEME OUT-MATRIX
                                           `ok SCHEME-BYTES MATRIX-BYTES`, `bad POSITION NUMBER` or `refused NUMBER`
  independent hold SCHEME MATRIX ID OUT    `ok MATRIX-BYTES`, `bad POSITION NUMBER` or `refused NUMBER`
  independent release SCHEME MATRIX ID OUT the same
  independent forward SCHEME OLD NEW       `ok NEW-BYTES` or `bad POSITION NUMBER`
  independent back SCHEME NEW OLD          `ok OLD-BYTES`, `bad POSITION NUMBER` or `refused NUMBER`
  independent generate SEED COUNT FOLDER   a numbered folder for each case
  independent statistics SEED COUNT        how often each refusal comes up, each test that stops a request, each number of steps, what the highest
                                           id decides, and each way to stand to a mark and to a move
  independent edges stdin                  the cases of the project's program `edges`, as bytes
  independent edges stdout                 what that program must print
where SEED and COUNT are numbers from 0 to 18446744073709551615, and ID is one from 0 to 65535";

fn main() -> ExitCode {
    let arguments: Vec<String> = env::args().skip(1).collect();
    let arguments: Vec<&str> = arguments.iter().map(String::as_str).collect();
    let answer = match arguments[..] {
        ["play", folder] => run_play(Path::new(folder)),
        ["read-scheme", file] => run_read_scheme(file),
        ["read-matrix", scheme, matrix] => run_read_matrix(scheme, matrix),
        ["convert", scheme, matrix, out_scheme, out_matrix] => {
            run_convert(scheme, matrix, out_scheme, out_matrix)
        }
        [tool @ ("hold" | "release"), scheme, matrix, id, out] => match id.parse() {
            Ok(id) => run_mark(scheme, matrix, (id, tool == "hold"), out),
            Err(_) => return wrong_call("ID must be a number"),
        },
        ["forward", scheme, old, new] => run_move(scheme, old, forward, new),
        ["back", scheme, new, old] => run_move(scheme, new, back, old),
        ["generate", seed, count, folder] => match (seed.parse(), count.parse()) {
            (Ok(seed), Ok(count)) => run_generate(seed, count, Path::new(folder)),
            _ => return wrong_call("SEED and COUNT must be numbers"),
        },
        ["statistics", seed, count] => match (seed.parse(), count.parse()) {
            (Ok(seed), Ok(count)) => Ok(Statistics::of(seed, count).to_string()),
            _ => return wrong_call("SEED and COUNT must be numbers"),
        },
        ["edges", "stdin"] => return put(&edges::stdin()),
        ["edges", "stdout"] => Ok(edges::stdout()),
        [] => return wrong_call("no subcommand"),
        _ => return wrong_call(&format!("this isn't a call: {}", arguments.join(" "))),
    };
    match answer {
        Ok(text) => put(text.as_bytes()),
        Err(message) => {
            eprintln!("{message}");
            ExitCode::FAILURE
        }
    }
}

fn put(bytes: &[u8]) -> ExitCode {
    // A reader that stops early, as `head` does, is no failure.
    let _ = std::io::stdout().write_all(bytes);
    ExitCode::SUCCESS
}

fn wrong_call(what: &str) -> ExitCode {
    eprintln!("{what}\n{EXPECTED}");
    ExitCode::from(2)
}

fn run_play(folder: &Path) -> Result<String, String> {
    let read = |name: &str| match fs::read(folder.join(name)) {
        Err(error) if error.kind() == ErrorKind::NotFound => Ok(Vec::new()),
        answer => answer.map_err(|error| at(folder.join(name).display(), error)),
    };
    Ok(play(
        &read("scheme.bin")?,
        &read("matrix.bin")?,
        &read("requests.bin")?,
    ))
}

fn run_read_scheme(file: &str) -> Result<String, String> {
    Ok(match find_scheme(&read(file)?) {
        Ok((scheme, next)) => format!("ok {next}\n{}", list_scheme(&scheme)),
        Err(found) => tell(found),
    })
}

fn run_read_matrix(scheme: &str, matrix: &str) -> Result<String, String> {
    Ok(match read_both(scheme, matrix)? {
        Ok((_, matrix, next)) => format!("ok {next}\n{}", list_matrix(&matrix)),
        Err(found) => tell(found),
    })
}

fn run_convert(
    scheme: &str,
    matrix: &str,
    out_scheme: &str,
    out_matrix: &str,
) -> Result<String, String> {
    let (scheme, matrix) = match read_both(scheme, matrix)? {
        Ok((scheme, matrix, _)) => (scheme, matrix),
        Err(found) => return Ok(tell(found)),
    };
    match (convert_scheme(&scheme), convert_matrix(&matrix, &scheme)) {
        (Ok(scheme), Ok(matrix)) => {
            let (scheme, matrix) = (write_scheme(&scheme), write_matrix(&matrix, &scheme));
            write(out_scheme, &scheme)?;
            write(out_matrix, &matrix)?;
            Ok(format!("ok {} {}\n", scheme.len(), matrix.len()))
        }
        (Err(number), _) | (_, Err(number)) => Ok(format!("refused {number}\n")),
    }
}

/// The id is to be held (true) or released.
fn run_mark(
    scheme: &str,
    matrix: &str,
    (id, held): (u16, bool),
    out: &str,
) -> Result<String, String> {
    let (scheme, matrix) = match read_both(scheme, matrix)? {
        Ok((scheme, matrix, _)) => (scheme, matrix),
        Err(found) => return Ok(tell(found)),
    };
    match mark(&matrix, id, held) {
        Ok(marked) => {
            let bytes = write_matrix(&marked, &scheme);
            write(out, &bytes)?;
            Ok(format!("ok {}\n", bytes.len()))
        }
        Err(refusal) => Ok(format!("refused {}\n", refusal.number)),
    }
}

fn run_move(scheme: &str, image: &str, moving: Moving, out: &str) -> Result<String, String> {
    let (scheme, image) = (read(scheme)?, read(image)?);
    let scheme = match find_scheme(&scheme) {
        Ok((scheme, _)) => scheme,
        Err(found) => return Ok(tell(found)),
    };
    match moving(&scheme, &image) {
        Ok(moved) => {
            write(out, &moved)?;
            Ok(format!("ok {}\n", moved.len()))
        }
        // Not a fault of the image's bytes.
        Err(Refusal { number: 23, .. }) => Ok("refused 23\n".to_string()),
        Err(refusal) => Ok(bad(refusal)),
    }
}

fn run_generate(seed: u64, count: u64, folder: &Path) -> Result<String, String> {
    for number in 0..count {
        let case = case(seed, number);
        let folder = folder.join(format!("{number:06}"));
        fs::create_dir_all(&folder).map_err(|error| at(folder.display(), error))?;
        write(folder.join("scheme.bin"), &case.scheme)?;
        write(folder.join("matrix.bin"), &case.matrix)?;
        write(folder.join("requests.bin"), &case.requests)?;
        write(folder.join("old.bin"), &case.old)?;
        write(folder.join("new.bin"), &case.new)?;
        let mut direct = String::new();
        for (command, ids) in &case.direct {
            let ids: String = ids.iter().map(|id| format!(" {id}")).collect();
            direct += &format!("{command}{ids}\n");
        }
        write(folder.join("direct.txt"), direct.as_bytes())?;
        let words = |&(id, held): &(u16, bool)| match held {
            true => format!("hold {id}\n"),
            false => format!("release {id}\n"),
        };
        let marks: String = case.marks.iter().map(words).collect();
        write(folder.join("marks.txt"), marks.as_bytes())?;
        for (name, room) in [("room.txt", case.room), ("moved-room.txt", case.moved_room)] {
            write(folder.join(name), format!("{room}\n").as_bytes())?;
        }
    }
    Ok(format!("{count} cases\n"))
}

type Both = Result<(Scheme, Matrix, usize), Found>;

/// A scheme and a matrix of it, and where the matrix ends.
fn read_both(scheme: &str, matrix: &str) -> Result<Both, String> {
    let (scheme, matrix) = (read(scheme)?, read(matrix)?);
    Ok(find_scheme(&scheme)
        .and_then(|(scheme, _)| Ok((find_matrix(&matrix, &scheme)?, scheme)))
        .map(|(content, scheme)| (scheme, content, matrix.len())))
}

/// The answer goes to the output, the fault in words beside it for people.
fn tell(found: Found) -> String {
    eprintln!("{}", found.fault.words());
    bad(found.into())
}

fn read(file: &str) -> Result<Vec<u8>, String> {
    fs::read(file).map_err(|error| at(file, error))
}

fn write(file: impl AsRef<Path>, bytes: &[u8]) -> Result<(), String> {
    fs::write(&file, bytes).map_err(|error| at(file.as_ref().display(), error))
}

fn at(file: impl Display, error: std::io::Error) -> String {
    format!("{file}: {error}")
}
