//! What a tool of the one program does in a folder: its status, what it prints and tells, and the files afterwards.

use std::collections::BTreeMap;

use crate::convert::{check, convert_matrix, convert_scheme};
use crate::hold::mark;
use crate::matrix::{read_matrix, write_matrix, Matrix};
use crate::moving::{back, forward, Moving};
use crate::print::{answers, Columns, MOST_INPUT};
use crate::refusal::Refusal;
use crate::scheme::{read_scheme, write_scheme, Scheme};

/// The files of a folder by their names.
pub type Folder = BTreeMap<String, Vec<u8>>;

#[derive(Clone, Debug, PartialEq, Eq)]
pub struct Ended {
    pub status: u8,
    /// All of standard output.
    pub said: String,
    /// How each line of standard error begins; of a wrong use that isn't fixed.
    pub told: Vec<String>,
}

/// A use of a tool that isn't wrong, with its files.
enum Use<'a> {
    Check(&'a [&'a str]),
    Run(&'a [&'a str]),
    Convert(&'a [&'a str]),
    /// The files without the id between them; hold for true, release for false.
    Mark([&'a str; 3], u16, bool),
    Move(&'a [&'a str], Moving),
}

/// Starts the program with these words, the tool's name first.
pub fn start(words: &[&str], folder: &mut Folder) -> Ended {
    let mut ended = Ended {
        status: 2,
        said: String::new(),
        told: Vec::new(),
    };
    let Some(asked) = understood(words) else {
        return ended;
    };
    let mut tool = AtWork {
        folder,
        said: &mut ended.said,
        told: &mut ended.told,
    };
    let done = match asked {
        Use::Check(files) => tool.check(files),
        Use::Run(files) => tool.run(files),
        Use::Convert(files) => tool.convert(files),
        Use::Mark(files, id, held) => tool.mark(files, id, held),
        Use::Move(files, moving) => tool.move_image(files, moving),
    };
    ended.status = if done.is_some() { 0 } else { 1 };
    ended
}

/// Nothing for a wrong use.
fn understood<'a>(words: &'a [&'a str]) -> Option<Use<'a>> {
    let (&tool, rest) = words.split_first()?;
    let (asked, clashes) = match (tool, rest) {
        ("check", [_] | [_, _]) => (Use::Check(rest), false),
        ("run", [_, _, _, _]) => (Use::Run(rest), clash(rest, 1)),
        ("convert", [_, _, _, _]) => (Use::Convert(rest), clash(rest, 2)),
        ("hold" | "release", &[scheme, matrix, id, out]) => {
            let files = [scheme, matrix, out];
            let asked = Use::Mark(files, id_in(id.as_bytes())?, tool == "hold");
            (asked, clash(&files, 1))
        }
        ("forward", [_, _, _]) => (Use::Move(rest, forward), clash(rest, 1)),
        ("back", [_, _, _]) => (Use::Move(rest, back), clash(rest, 1)),
        _ => return None,
    };
    Some(asked).filter(|_| !clashes)
}

/// The id that one to five digits stand for, zeros in front too; nothing for another word. What no id can be is 0, which no thing has either.
pub fn id_in(word: &[u8]) -> Option<u16> {
    let is_number = (1..=5).contains(&word.len()) && word.iter().all(u8::is_ascii_digit);
    let digits = std::str::from_utf8(word).ok().filter(|_| is_number)?;
    Some(digits.parse().unwrap_or(0))
}

/// Two outputs of one name, or a file named as an output with `.new` behind it. Outputs are the last files.
fn clash(files: &[&str], outputs: usize) -> bool {
    let outputs = &files[files.len() - outputs..];
    let is_new = |file: &str| outputs.iter().any(|output| format!("{output}.new") == file);
    let is_twice = |file: &&str| outputs.iter().filter(|output| *output == file).count() > 1;
    files.iter().any(|file| is_new(file)) || outputs.iter().any(is_twice)
}

struct AtWork<'a> {
    folder: &'a mut Folder,
    said: &'a mut String,
    told: &'a mut Vec<String>,
}

/// Each part gives nothing where the tool ends with status 1.
impl AtWork<'_> {
    fn check(&mut self, files: &[&str]) -> Option<()> {
        let scheme = self.load(files[0])?;
        let matrix = match files.get(1) {
            Some(file) => Some((file, self.load(file)?)),
            None => None,
        };
        let (scheme, _) = self.read(files[0], read_scheme(&scheme), "")?;
        *self.said += &format!(
            "{}: a scheme of {} rights, {} types, {} commands\n",
            files[0],
            scheme.rights,
            scheme.types,
            scheme.commands.len()
        );
        let Some((file, matrix)) = matrix else {
            return Some(());
        };
        let matrix = self.read(file, read_matrix(&matrix, &scheme), "")?;
        *self.said += &format!(
            "{file}: a matrix of {} things, {} cells, {} entries\n",
            matrix.things().len(),
            matrix.nonempty_cells(),
            matrix.entries()
        );
        Some(())
    }

    fn run(&mut self, files: &[&str]) -> Option<()> {
        let (scheme, matrix) = (self.load(files[0])?, self.load(files[1])?);
        let requests = self.load(files[2])?;
        let (scheme, mut matrix) = self.read_both(files, &scheme, &matrix)?;
        let (text, is_bad) = answers(&scheme, &mut matrix, &requests, Columns::UpToSteps);
        *self.said += &text;
        self.write(files[3], write_matrix(&matrix, &scheme));
        if is_bad {
            None
        } else {
            Some(())
        }
    }

    fn convert(&mut self, files: &[&str]) -> Option<()> {
        let (scheme, matrix) = (self.load(files[0])?, self.load(files[1])?);
        let (scheme, matrix) = self.read_both(files, &scheme, &matrix)?;
        let fault = Refusal {
            number: check(&scheme),
            at: 0,
        };
        let converted = convert_scheme(&scheme).map_err(|_| fault);
        let converted = self.read(files[0], converted, "; nothing was written")?;
        let matrix = convert_matrix(&matrix, &scheme).expect("its scheme converts");
        self.write(files[2], write_scheme(&converted));
        self.write(files[3], write_matrix(&matrix, &converted));
        Some(())
    }

    fn mark(&mut self, files: [&str; 3], id: u16, held: bool) -> Option<()> {
        let (scheme, matrix) = (self.load(files[0])?, self.load(files[1])?);
        let (scheme, matrix) = self.read_both(&files, &scheme, &matrix)?;
        let marked = mark(&matrix, id, held);
        let marked = self.read(files[1], marked, "; nothing was written")?;
        self.write(files[2], write_matrix(&marked, &scheme));
        Some(())
    }

    fn move_image(&mut self, files: &[&str], moving: Moving) -> Option<()> {
        let (scheme, image) = (self.load(files[0])?, self.load(files[1])?);
        let ending = "; nothing was written";
        let (scheme, _) = self.read(files[0], read_scheme(&scheme), ending)?;
        let moved = self.read(files[1], moving(&scheme, &image), ending)?;
        self.write(files[2], moved);
        Some(())
    }

    /// A missing file is empty input; one that is too long ends the tool. Both are told.
    fn load(&mut self, file: &str) -> Option<Vec<u8>> {
        match self.folder.get(file) {
            Some(bytes) if bytes.len() > MOST_INPUT => {
                self.told
                    .push(format!("{file}: longer than {MOST_INPUT} bytes"));
                None
            }
            Some(bytes) => Some(bytes.clone()),
            None => {
                self.told.push(format!("{file}: "));
                Some(Vec::new())
            }
        }
    }

    fn read_both(
        &mut self,
        files: &[&str],
        scheme: &[u8],
        matrix: &[u8],
    ) -> Option<(Scheme, Matrix)> {
        let ending = "; nothing was written";
        let (scheme, _) = self.read(files[0], read_scheme(scheme), ending)?;
        let matrix = self.read(files[1], read_matrix(matrix, &scheme), ending)?;
        Some((scheme, matrix))
    }

    fn read<T>(&mut self, file: &str, answer: Result<T, Refusal>, ending: &str) -> Option<T> {
        match answer {
            Ok(content) => Some(content),
            Err(Refusal { number, at }) => {
                *self.said +=
                    &format!("{file}: refused with number {number} at position {at}{ending}\n");
                None
            }
        }
    }

    fn write(&mut self, file: &str, bytes: Vec<u8>) {
        *self.said += &format!("{file}: {} bytes\n", bytes.len());
        self.folder.insert(file.to_string(), bytes);
    }
}
