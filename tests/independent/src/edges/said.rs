//! What a case says: which function gave which number, and the words of its line.

use std::fmt::Display;

use super::sums;
use super::tasks::{Store, Stored};
use crate::refusal::Refusal;
use crate::request::write_request;

/// A public function by its path, and the number it gave: 0 for success, and for a yes or no 1 or 0.
pub type Given = (&'static str, u8);

/// What tells the number of a refusal without a position, and of one with a position; with success a fault of number 0 is told.
pub const NUMBER: &str = "faults::Fault::number";
const NUMBER_WITH_POSITION: &str = "faults::u8::from";
const NO_FAULT: &str = "faults::Fault::from";

#[derive(Clone, Debug, Default)]
pub struct Said {
    pub given: Vec<Given>,
    pub words: String,
}

impl Said {
    pub fn word(mut self, word: impl Display) -> Said {
        self.words += &format!(" {word}");
        self
    }

    /// What the function gave, as the next word.
    pub fn gave(self, function: &'static str, number: u8) -> Said {
        self.through(function, number).word(number)
    }

    /// What the function gave, where the word is said by another.
    pub fn through(mut self, function: &'static str, number: u8) -> Said {
        self.given.push((function, number));
        self
    }

    /// The value of a function that can't refuse.
    pub fn value(self, function: &'static str, value: impl Display) -> Said {
        self.through(function, 0).word(value)
    }

    pub fn flag(self, function: &'static str, holds: bool) -> Said {
        self.gave(function, u8::from(holds))
    }

    /// The number and the position, 0 with success; then what was read.
    pub fn answer(self, function: &'static str, answer: Result<Vec<u64>, Refusal>) -> Said {
        let (number, at, values) = match answer {
            Ok(values) => (0, 0, values),
            Err(Refusal { number, at }) => (number, at, Vec::new()),
        };
        let said = self.through(function, number).through(NO_FAULT, 0);
        let said = said.gave(NUMBER_WITH_POSITION, number).word(at);
        values.into_iter().fold(said, Said::word)
    }

    /// An answer that has the next position.
    pub fn reading(self, function: &'static str, answer: Result<usize, Refusal>) -> Said {
        self.answer(function, answer.map(|next| vec![next as u64]))
    }

    /// Bytes stored at a position of a lent buffer: the number, then the next position if there is one; then the buffer's sum.
    pub fn writing(
        self,
        function: &'static str,
        bytes: Result<Vec<u8>, u8>,
        at: u64,
        room: u64,
    ) -> Said {
        let mut out = sums::pattern(room);
        let stored = bytes.and_then(|bytes| {
            let place = usize::try_from(at).map_err(|_| 9)?;
            let part = out.get_mut(place..).ok_or(9)?;
            crate::bytes::store(&bytes, part)
        });
        let said = match stored {
            Ok(count) => self.written(function, at + count as u64),
            Err(number) => self.through(function, number).gave(NUMBER, number),
        };
        said.word(sums::bytes(&out))
    }

    /// An image moved into a lent buffer: the number and the position, then how many bytes were written if they were; then the buffer's sum.
    pub fn moving(
        self,
        function: &'static str,
        moved: Result<Vec<u8>, Refusal>,
        room: u64,
    ) -> Said {
        let mut out = sums::pattern(room);
        let stored = moved.and_then(|bytes| {
            let stored = crate::bytes::store(&bytes, &mut out);
            stored.map_err(|number| Refusal { number, at: 0 })
        });
        let said = match stored {
            Ok(count) => self.gave(function, 0).word(0).word(count),
            Err(Refusal { number, at }) => self.gave(function, number).word(at),
        };
        said.word(sums::bytes(&out))
    }

    fn written(self, function: &'static str, next: u64) -> Said {
        let said = self.through(function, 0);
        said.gave(NUMBER, 0).word(next)
    }

    pub fn store(self, store: &Store) -> Said {
        let Store { room, at, what } = store;
        let function = what.function();
        match what {
            Stored::Request(ask) => {
                self.writing(function, write_request(ask.command, &ask.ids), *at, *room)
            }
            Stored::Record { kind, body } => {
                self.writing(function, record(*kind, body), *at, *room)
            }
            Stored::Zeros { kind, length } => {
                let zeros = vec![0; *length as usize];
                self.writing(function, record(*kind, &zeros), *at, *room)
            }
            Stored::Bytes(bytes) => self.writing(function, Ok(bytes.clone()), *at, *room),
            Stored::One(value) => self.put(store, *at, &[*value]),
            Stored::Two(value) => self.put(store, *at, &value.to_le_bytes()),
            Stored::Eight(value) => self.put(store, *at, &value.to_le_bytes()),
            Stored::Front { kind, length } => {
                let front = [length.to_le_bytes(), kind.to_le_bytes()].concat();
                self.put(store, 0, &front)
            }
            Stored::Text(text) => self.text(store, text),
            Stored::Decimal(number) => self.text(store, number.to_string().as_bytes()),
            Stored::Number(number, end) => {
                self.text(store, &[number.to_string().as_bytes(), &[*end]].concat())
            }
            Stored::Line(numbers) => self.text(store, line(numbers).as_bytes()),
        }
    }

    /// Stores that refuse nothing and tell no next position: what is past the end of the buffer is dropped.
    fn put(self, store: &Store, at: u64, bytes: &[u8]) -> Said {
        let sum = sum_with(store.room, at, bytes);
        self.written(store.what.function(), store.at).word(sum)
    }

    /// The same with the position behind the text, which stops at the largest.
    fn text(self, store: &Store, text: &[u8]) -> Said {
        let next = store.at.saturating_add(text.len() as u64);
        let sum = sum_with(store.room, store.at, text);
        self.written(store.what.function(), next).word(sum)
    }
}

impl Stored {
    fn function(&self) -> &'static str {
        match self {
            Stored::Request(_) => "request_bytes::write_request",
            Stored::Record { .. } | Stored::Zeros { .. } => "records::write_record",
            Stored::Bytes(_) => "records::write_bytes",
            Stored::One(_) => "records::put1",
            Stored::Two(_) => "records::put2",
            Stored::Eight(_) => "records::put8",
            Stored::Front { .. } => "records::put_front",
            Stored::Text(_) => "lines::put_text",
            Stored::Decimal(_) => "lines::put_decimal",
            Stored::Number(..) => "lines::put_number",
            Stored::Line(_) => "lines::put_line",
        }
    }
}

/// A record's bytes; 4 where no front can hold the body's length.
fn record(kind: u16, body: &[u8]) -> Result<Vec<u8>, u8> {
    let length = u16::try_from(body.len()).map_err(|_| 4)?;
    let front = [length.to_le_bytes(), kind.to_le_bytes()].concat();
    Ok([&front, body].concat())
}

/// The numbers with a space between them, and a line feed; of no numbers there is no line.
fn line(numbers: &[u64]) -> String {
    let words: Vec<String> = numbers.iter().map(u64::to_string).collect();
    match words[..] {
        [] => String::new(),
        _ => words.join(" ") + "\n",
    }
}

/// The sum of a buffer in which bytes stand from a position on, as far as there is room.
fn sum_with(room: u64, at: u64, bytes: &[u8]) -> u64 {
    let mut out = sums::pattern(room);
    let places = out
        .iter_mut()
        .skip(usize::try_from(at).unwrap_or(usize::MAX));
    for (place, byte) in places.zip(bytes) {
        *place = *byte;
    }
    sums::bytes(&out)
}
