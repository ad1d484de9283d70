//! What each case must print: the answers of this program's own readers, writers, conversion and literal engine, on the values that the cases have
//! made so far.

use super::asked;
use super::planned::{located, planned, Spots};
use super::said::{Given, Said, NUMBER};
use super::seats::{Seats, CELLS};
use super::sums;
use super::tasks::{Ask, Rest, Task};
use super::values::{CommandValue, SchemeValue};
use super::Case;
use crate::answer::{list_bytes, Answer};
use crate::convert::{convert_matrix, convert_scheme};
use crate::engine::carry_out;
use crate::hold::mark;
use crate::matrix::{find_rest, read_matrix, write_matrix, Matrix, MOST_THINGS};
use crate::moving::{back, forward, Moving};
use crate::refusal::Refusal;
use crate::request::{read_request, Next};
use crate::scheme::{find_command, read_scheme, write_scheme, Scheme};

/// A case's line, and what its functions gave.
#[derive(Clone, Debug)]
pub struct Line {
    pub given: Vec<Given>,
    pub text: String,
}

pub fn told(cases: &[Case]) -> Vec<Line> {
    let mut state = State {
        scheme: SchemeValue::none(),
        seats: Seats::none(),
    };
    cases.iter().map(|case| state.line(case)).collect()
}

/// The scheme and the matrix that the cases share, as values that may be strangers.
struct State {
    scheme: SchemeValue,
    seats: Seats,
}

impl State {
    /// Behind the answer stands the sum of the matrix: of a refused call as it was.
    fn line(&mut self, case: &Case) -> Line {
        let said = self.say(&case.task, case.cells as usize);
        let text = format!("{}{} {}", case.label, said.words, self.seats.sum());
        let given = said.given;
        Line { given, text }
    }

    fn say(&mut self, task: &Task, lent: usize) -> Said {
        match task {
            Task::ReadScheme(bytes) => {
                Said::default().reading("scheme_bytes::read_scheme", self.read_scheme(bytes))
            }
            Task::NoScheme => {
                self.scheme = SchemeValue::none();
                Said::default().through("scheme_bytes::no_scheme", 0)
            }
            Task::SetHead(n, m, subjects, count) => {
                let head = (*n, *m, *subjects, *count);
                let scheme = &mut self.scheme;
                (scheme.rights, scheme.types, scheme.subjects, scheme.count) = head;
                Said::default()
            }
            Task::SetCommand(set) => {
                self.scheme.set(set);
                Said::default()
            }
            Task::ConvertedScheme => {
                let number = self.convert_scheme().err().unwrap_or(0);
                Said::default().gave("convert::converted_scheme", number)
            }
            Task::ReadCommand { place, bytes, at } => {
                let answer = self.read_command((*place).into(), bytes, *at as usize);
                Said::default().reading("command_bytes::read_command", answer)
            }
            Task::NoCommand(place) => {
                self.scheme.commands[usize::from(*place)] = CommandValue::none();
                Said::default().through("command_bytes::no_command", 0)
            }
            _ => self.say_of_readings(task, lent),
        }
    }

    /// The tasks that read a matrix.
    fn say_of_readings(&mut self, task: &Task, lent: usize) -> Said {
        let said = Said::default();
        match task {
            Task::ReadMatrix(bytes) => {
                let answer = self.read_matrix(bytes, self.scheme(), lent);
                said.reading("matrix_bytes::read_matrix", answer)
            }
            Task::ReadMatrixByHead(bytes) => {
                let answer = self.read_matrix(bytes, self.head(), lent);
                said.reading("matrix_bytes::read_matrix_by_head", answer)
            }
            Task::ReadRest(rest) => {
                let answer = self.read_rest(rest, lent);
                said.reading("matrix_bytes::read_rest", answer)
            }
            _ => self.say_of_matrix(task, lent),
        }
    }

    /// The tasks that change the matrix otherwise.
    fn say_of_matrix(&mut self, task: &Task, lent: usize) -> Said {
        let said = Said::default();
        match task {
            Task::ConvertedCells => {
                let number = self.convert_cells(lent).err().unwrap_or(0);
                said.gave("convert::converted_cells", number)
            }
            Task::CopyCells { place, sets } => {
                self.seats.copy_cells(*place, sets, lent);
                said.through("things::copy_cells", 0)
            }
            Task::NoThings => {
                self.seats.no_things();
                said.through("things::no_things", 0)
            }
            Task::PutThing { seat, thing } => {
                self.seats.put_thing(*seat, *thing);
                said.through("things::put_thing", 0)
            }
            Task::SetHighest(highest) => {
                self.seats.set_highest(*highest);
                said
            }
            Task::Plan {
                ask,
                spots,
                parameter,
            } => self.plan(ask, *spots, *parameter),
            _ => self.say_of_requests(task, lent),
        }
    }

    /// Requests, lists of them, and marks.
    fn say_of_requests(&mut self, task: &Task, lent: usize) -> Said {
        let said = Said::default();
        match task {
            Task::Hold(id) => said.gave("hold::hold", self.mark(*id, true, lent)),
            Task::Release(id) => said.gave("hold::release", self.mark(*id, false, lent)),
            Task::Request(ask) => {
                let answer = self.request(ask, lent);
                let answer = answer.unwrap_or_else(Answer::before_tests);
                said.gave("engine::request", answer.number)
                    .word(answer.test)
                    .word(answer.steps)
            }
            Task::List { list, room } => self.list(list, *room, lent),
            Task::ListQuietly(list) => match self.matrix(self.scheme(), lent) {
                Ok(_) => {
                    let ran = self.run(list);
                    ended(said, "engine::run_quietly", ran)
                }
                Err(number) => run_answer(said, "engine::run_quietly", number),
            },
            Task::CountRequests(list) => {
                let count = requests(list).0.len();
                said.value("request_list::count_requests", count)
            }
            _ => self.say_of_output(task, lent),
        }
    }

    /// The tasks that write into a lent buffer.
    fn say_of_output(&self, task: &Task, lent: usize) -> Said {
        let write =
            |function, bytes, room: &u64| Said::default().writing(function, bytes, 0, *room);
        let written = |of: Result<Scheme, u8>| {
            let scheme = of?;
            Ok(write_matrix(
                &self.matrix(Ok(scheme.clone()), lent)?,
                &scheme,
            ))
        };
        match task {
            Task::WriteScheme(room) => {
                let bytes = self.scheme().map(|scheme| write_scheme(&scheme));
                write("scheme_write::write_scheme", bytes, room)
            }
            Task::ConvertScheme(room) => {
                let converted = self.scheme().and_then(|scheme| convert_scheme(&scheme));
                let bytes = converted.map(|scheme| write_scheme(&scheme));
                write("convert::convert_scheme", bytes, room)
            }
            Task::WriteMatrix(room) => {
                write("matrix_write::write_matrix", written(self.scheme()), room)
            }
            Task::WriteMatrixByHead(room) => {
                let bytes = written(self.head());
                write("matrix_write::write_matrix_by_head", bytes, room)
            }
            Task::ConvertMatrix(room) => {
                write("convert::convert_matrix", self.converted(lent), room)
            }
            Task::Store(store) => Said::default().store(store),
            _ => self.say_of_moves(task, lent),
        }
    }

    /// The tasks that move an image; all others ask for something that isn't stored.
    fn say_of_moves(&self, task: &Task, lent: usize) -> Said {
        match task {
            Task::Forward { old, room } => {
                let moved = self.moved(old, forward);
                Said::default().moving("moving::forward", moved, *room)
            }
            Task::Back { new, room } => {
                let moved = self.moved(new, back);
                Said::default().moving("moving::back", moved, *room)
            }
            _ => asked::say(task, &self.scheme, &self.seats, lent),
        }
    }

    /// The scheme, or 27.
    fn scheme(&self) -> Result<Scheme, u8> {
        self.scheme.scheme().ok_or(27)
    }

    /// A scheme of the head alone, or 27.
    fn head(&self) -> Result<Scheme, u8> {
        match self.scheme.head_fault() {
            0 => Ok(self.scheme.head()),
            _ => Err(27),
        }
    }

    /// The matrix of a scheme, or 27.
    fn matrix(&self, scheme: Result<Scheme, u8>, lent: usize) -> Result<Matrix, u8> {
        let scheme = scheme?;
        match self.seats.accepted(&scheme, lent) {
            true => Ok(self.seats.matrix(&scheme)),
            false => Err(27),
        }
    }

    fn read_scheme(&mut self, bytes: &[u8]) -> Result<usize, Refusal> {
        let (scheme, next) = read_scheme(bytes)?;
        self.scheme = SchemeValue::of(&scheme);
        Ok(next)
    }

    /// Where it is refused, the command of zeros is put there.
    fn read_command(&mut self, place: usize, bytes: &[u8], at: usize) -> Result<usize, Refusal> {
        let head = self.head().map_err(|number| Refusal { number, at: 0 });
        let read = head.and_then(|head| Ok(find_command(bytes, at, &head)?));
        let command = read.as_ref().map(|(command, _)| CommandValue::of(command));
        self.scheme.commands[place] = command.unwrap_or(CommandValue::none());
        Ok(read?.1)
    }

    fn read_matrix(
        &mut self,
        bytes: &[u8],
        scheme: Result<Scheme, u8>,
        lent: usize,
    ) -> Result<usize, Refusal> {
        let stranger = Refusal { number: 27, at: 0 };
        let scheme = scheme.map_err(|_| stranger)?;
        if lent != CELLS {
            return Err(stranger);
        }
        self.seats.read(&read_matrix(bytes, &scheme)?);
        Ok(bytes.len())
    }

    /// What is stated must be a position in the bytes or their end, and no more things than there can be.
    fn read_rest(&mut self, rest: &Rest, lent: usize) -> Result<usize, Refusal> {
        let stranger = Refusal { number: 27, at: 0 };
        let head = self.head().map_err(|_| stranger)?;
        let places = 0..=rest.bytes.len();
        let at = usize::try_from(rest.at).ok();
        let at = at.filter(|at| places.contains(at)).ok_or(stranger)?;
        if usize::from(rest.things) > MOST_THINGS || lent != CELLS {
            return Err(stranger);
        }
        let mut matrix = find_rest(&rest.bytes, at, &head, rest.things, rest.highest)?;
        matrix.raise_highest(rest.highest);
        self.seats.read(&matrix);
        Ok(rest.bytes.len())
    }

    /// The other image, or 27.
    fn moved(&self, image: &[u8], moving: Moving) -> Result<Vec<u8>, Refusal> {
        let scheme = self.scheme().map_err(|number| Refusal { number, at: 0 })?;
        moving(&scheme, image)
    }

    fn convert_scheme(&mut self) -> Result<(), u8> {
        let converted = convert_scheme(&self.scheme()?)?;
        self.scheme = SchemeValue::of(&converted);
        Ok(())
    }

    fn convert_cells(&mut self, lent: usize) -> Result<(), u8> {
        let scheme = self.scheme()?;
        let matrix = self.matrix(Ok(scheme.clone()), lent)?;
        self.seats.fill(&convert_matrix(&matrix, &scheme)?);
        Ok(())
    }

    /// The converted matrix's bytes.
    fn converted(&self, lent: usize) -> Result<Vec<u8>, u8> {
        let scheme = self.scheme()?;
        let matrix = self.matrix(Ok(scheme.clone()), lent)?;
        let converted = convert_matrix(&matrix, &scheme)?;
        Ok(write_matrix(&converted, &convert_scheme(&scheme)?))
    }

    /// Where the request's things sit, then what is planned with other spots.
    fn plan(&mut self, ask: &Ask, [first, second]: [u8; 2], parameter: u8) -> Said {
        let command = &self.scheme.commands[usize::from(ask.command)];
        let found = located(&self.seats, command, &ask.ids).map_err(|number| (number, 0));
        let mut spots = [first; 8];
        spots[1] = second;
        let planned = planned(&self.seats, command, &ask.ids, spots);
        let planned = planned.map(|(seats, spots)| {
            self.seats = seats;
            spots
        });
        let said = self::spots(Said::default(), "plan::locate", found, parameter);
        self::spots(said, "plan::plan_all", planned, parameter)
    }

    /// 27 or 12, and then no mark changes; or 0.
    fn mark(&mut self, id: u16, held: bool, lent: usize) -> u8 {
        let matrix = self.matrix(self.scheme(), lent);
        let marked = matrix.and_then(|matrix| {
            let marked = mark(&matrix, id, held);
            marked.map_err(|refusal| refusal.number)
        });
        match marked {
            Ok(marked) => {
                self.seats.mark(&marked);
                0
            }
            Err(number) => number,
        }
    }

    /// The answer, or 27.
    fn request(&mut self, ask: &Ask, lent: usize) -> Result<Answer, u8> {
        let scheme = self.scheme()?;
        let mut matrix = self.matrix(Ok(scheme.clone()), lent)?;
        let answer = carry_out(&scheme, &mut matrix, ask.command.into(), &ask.ids);
        if answer.number == 0 {
            let command = &scheme.commands[usize::from(ask.command)];
            self.seats.request(&command.operations, &ask.ids, &matrix);
        }
        Ok(answer)
    }

    /// The number, how many requests were answered and the position of a record that can't be read; then the sum of the answers' buffer.
    fn list(&mut self, list: &[u8], room: u64, lent: usize) -> Said {
        let function = "engine::run_list";
        let said = Said::default();
        let mut out = sums::pattern(room);
        let room_needed = Answer::BYTES * requests(list).0.len();
        let short = (out.len() < room_needed).then_some(9);
        let refused = self.matrix(self.scheme(), lent).err().or(short);
        let said = match refused {
            Some(number) => run_answer(said, function, number),
            None => {
                let ran = self.run(list);
                out[..room_needed].copy_from_slice(&list_bytes(&ran.0));
                ended(said, function, ran)
            }
        };
        said.word(sums::bytes(&out))
    }

    /// The answers to a list, on a scheme and a matrix that are none of strangers, and how it ended.
    fn run(&mut self, list: &[u8]) -> (Vec<Answer>, Option<Refusal>) {
        let (requests, end) = requests(list);
        let mut answer = |ask| self.request(ask, CELLS).expect("the matrix stays one");
        (requests.iter().map(&mut answer).collect(), end)
    }
}

fn ended(said: Said, function: &'static str, ran: (Vec<Answer>, Option<Refusal>)) -> Said {
    let (answers, end) = ran;
    let number = end.map_or(0, |refusal| refusal.number);
    let said = run_answer(said, function, number).word(answers.len());
    end.into_iter()
        .fold(said, |said, refusal| said.word(refusal.at))
}

fn run_answer(said: Said, function: &'static str, number: u8) -> Said {
    let said = said.through(function, number);
    said.gave(NUMBER, number)
}

/// The number and the operation's place; then all spots, zeros where there is a fault, and that of a parameter, 0 for one that no command has.
fn spots(
    said: Said,
    function: &'static str,
    found: Result<Spots, (u8, u8)>,
    parameter: u8,
) -> Said {
    let (number, place) = found.err().unwrap_or((0, 0));
    let spots = found.unwrap_or([0; 8]);
    let spot = spots.get(usize::from(parameter)).copied().unwrap_or(0);
    said.gave(function, number)
        .word(place)
        .word(sums::bytes(&spots))
        .value("plan::seat_at", spot)
}

/// The requests that can be read, and the refusal of the record behind them, if there is one.
fn requests(list: &[u8]) -> (Vec<Ask>, Option<Refusal>) {
    let (mut requests, mut at) = (Vec::new(), 0);
    loop {
        match read_request(list, at) {
            Next::Request { request, next } => {
                let (command, ids) = (request.command, request.ids);
                requests.push(Ask { command, ids });
                at = next;
            }
            Next::End => return (requests, None),
            Next::Refused(refusal) => return (requests, Some(refusal)),
        }
    }
}
