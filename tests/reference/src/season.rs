//! The season program: a file of a set-up and its events, a line for each.

use crate::calls::{self, Move, Sending};
use crate::gate::{ask_arrangement, ask_new_shape, ask_within, Arrangement, Shape};
use std::io::{self, Write};

/// So many bytes are read; later ones do not count.
pub const LIMIT: usize = 65_535;

/// The file faults.
const FIRST_COUNT: u64 = 20;
const ENDS_EARLY: u64 = 21;
const UNKNOWN_KIND: u64 = 22;
const LEFT_OVER: u64 = 23;

/// The bytes not yet read. Reading past the end is the fault 21.
struct Input<'a> {
    rest: &'a [u8],
}

impl<'a> Input<'a> {
    fn take(&mut self, count: u64) -> Result<&'a [u8], u64> {
        if count > self.rest.len() as u64 {
            return Err(ENDS_EARLY);
        }
        let (taken, rest) = self.rest.split_at(count as usize);
        self.rest = rest;
        Ok(taken)
    }

    /// A number of `count` bytes, highest byte first.
    fn big_endian(&mut self, count: u64) -> Result<u64, u64> {
        let bytes = self.take(count)?;
        Ok(bytes.iter().fold(0, |sum, &b| (sum << 8) | u64::from(b)))
    }

    fn byte(&mut self) -> Result<u64, u64> {
        self.big_endian(1)
    }

    fn number(&mut self) -> Result<u64, u64> {
        self.big_endian(2)
    }

    fn choice(&mut self) -> Result<u32, u64> {
        Ok(self.big_endian(4)? as u32)
    }

    fn shape(&mut self) -> Result<Shape, u64> {
        let (k, r) = (self.number()?, self.number()?);
        let (w, n) = (self.number()?, self.number()?);
        Ok(Shape::new(k, r, w, n))
    }

    /// A two-byte count and so many bytes.
    fn section(&mut self) -> Result<&'a [u8], u64> {
        let count = self.number()?;
        self.take(count)
    }
}

/// All that stands before the events.
struct Opening<'a> {
    arrangement: Arrangement,
    message: &'a [u8],
    slack: &'a [u8],
    events: u64,
}

fn read_opening<'a>(input: &mut Input<'a>) -> Result<Opening<'a>, u64> {
    if input.number()? != 5 {
        return Err(FIRST_COUNT);
    }
    let shape = input.shape()?;
    Ok(Opening {
        arrangement: shape.with(input.number()?),
        message: input.section()?,
        slack: input.section()?,
        events: input.number()?,
    })
}

/// An event with all its fields.
enum Event<'a> {
    Change { write: u32, d: &'a [u8] },
    Rebuild { read: u32, lost: u32 },
    Damage { traps: u32, blocks: &'a [u8] },
    Reading { read: u32 },
    Rearrangement(Move<'a>),
}

/// The fields of an event of this kind; lengths by the arrangement in force.
fn read_event<'a>(input: &mut Input<'a>, kind: u64, a: &Arrangement) -> Result<Event<'a>, u64> {
    match kind {
        1 => Ok(Event::Change {
            write: input.choice()?,
            d: input.take(a.shape.k * a.b)?,
        }),
        2 => Ok(Event::Rebuild {
            read: input.choice()?,
            lost: input.choice()?,
        }),
        3 => read_damage(input, a.b),
        4 => Ok(Event::Reading {
            read: input.choice()?,
        }),
        5 => Ok(Event::Rearrangement(read_move(input, a.b)?)),
        _ => Err(UNKNOWN_KIND),
    }
}

/// A choice, and a block for each of its one bits, also for those above n.
fn read_damage<'a>(input: &mut Input<'a>, b: u64) -> Result<Event<'a>, u64> {
    let traps = input.choice()?;
    let blocks = input.take(u64::from(traps.count_ones()) * b)?;
    Ok(Event::Damage { traps, blocks })
}

fn read_move<'a>(input: &mut Input<'a>, b: u64) -> Result<Move<'a>, u64> {
    let read = input.choice()?;
    let to = input.shape()?;
    let write = input.choice()?;
    let message = input.take(to.k * b)?;
    Ok(Move {
        read,
        to,
        write,
        message,
    })
}

/// What the program holds between events.
struct State {
    arrangement: Arrangement,
    record: Vec<u8>,
    serials: Vec<u32>,
}

/// An answer, and the message if the event was an accepted reading.
type Answer = (u64, Option<Vec<u8>>);

impl State {
    /// The set-up's number, and the state it leaves.
    fn open(opening: &Opening) -> (u64, State) {
        let a = opening.arrangement;
        let traps = if ask_arrangement(&a) == 0 {
            a.shape.n
        } else {
            0
        };
        let mut state = State {
            arrangement: a,
            record: vec![0; (traps * a.b) as usize],
            serials: vec![0; traps as usize],
        };
        let (record, serials) = (&mut state.record, &mut state.serials);
        let number = calls::setup(&a, opening.message, opening.slack, record, serials);
        (number, state)
    }

    /// Tries the event of this number, which serves as a change's serial.
    fn try_event(&mut self, number: u64, event: &Event) -> Answer {
        let a = self.arrangement;
        let (record, serials) = (&mut self.record, &mut self.serials);
        match event {
            Event::Change { write, d } => {
                let given = Sending {
                    d,
                    write: *write,
                    serial: number as u32,
                    reached: *write,
                };
                (calls::change(&a, record, serials, &given), None)
            }
            Event::Rebuild { read, lost } => {
                (calls::rebuild(&a, record, serials, *read, *lost), None)
            }
            Event::Damage { traps, blocks } => (self.damage(*traps, blocks), None),
            Event::Reading { read } => self.reading(*read),
            Event::Rearrangement(given) => (self.rearrange(given), None),
        }
    }

    /// All of the blocks are replaced, or none.
    fn damage(&mut self, traps: u32, blocks: &[u8]) -> u64 {
        let Arrangement { shape, b } = self.arrangement;
        let number = ask_within(&[(traps, shape.n)]);
        if number == 0 {
            calls::write_blocks(&mut self.record, b, traps, blocks);
        }
        number
    }

    fn reading(&self, read: u32) -> Answer {
        let a = self.arrangement;
        let mut out = vec![0; (a.shape.k * a.b) as usize];
        let number = calls::reading(&a, &self.record, read, &mut out);
        (number, (number == 0).then_some(out))
    }

    fn rearrange(&mut self, given: &Move) -> u64 {
        let a = self.arrangement;
        let good = ask_new_shape(&given.to) == 0;
        let traps = if good { given.to.n } else { 0 };
        let mut new = vec![0; (traps * a.b) as usize];
        let mut serials = vec![0; traps as usize];
        let (record, old) = (&self.record, &self.serials);
        let number = calls::rearrangement(&a, record, old, given, &mut new, &mut serials);
        if number == 0 {
            self.record = new;
            self.serials = serials;
            self.arrangement = given.to.with(a.b);
        }
        number
    }
}

/// Prints one line.
fn print(out: &mut dyn Write, number: u64, kind: u64, answer: &Answer) -> io::Result<()> {
    let mut line = format!("{number} {kind} {}", answer.0);
    if let Some(message) = &answer.1 {
        line.push(' ');
        for byte in message {
            line.push(digit(byte >> 4));
            line.push(digit(byte & 15));
        }
    }
    line.push('\n');
    out.write_all(line.as_bytes())
}

/// A lower-case hexadecimal digit.
fn digit(value: u8) -> char {
    char::from(b"0123456789abcdef"[usize::from(value)])
}

/// Prints a fault's line; the run ends with it.
fn print_fault(out: &mut dyn Write, number: u64, kind: u64, fault: u64) -> io::Result<()> {
    print(out, number, kind, &(fault, None))
}

/// The whole program on an input, of which only the first 65,535 bytes count.
pub fn season(input: &[u8], out: &mut dyn Write) -> io::Result<()> {
    let mut input = Input {
        rest: &input[..input.len().min(LIMIT)],
    };
    let opening = match read_opening(&mut input) {
        Ok(opening) => opening,
        Err(fault) => return print_fault(out, 0, 0, fault),
    };
    let (number, mut state) = State::open(&opening);
    print(out, 0, 0, &(number, None))?;
    if number != 0 {
        return Ok(());
    }
    run_events(&mut input, &mut state, opening.events, out)
}

fn run_events(
    input: &mut Input,
    state: &mut State,
    events: u64,
    out: &mut dyn Write,
) -> io::Result<()> {
    for number in 1..=events {
        let kind = match input.byte() {
            Ok(kind) => kind,
            Err(fault) => return print_fault(out, number, 0, fault),
        };
        let event = match read_event(input, kind, &state.arrangement) {
            Ok(event) => event,
            Err(fault) => return print_fault(out, number, kind, fault),
        };
        print(out, number, kind, &state.try_event(number, &event))?;
    }
    if input.rest.is_empty() {
        return Ok(());
    }
    print_fault(out, events + 1, 0, LEFT_OVER)
}
