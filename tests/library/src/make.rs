//! Cases that are accepted, and ways to spoil them.

use reference::cases::Case;
use reference::corpus;
use reference::corpus::draft::all;
use reference::corpus::{any_shape, Rng};
use reference::{setup, Arrangement, Shape};

/// The calls that are given an arrangement.
#[derive(Clone, Copy, Debug)]
pub enum Call {
    Setup,
    Reading,
    Difference,
    Change,
    Rebuild,
    Rearrangement,
    Check,
    View,
}

impl Call {
    pub const ALL: [Call; 8] = [
        Call::Setup,
        Call::Reading,
        Call::Difference,
        Call::Change,
        Call::Rebuild,
        Call::Rearrangement,
        Call::Check,
        Call::View,
    ];

    /// The numbers that the call can answer with.
    pub fn numbers(self) -> &'static [u64] {
        match self {
            Call::Setup | Call::Check => &[0, 1, 2, 3, 4, 5, 6],
            Call::Reading | Call::Difference => &[0, 1, 2, 3, 4, 5, 6, 7, 8],
            Call::Change => &[0, 1, 2, 3, 4, 5, 6, 7, 8, 24],
            Call::Rebuild => &[0, 1, 2, 3, 4, 5, 6, 7, 8, 9],
            Call::Rearrangement => &[0, 1, 2, 3, 4, 5, 6, 7, 8, 11, 12, 13, 14],
            Call::View => &[0, 1, 2, 3, 4, 5, 6, 10],
        }
    }
}

/// All shapes with n up to this, tight and loose.
pub fn shapes(most: u64) -> impl Iterator<Item = Shape> {
    (1..=most).flat_map(corpus::shapes)
}

/// Any shape, mostly with small blocks.
pub fn any_arrangement(rng: &mut Rng) -> Arrangement {
    let most = rng.pick(&[3, 8, 32]);
    let size = rng.pick(&[1, 2, 4, 8, 8, 16, 40]);
    let size = if rng.chance(1) { 1024 } else { size };
    let b = rng.range(1, size);
    any_shape(rng, most).with(b)
}

/// Any shape with this n and q.
pub fn shape_with(rng: &mut Rng, n: u64, q: u64) -> Shape {
    let k = rng.range(1, q);
    Shape::new(k, rng.range(q, n), k + n - q, n)
}

/// The largest block size with which so many blocks are within a room of this many
/// bytes, and the next one, with which they are not.
pub fn about(room: u64, blocks: u64) -> impl Iterator<Item = u64> {
    let within = room / blocks;
    [within, within + 1]
        .into_iter()
        .filter(|b| (1..=1024).contains(b))
}

/// Small ones, so that some are equal, and the outermost.
pub fn any_serial(rng: &mut Rng) -> u32 {
    let any = rng.word() as u32;
    rng.pick(&[0, 1, 2, 3, any, u32::MAX - 1, u32::MAX])
}

pub fn any_serials(rng: &mut Rng, count: u64) -> Vec<u32> {
    (0..count).map(|_| any_serial(rng)).collect()
}

/// A case that is accepted; its buffers hold any bytes and serials.
pub fn right(rng: &mut Rng, call: Call, a: Arrangement) -> Case {
    let Arrangement { shape, b } = a;
    let Shape { k, r, w, n } = shape;
    match call {
        Call::Setup => Case::Setup {
            a,
            message: rng.bytes(k * b),
            slack: rng.bytes(shape.l() * b),
            record: rng.bytes(n * b),
            serials: any_serials(rng, n),
        },
        Call::Reading => Case::Reading {
            a,
            record: rng.bytes(n * b),
            read: rng.choose(all(n), r),
            out: rng.bytes(k * b),
        },
        Call::Difference => Case::Difference {
            a,
            d: rng.bytes(k * b),
            write: rng.choose(all(n), w),
            out: rng.bytes(w * b),
        },
        Call::Change => {
            let write = rng.choose(all(n), w);
            let some = rng.word() as u32;
            Case::Change {
                a,
                record: rng.bytes(n * b),
                serials: any_serials(rng, n),
                d: rng.bytes(k * b),
                write,
                serial: any_serial(rng).max(1),
                reached: rng.pick(&[write, u32::MAX, some, 0]),
            }
        }
        Call::Rebuild => {
            let read = rng.choose(all(n), r);
            Case::Rebuild {
                a,
                record: rng.bytes(n * b),
                serials: any_serials(rng, n),
                read,
                lost: rng.word() as u32 & all(n) & !read,
            }
        }
        Call::Rearrangement => {
            let to = any_shape(rng, 32);
            Case::Rearrangement {
                a,
                record: rng.bytes(n * b),
                serials: any_serials(rng, n),
                read: rng.choose(all(n), r),
                to,
                write: rng.choose(all(to.n), to.w),
                message: rng.bytes(to.k * b),
                new: rng.bytes(to.n * b),
                new_serials: any_serials(rng, to.n),
            }
        }
        Call::Check => Case::Check {
            a,
            record: nearly_sound(rng, &a),
            budget: any_budget(rng, n),
        },
        Call::View => Case::View {
            a,
            record: rng.bytes(n * b),
            trap: rng.range(1, n),
        },
    }
}

/// A record from a set-up, with up to three bytes altered.
fn nearly_sound(rng: &mut Rng, a: &Arrangement) -> Vec<u8> {
    let message = rng.bytes(a.shape.k * a.b);
    let slack = rng.bytes(a.shape.l() * a.b);
    let mut record = vec![0; (a.shape.n * a.b) as usize];
    let mut serials = vec![0; a.shape.n as usize];
    assert_eq!(setup(a, &message, &slack, &mut record, &mut serials), 0);
    for _ in 0..rng.below(4) {
        let place = rng.below(record.len() as u64) as usize;
        record[place] ^= 1 << rng.below(8);
    }
    record
}

/// Few sets, since the reference takes its time for each; for few traps also all.
fn any_budget(rng: &mut Rng, n: u64) -> u64 {
    let some = rng.range(3, 40);
    let most = if n <= 8 { u64::MAX } else { some };
    rng.pick(&[0, 1, 2, some, most])
}

/// One argument of a case.
enum Place<'a> {
    Number(&'a mut u64),
    Trap(&'a mut u64),
    Choice(&'a mut u32),
    Serial(&'a mut u32),
    Bytes(&'a mut Vec<u8>),
    Serials(&'a mut Vec<u32>),
}

fn shape_places(shape: &mut Shape) -> Vec<Place<'_>> {
    let Shape { k, r, w, n } = shape;
    [k, r, w, n].into_iter().map(Place::Number).collect()
}

/// All arguments of a case but the budget of a check, which no question is about.
fn places(case: &mut Case) -> Vec<Place<'_>> {
    use Place::{Bytes, Choice, Number, Serial, Serials, Trap};
    let (a, mut places) = match case {
        Case::Inverse { side, matrix, out } => {
            return vec![Number(side), Bytes(matrix), Bytes(out)];
        }
        Case::Setup {
            a,
            message,
            slack,
            record,
            serials,
        } => {
            let places = vec![
                Bytes(message),
                Bytes(slack),
                Bytes(record),
                Serials(serials),
            ];
            (a, places)
        }
        Case::Reading {
            a,
            record,
            read,
            out,
        } => (a, vec![Bytes(record), Choice(read), Bytes(out)]),
        Case::Difference { a, d, write, out } => (a, vec![Bytes(d), Choice(write), Bytes(out)]),
        Case::Change {
            a,
            record,
            serials,
            d,
            write,
            serial,
            reached,
        } => {
            let mut places = vec![Bytes(record), Serials(serials), Bytes(d)];
            places.extend([Choice(write), Serial(serial), Choice(reached)]);
            (a, places)
        }
        Case::Rebuild {
            a,
            record,
            serials,
            read,
            lost,
        } => {
            let places = vec![Bytes(record), Serials(serials), Choice(read), Choice(lost)];
            (a, places)
        }
        Case::Rearrangement {
            a,
            record,
            serials,
            read,
            to,
            write,
            message,
            new,
            new_serials,
        } => {
            let mut places = shape_places(to);
            places.extend([Bytes(record), Serials(serials), Choice(read), Choice(write)]);
            places.extend([Bytes(message), Bytes(new), Serials(new_serials)]);
            (a, places)
        }
        Case::Check { a, record, .. } => (a, vec![Bytes(record)]),
        Case::View { a, record, trap } => (a, vec![Bytes(record), Trap(trap)]),
    };
    places.extend(shape_places(&mut a.shape));
    places.push(Number(&mut a.b));
    places
}

/// Numbers about the bounds of this library and of machine words.
const NUMBERS: [u64; 32] = [
    0,
    1,
    2,
    3,
    4,
    16,
    31,
    32,
    33,
    34,
    63,
    64,
    65,
    127,
    128,
    255,
    256,
    257,
    1023,
    1024,
    1025,
    2048,
    65_535,
    65_536,
    65_537,
    u32::MAX as u64,
    1 << 32,
    (1 << 32) + 1,
    (1 << 63) - 1,
    1 << 63,
    u64::MAX - 1,
    u64::MAX,
];

fn spoiled_number(rng: &mut Rng, number: u64) -> u64 {
    match rng.below(5) {
        0 => number.wrapping_add(1),
        1 => number.wrapping_sub(1),
        2 => number.wrapping_add(1 << rng.pick(&[8, 16, 32, 63])),
        _ => rng.pick(&NUMBERS),
    }
}

fn spoiled_choice(rng: &mut Rng, choice: u32) -> u32 {
    match rng.below(6) {
        0 => 0,
        1 => u32::MAX,
        2 => rng.word() as u32,
        3 => choice & choice.wrapping_sub(1),
        4 => choice | (choice + u32::from(choice < u32::MAX)),
        _ => choice ^ (1 << rng.below(32)),
    }
}

fn spoiled_length(rng: &mut Rng, length: usize) -> usize {
    match rng.below(6) {
        0 => 0,
        1 => length + rng.range(1, 40) as usize,
        2 => length * 2,
        3 => length / 2,
        4 => length + 1,
        _ => length.saturating_sub(1),
    }
}

/// Alters one argument, most often to one that is refused.
pub fn spoil(rng: &mut Rng, case: &mut Case) {
    let mut places = places(case);
    let index = rng.below(places.len() as u64) as usize;
    match &mut places[index] {
        Place::Number(number) => **number = spoiled_number(rng, **number),
        Place::Trap(trap) => **trap = rng.below(256),
        Place::Choice(choice) => **choice = spoiled_choice(rng, **choice),
        Place::Serial(serial) => **serial = rng.pick(&[0, 0, 1, u32::MAX]),
        Place::Bytes(bytes) => {
            let length = spoiled_length(rng, bytes.len());
            bytes.resize(length, 0xD7);
        }
        Place::Serials(serials) => {
            let length = spoiled_length(rng, serials.len());
            serials.resize(length, 0xD7);
        }
    }
}
