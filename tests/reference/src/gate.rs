//! The questions at the gate. Each function answers 0 or the first no's number.

/// An arrangement without its block size: k, r, w, n as any numbers.
#[derive(Clone, Copy, Debug, PartialEq, Eq)]
pub struct Shape {
    pub k: u64,
    pub r: u64,
    pub w: u64,
    pub n: u64,
}

/// An arrangement: k, r, w, n and B.
#[derive(Clone, Copy, Debug, PartialEq, Eq)]
pub struct Arrangement {
    pub shape: Shape,
    pub b: u64,
}

impl Shape {
    pub fn new(k: u64, r: u64, w: u64, n: u64) -> Shape {
        Shape { k, r, w, n }
    }

    /// The count of slack parts; only for an accepted shape.
    pub fn l(&self) -> u64 {
        self.n - self.w
    }

    /// The working number, never above r; only for an accepted shape.
    pub fn q(&self) -> u64 {
        self.k + self.l()
    }

    /// The arrangement of this shape with blocks of `b` bytes.
    pub fn with(self, b: u64) -> Arrangement {
        Arrangement { shape: self, b }
    }
}

impl Arrangement {
    pub fn new(k: u64, r: u64, w: u64, n: u64, b: u64) -> Arrangement {
        Shape::new(k, r, w, n).with(b)
    }
}

/// The first number that is not 0.
fn first(numbers: &[u64]) -> u64 {
    numbers.iter().copied().find(|&x| x != 0).unwrap_or(0)
}

/// 0 on yes, the question's number on no.
fn ask(yes: bool, number: u64) -> u64 {
    if yes {
        0
    } else {
        number
    }
}

/// The first four questions; `base` is 0, or 10 for a new arrangement.
fn ask_shape(s: &Shape, base: u64) -> u64 {
    if !(1..=32).contains(&s.n) {
        base + 1
    } else if s.r > s.n || s.w > s.n {
        base + 2
    } else if s.k < 1 || s.k > s.r || s.k > s.w {
        base + 3
    } else if s.r + s.w < s.k + s.n {
        base + 4
    } else {
        0
    }
}

/// Questions 1 to 5.
pub fn ask_arrangement(a: &Arrangement) -> u64 {
    let shape = ask_shape(&a.shape, 0);
    first(&[shape, ask((1..=1024).contains(&a.b), 5)])
}

/// Questions 11 to 14.
pub fn ask_new_shape(s: &Shape) -> u64 {
    ask_shape(s, 10)
}

/// A length, and how many it must be: blocks, or serials.
pub type Length = (usize, u64);

/// Question 6, for slices of blocks and slices of serials.
pub fn ask_lengths(b: u64, blocks: &[Length], serials: &[Length]) -> u64 {
    let bytes = blocks.iter().map(|&(length, count)| (length, count * b));
    let mut all = bytes.chain(serials.iter().copied());
    ask(all.all(|(length, exact)| length as u64 == exact), 6)
}

/// Question 7: each pair is a choice and the n it may name traps up to.
pub fn ask_within(choices: &[(u32, u64)]) -> u64 {
    let within = |&(choice, n): &(u32, u64)| u64::from(choice) < 1u64 << n;
    ask(choices.iter().all(within), 7)
}

/// Question 8: each pair is a choice and the size it must have.
pub fn ask_sizes(choices: &[(u32, u64)]) -> u64 {
    let right = |&(choice, size): &(u32, u64)| u64::from(choice.count_ones()) == size;
    ask(choices.iter().all(right), 8)
}

/// Question 9.
pub fn ask_apart(read: u32, lost: u32) -> u64 {
    ask(read & lost == 0, 9)
}

/// Question 10.
pub fn ask_trap(trap: u64, n: u64) -> u64 {
    ask((1..=n).contains(&trap), 10)
}

/// Question 24.
pub fn ask_serial(serial: u32) -> u64 {
    ask(serial > 0, 24)
}

/// Set-up: 1 to 5, 6.
pub fn gate_setup(
    a: &Arrangement,
    message: usize,
    slack: usize,
    record: usize,
    serials: usize,
) -> u64 {
    let number = ask_arrangement(a);
    if number != 0 {
        return number;
    }
    let s = a.shape;
    let blocks = [(message, s.k), (slack, s.l()), (record, s.n)];
    ask_lengths(a.b, &blocks, &[(serials, s.n)])
}

/// Check, and the first part of view: 1 to 5, 6.
pub fn gate_record(a: &Arrangement, record: usize) -> u64 {
    let number = ask_arrangement(a);
    if number != 0 {
        return number;
    }
    ask_lengths(a.b, &[(record, a.shape.n)], &[])
}

/// Reading: 1 to 5, 6, 7, 8.
pub fn gate_reading(a: &Arrangement, record: usize, read: u32, out: usize) -> u64 {
    let number = ask_arrangement(a);
    if number != 0 {
        return number;
    }
    let s = a.shape;
    first(&[
        ask_lengths(a.b, &[(record, s.n), (out, s.k)], &[]),
        ask_within(&[(read, s.n)]),
        ask_sizes(&[(read, s.r)]),
    ])
}

/// Difference: 1 to 5, 6, 7, 8.
pub fn gate_difference(a: &Arrangement, d: usize, write: u32, out: usize) -> u64 {
    let number = ask_arrangement(a);
    if number != 0 {
        return number;
    }
    let s = a.shape;
    first(&[
        ask_lengths(a.b, &[(d, s.k), (out, s.w)], &[]),
        ask_within(&[(write, s.n)]),
        ask_sizes(&[(write, s.w)]),
    ])
}

/// Change: 1 to 5, 6, 7, 8, 24.
pub fn gate_change(
    a: &Arrangement,
    record: usize,
    serials: usize,
    d: usize,
    write: u32,
    serial: u32,
) -> u64 {
    let number = ask_arrangement(a);
    if number != 0 {
        return number;
    }
    let s = a.shape;
    first(&[
        ask_lengths(a.b, &[(record, s.n), (d, s.k)], &[(serials, s.n)]),
        ask_within(&[(write, s.n)]),
        ask_sizes(&[(write, s.w)]),
        ask_serial(serial),
    ])
}

/// Rebuild: 1 to 5, 6, 7, 8, 9.
pub fn gate_rebuild(a: &Arrangement, record: usize, serials: usize, read: u32, lost: u32) -> u64 {
    let number = ask_arrangement(a);
    if number != 0 {
        return number;
    }
    let s = a.shape;
    first(&[
        ask_lengths(a.b, &[(record, s.n)], &[(serials, s.n)]),
        ask_within(&[(read, s.n), (lost, s.n)]),
        ask_sizes(&[(read, s.r)]),
        ask_apart(read, lost),
    ])
}

/// View: 1 to 5, 6, 10.
pub fn gate_view(a: &Arrangement, record: usize, trap: u64) -> u64 {
    let number = gate_record(a, record);
    first(&[number, ask_trap(trap, a.shape.n)])
}

/// The lengths of the slices lent to a rearrangement.
pub struct RearrangementLengths {
    pub record: usize,
    pub serials: usize,
    pub message: usize,
    pub new: usize,
    pub new_serials: usize,
}

/// Rearrangement: 1 to 5, 11 to 14, 6, 7, 8.
pub fn gate_rearrangement(
    a: &Arrangement,
    to: &Shape,
    read: u32,
    write: u32,
    lengths: &RearrangementLengths,
) -> u64 {
    let number = first(&[ask_arrangement(a), ask_new_shape(to)]);
    if number != 0 {
        return number;
    }
    let record = (lengths.record, a.shape.n);
    let message = (lengths.message, to.k);
    let new = (lengths.new, to.n);
    let serials = [(lengths.serials, a.shape.n), (lengths.new_serials, to.n)];
    first(&[
        ask_lengths(a.b, &[record, message, new], &serials),
        ask_within(&[(read, a.shape.n), (write, to.n)]),
        ask_sizes(&[(read, a.shape.r), (write, to.w)]),
    ])
}
