//! What is measured: the calls, the points, and what goes in and out.

use crate::buffer::Buffer;
use crate::coder::Coder;
use jirvents::Params;
use std::hint::black_box;

pub const fn point(k: usize, r: usize, w: usize, n: usize, b: usize) -> Params {
    Params { k, r, w, n, b }
}

/// At (4,9,7,10) there is slack to spare: nine nodes are read, seven used.
pub const POINTS: [Params; 6] = [
    point(1, 2, 2, 3, 16),
    point(2, 3, 3, 4, 64),
    point(4, 7, 7, 10, 64),
    point(4, 9, 7, 10, 64),
    point(8, 9, 9, 10, 1024),
    point(16, 24, 24, 32, 1024),
];

/// Sides of a matrix to invert.
pub const SIDES: [usize; 5] = [2, 4, 8, 16, 32];

/// How many node sets the calls of a case take in turn, and how many matrices:
/// with one only, the processor would learn its branches by heart.
const TURNS: usize = 1024;
const MATRICES: usize = 32;

/// One call on a case.
pub type Call = fn(&mut Case, &mut dyn Coder);

/// The calls at a point.
pub const CALLS: [(&str, Call); 6] = [
    ("encode", |case, coder| {
        let (message, slack) = (case.message.bytes(), case.slack.bytes());
        coder.encode(black_box(case.p), message, slack, case.codeword.bytes_mut());
    }),
    ("decode", |case, coder| {
        let Sets { from, .. } = case.next_sets();
        let (codeword, out) = (case.codeword.bytes(), case.out.bytes_mut());
        coder.decode(black_box(case.p), codeword, from, out);
    }),
    ("update", |case, coder| {
        let Sets { to, .. } = case.next_sets();
        let (codeword, change) = (case.codeword.bytes_mut(), case.message.bytes());
        coder.update(black_box(case.p), codeword, change, to);
    }),
    ("repair", |case, coder| {
        let Sets { from, lost, .. } = case.next_sets();
        let codeword = case.codeword.bytes_mut();
        coder.repair(black_box(case.p), codeword, from, lost);
    }),
    ("check", |case, coder| {
        let codeword = case.codeword.bytes();
        let blame = coder.check(black_box(case.p), codeword, 1);
        case.out.bytes_mut()[..4].copy_from_slice(&blame.set.to_le_bytes());
    }),
    ("reconfigure", |case, coder| {
        let Sets { from, to, .. } = case.next_sets();
        let (codeword, message) = (case.codeword.bytes(), case.message.bytes());
        let out = case.out.bytes_mut();
        coder.reconfigure(black_box(case.p), codeword, from, to, message, out);
    }),
];

/// The inverse of a matrix that stands in the message.
pub const INVERT: Call = |case, coder| {
    let side = case.p.n;
    case.turn = (case.turn + 1) % MATRICES;
    let matrix = &case.message.bytes()[case.turn * side * side..][..side * side];
    coder.invert(black_box(side), matrix, case.out.bytes_mut());
};

/// Nodes to read, nodes to write, and all that are not read.
#[derive(Clone, Copy)]
struct Sets {
    from: u32,
    to: u32,
    lost: u32,
}

pub struct Case {
    p: Params,
    sets: Vec<Sets>,
    turn: usize,
    message: Buffer,
    slack: Buffer,
    codeword: Buffer,
    out: Buffer,
}

/// Numbers that look random, the same at each run.
pub struct Random(pub u64);

impl Random {
    fn next(&mut self) -> u64 {
        self.0 ^= self.0 << 13;
        self.0 ^= self.0 >> 7;
        self.0 ^= self.0 << 17;
        self.0.wrapping_mul(0x9E37_79B9_7F4A_7C15) >> 32
    }

    pub fn bytes(&mut self, count: usize) -> Vec<u8> {
        (0..count).map(|_| self.next() as u8).collect()
    }

    /// `count` of n nodes.
    fn nodes(&mut self, count: usize, n: usize) -> u32 {
        let mut set: u32 = 0;
        while (set.count_ones() as usize) < count {
            set |= 1 << (self.next() % n as u64);
        }
        set
    }

    /// A matrix that has an inverse.
    fn matrix(&mut self, side: usize) -> Vec<u8> {
        let mut inverse = vec![0; side * side];
        loop {
            let matrix = self.bytes(side * side);
            if jirvents::invert(side, &matrix, &mut inverse).is_ok() {
                return matrix;
            }
        }
    }
}

impl Case {
    /// `out` is as long as the call that is timed writes. A check's codeword is sound,
    /// other calls' is any bytes.
    pub fn at(p: Params, call: &str) -> Case {
        let Params { k, r, w, n, b } = p;
        let mut random = Random(1);
        let sets = (0..TURNS).map(|_| {
            let (from, to) = (random.nodes(r, n), random.nodes(w, n));
            let lost = u32::MAX >> (32 - n) & !from;
            Sets { from, to, lost }
        });
        let out = if call == "decode" { k * b } else { n * b };
        let mut case = Case {
            p,
            sets: sets.collect(),
            turn: 0,
            message: Buffer::new(&random.bytes(k * b)),
            slack: Buffer::new(&random.bytes((n - w) * b)),
            codeword: Buffer::new(&random.bytes(n * b)),
            out: Buffer::new(&random.bytes(out)),
        };
        if call == "check" {
            let (message, slack) = (case.message.bytes(), case.slack.bytes());
            let (codeword, mut serials) = (case.codeword.bytes_mut(), vec![0; n]);
            jirvents::encode(p, message, slack, codeword, &mut serials).expect("right arguments");
        }
        case
    }

    /// Matrices of this side, in the place of the message.
    pub fn of_side(side: usize) -> Case {
        let mut random = Random(2);
        let matrices: Vec<u8> = (0..MATRICES).flat_map(|_| random.matrix(side)).collect();
        Case {
            p: point(0, 0, 0, side, 0),
            sets: Vec::new(),
            turn: 0,
            message: Buffer::new(&matrices),
            slack: Buffer::new(&[]),
            codeword: Buffer::new(&[]),
            out: Buffer::new(&vec![0; side * side]),
        }
    }

    fn next_sets(&mut self) -> Sets {
        self.turn = (self.turn + 1) % TURNS;
        self.sets[self.turn]
    }

    /// All that a call may write.
    pub fn written(&self) -> (&[u8], &[u8]) {
        (self.codeword.bytes(), self.out.bytes())
    }
}
