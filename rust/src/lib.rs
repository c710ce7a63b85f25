//! Jirvents for Rust: records spread over storage nodes by a Read-Write
//! erasure code. Any r of n nodes give a record's message back, and a change of
//! the message goes out to any w nodes without reading them.
//!
//! The calls are those of the proved library, `libjirvents.a`; this crate adds
//! their declarations and safe functions. What the library assumes of slices,
//! that they are whole and do not overlap, Rust's borrows provide.
//!
//! A **message** is k parts of b bytes, a **slack** n - w parts (any bytes), a
//! **codeword** n blocks, that of node 1 first. A **node set** is a `u32` in
//! which node i is worth 2^(i-1). Message and slack together have q = k + n - w
//! parts, at most r: of the r nodes that a call is given to read it uses the
//! blocks of the q lowest, whatever blocks the others hold. Every number, set and
//! length may be given: each call puts its questions, in the order of
//! [`QUESTIONS`], and is refused by the first that is answered no. A refused call
//! writes nothing.
//!
//! After an [`encode`], and any [`update`]s and [`repair`]s with no damage,
//! whoever steals n - w nodes or fewer, all at one time, learns nothing of the
//! message from their blocks, if each byte of the slack was drawn anew for each
//! [`encode`], all 256 values equally likely whatever the other bytes, the message
//! and the calls are, from a source that nobody can predict, and is kept secret.
//! Where w = n there is no slack, and one node tells something (README, "If nodes
//! are stolen").
//!
//! Bytes are elements of the field with 256 elements: their sum is exclusive or,
//! their product that of polynomials modulo z^8 + z^4 + z^3 + z^2 + 1 (11D). A
//! change is the old message xor the new one, and what it adds to a block is xored
//! into it.
//!
//! Each node has a **serial**, kept beside the codeword: n numbers, that of node
//! 1 first, 0 after [`encode`]. A change goes out under a serial of its own, 1 or
//! more and above those of all changes before it, and to those of its w nodes
//! that can be reached. A node adds its part only if that serial is above its
//! own, and takes the serial with it. So a send that broke off is repeated: the
//! same change through the same set under the same serial, until each of the w
//! nodes was reached. No node adds it twice, whichever had it before. A caller
//! has to see to it that until then nothing else is sent, read, rebuilt or
//! rearranged (damage may happen; a [`check`] may then blame sound nodes), and that
//! a change that reached all w nodes is not sent again once anything else was
//! written. No question is put about this.
//!
//! No call allocates or keeps any state, so calls on buffers of their own may run
//! in several threads at once. Each takes its room on the stack, up to 55 kB.
//!
//! ```
//! use jirvents::{check, decode, encode, repair, update, view, Params};
//!
//! let p = Params { k: 1, r: 2, w: 2, n: 3, b: 1 };
//! let (mut codeword, mut serials) = ([0; 3], [0; 3]);
//! // A fixed slack, for the figures: it hides nothing.
//! encode(p, &[0x07], &[0x01], &mut codeword, &mut serials)?;
//! assert_eq!(codeword, [0x06, 0x0A, 0x0C]);
//!
//! // Node 3 is flat: the change goes to nodes 1 and 2. It breaks off after node
//! // 1, and is sent to both again.
//! update(p, &mut codeword, &mut serials, &[0x05], 0b011, 1, 0b001)?;
//! assert_eq!((codeword, serials), ([0x00, 0x0A, 0x0C], [1, 0, 0]));
//! update(p, &mut codeword, &mut serials, &[0x05], 0b011, 1, 0b011)?;
//! assert_eq!((codeword, serials), ([0x00, 0x0C, 0x0C], [1, 1, 0]));
//! let mut message = [0; 1];
//! decode(p, &codeword, 0b101, &mut message)?;
//! assert_eq!(message, [0x02]);
//!
//! // Node 1 is damaged, and written anew from nodes 2 and 3.
//! codeword[0] = 0xFF;
//! repair(p, &mut codeword, &mut serials, 0b110, 0b001)?;
//! assert_eq!(codeword, [0x00, 0x0C, 0x0C]);
//!
//! let refusal = view(p, &codeword, 4).unwrap_err();
//! assert_eq!(refusal.to_string(), "question 10: is the node from 1 to n?");
//!
//! // With two nodes to spare, a damaged one is told: node 2, the third set tried.
//! let p = Params { k: 1, r: 1, w: 3, n: 3, b: 1 };
//! let blame = check(p, &[0x07, 0xFF, 0x09], 10)?;
//! assert_eq!((blame.set, blame.tried, blame.distance), (0b010, 3, 0));
//! # Ok::<(), jirvents::Refusal>(())
//! ```

#![no_std]
#![warn(missing_docs)]

use core::error::Error;
use core::fmt;

/// The parameters of a code, with r + w at least k + n.
#[derive(Clone, Copy, Debug, PartialEq, Eq)]
pub struct Params {
    /// Message parts.
    pub k: usize,
    /// Nodes to read.
    pub r: usize,
    /// Nodes to write.
    pub w: usize,
    /// Nodes.
    pub n: usize,
    /// Bytes in a block.
    pub b: usize,
}

/// Parameters without the block size, which a reconfiguration keeps.
#[derive(Clone, Copy, Debug, PartialEq, Eq)]
pub struct Shape {
    /// Message parts.
    pub k: usize,
    /// Nodes to read.
    pub r: usize,
    /// Nodes to write.
    pub w: usize,
    /// Nodes.
    pub n: usize,
}

/// The questions that calls put, in the order in which they are put, each with
/// the number that answers for it. 11 to 14 are 1 to 4 for the new parameters
/// and are put after 5.
pub const QUESTIONS: [(u32, &str); 13] = [
    (1, "is n from 1 to 32?"),
    (2, "are r and w at most n?"),
    (3, "is k at least 1, at most r and at most w?"),
    (4, "is r + w at least k + n?"),
    (5, "is b from 1 to 1,024?"),
    (16, "is the matrix's side from 1 to 32?"),
    (6, "has each slice its exact length?"),
    (7, "does each node set name only nodes up to its n?"),
    (8, "is the set to read of size r, and the set to write of size w (for reconfigure, the new w)?"),
    (24, "is the serial above 0?"),
    (9, "are the lost nodes apart from those read?"),
    (10, "is the node from 1 to n?"),
    (15, "has the matrix an inverse?"),
];

/// A refused call: the number of the first question that was answered no.
#[derive(Clone, Copy, Debug, PartialEq, Eq)]
pub struct Refusal {
    number: u32,
}

impl Refusal {
    /// The question's number.
    pub fn number(self) -> u32 {
        self.number
    }
}

impl fmt::Display for Refusal {
    fn fmt(&self, f: &mut fmt::Formatter<'_>) -> fmt::Result {
        let (asked, of) = match self.number {
            11..=14 => (self.number - 10, " of the new parameters"),
            number => (number, ""),
        };
        let row = QUESTIONS.iter().find(|(number, _)| *number == asked);
        let question = row.map_or("?", |(_, question)| question);
        write!(f, "question {}{of}: {question}", self.number)
    }
}

impl Error for Refusal {}

/// Which nodes are to blame, as [`check`] tells.
#[derive(Clone, Copy, Debug, PartialEq, Eq)]
pub struct Blame {
    /// A node set that serves: one message and slack give the blocks of all nodes
    /// outside it.
    pub set: u32,
    /// How many sets were tried.
    pub tried: usize,
    /// The set's size is above the smallest by this at most: 0 if the set was found,
    /// else its size less that of the first set not tried, which may be 0 too.
    pub distance: usize,
}

/// Why [`invert`] wrote nothing.
#[derive(Clone, Copy, Debug, PartialEq, Eq)]
pub enum InvertError {
    /// Question 16 or 6 was answered no.
    Refused(Refusal),
    /// The matrix has no inverse, question 15: this column, counted from 1, is
    /// the first that is a sum of multiples of those before it. A column of 00
    /// counts. It is the same for all who test one matrix.
    Singular {
        /// The column.
        column: usize,
    },
}

impl InvertError {
    /// The question's number.
    pub fn number(self) -> u32 {
        match self {
            InvertError::Refused(refusal) => refusal.number,
            InvertError::Singular { .. } => 15,
        }
    }
}

impl fmt::Display for InvertError {
    fn fmt(&self, f: &mut fmt::Formatter<'_>) -> fmt::Result {
        let number = self.number();
        Refusal { number }.fmt(f)?;
        match self {
            InvertError::Refused(_) => Ok(()),
            InvertError::Singular { column } => {
                let what = "is the first that is a sum of multiples of those before it";
                write!(f, " No: column {column} {what}")
            }
        }
    }
}

impl Error for InvertError {}

/// The library's functions. A slice is a pointer, not null, and a length.
mod raw {
    extern "C" {
        pub fn jirvents_encode(
            k: usize,
            r: usize,
            w: usize,
            n: usize,
            b: usize,
            message: *const u8,
            message_len: usize,
            slack: *const u8,
            slack_len: usize,
            codeword: *mut u8,
            codeword_len: usize,
            serials: *mut u32,
            serials_len: usize,
        ) -> u32;

        pub fn jirvents_decode(
            k: usize,
            r: usize,
            w: usize,
            n: usize,
            b: usize,
            codeword: *const u8,
            codeword_len: usize,
            from: u32,
            out: *mut u8,
            out_len: usize,
        ) -> u32;

        pub fn jirvents_delta(
            k: usize,
            r: usize,
            w: usize,
            n: usize,
            b: usize,
            change: *const u8,
            change_len: usize,
            to: u32,
            out: *mut u8,
            out_len: usize,
        ) -> u32;

        pub fn jirvents_update(
            k: usize,
            r: usize,
            w: usize,
            n: usize,
            b: usize,
            codeword: *mut u8,
            codeword_len: usize,
            serials: *mut u32,
            serials_len: usize,
            change: *const u8,
            change_len: usize,
            to: u32,
            serial: u32,
            reached: u32,
        ) -> u32;

        pub fn jirvents_repair(
            k: usize,
            r: usize,
            w: usize,
            n: usize,
            b: usize,
            codeword: *mut u8,
            codeword_len: usize,
            serials: *mut u32,
            serials_len: usize,
            from: u32,
            lost: u32,
        ) -> u32;

        pub fn jirvents_reconfigure(
            k: usize,
            r: usize,
            w: usize,
            n: usize,
            b: usize,
            k2: usize,
            r2: usize,
            w2: usize,
            n2: usize,
            codeword: *const u8,
            codeword_len: usize,
            serials: *const u32,
            serials_len: usize,
            from: u32,
            to: u32,
            message: *const u8,
            message_len: usize,
            out: *mut u8,
            out_len: usize,
            out_serials: *mut u32,
            out_serials_len: usize,
        ) -> u32;

        /// Writes `set`, `tried` and `distance` with answer 0 only.
        pub fn jirvents_check(
            k: usize,
            r: usize,
            w: usize,
            n: usize,
            b: usize,
            codeword: *const u8,
            codeword_len: usize,
            budget: usize,
            set: *mut u32,
            tried: *mut usize,
            distance: *mut usize,
        ) -> u32;

        /// Writes `start` with answer 0 only.
        pub fn jirvents_view(
            k: usize,
            r: usize,
            w: usize,
            n: usize,
            b: usize,
            codeword: *const u8,
            codeword_len: usize,
            node: u8,
            start: *mut usize,
        ) -> u32;

        /// Writes `column` with answer 15 only.
        pub fn jirvents_invert(
            side: usize,
            matrix: *const u8,
            matrix_len: usize,
            out: *mut u8,
            out_len: usize,
            column: *mut usize,
        ) -> u32;
    }
}

/// An answer as a result.
fn served(number: u32) -> Result<(), Refusal> {
    match number {
        0 => Ok(()),
        number => Err(Refusal { number }),
    }
}

/// Writes to `codeword` (n·b bytes) the blocks of a message (k·b bytes) and a
/// slack ((n - w)·b bytes), and 0 to each of the n `serials`, whatever both held.
///
/// Puts the questions 1 to 6.
pub fn encode(
    p: Params,
    message: &[u8],
    slack: &[u8],
    codeword: &mut [u8],
    serials: &mut [u32],
) -> Result<(), Refusal> {
    // SAFETY: each pointer and length is that of a slice borrowed for the call.
    served(unsafe {
        raw::jirvents_encode(
            p.k,
            p.r,
            p.w,
            p.n,
            p.b,
            message.as_ptr(),
            message.len(),
            slack.as_ptr(),
            slack.len(),
            codeword.as_mut_ptr(),
            codeword.len(),
            serials.as_mut_ptr(),
            serials.len(),
        )
    })
}

/// Writes to `out` (k·b bytes) the message that the blocks of the q lowest of
/// `from`, r nodes, hold; `codeword` has n·b bytes. Whether the blocks agree is
/// not tested: any q blocks hold one message.
///
/// Puts the questions 1 to 8.
pub fn decode(p: Params, codeword: &[u8], from: u32, out: &mut [u8]) -> Result<(), Refusal> {
    // SAFETY: each pointer and length is that of a slice borrowed for the call.
    served(unsafe {
        raw::jirvents_decode(
            p.k,
            p.r,
            p.w,
            p.n,
            p.b,
            codeword.as_ptr(),
            codeword.len(),
            from,
            out.as_mut_ptr(),
            out.len(),
        )
    })
}

/// Writes to `out` (w·b bytes) what a change of the message (k·b bytes, to be
/// added to it) adds to the blocks of `to`, w nodes, in rising order. All other
/// blocks stay, and no block has to be read.
///
/// Puts the questions 1 to 8.
pub fn delta(p: Params, change: &[u8], to: u32, out: &mut [u8]) -> Result<(), Refusal> {
    // SAFETY: each pointer and length is that of a slice borrowed for the call.
    served(unsafe {
        raw::jirvents_delta(
            p.k,
            p.r,
            p.w,
            p.n,
            p.b,
            change.as_ptr(),
            change.len(),
            to,
            out.as_mut_ptr(),
            out.len(),
        )
    })
}

/// Sends a change of the message (k·b bytes) through the w nodes of `to` under
/// `serial`: each of them that is in `reached` and whose serial, of the n
/// `serials`, is below this one adds to its block in `codeword` (n·b bytes) what
/// [`delta`] tells, and takes the serial. Every other byte and serial stays.
/// `reached` may have any bits; a send that moves no node is accepted.
///
/// Puts the questions 1 to 8 and 24.
pub fn update(
    p: Params,
    codeword: &mut [u8],
    serials: &mut [u32],
    change: &[u8],
    to: u32,
    serial: u32,
    reached: u32,
) -> Result<(), Refusal> {
    // SAFETY: each pointer and length is that of a slice borrowed for the call.
    served(unsafe {
        raw::jirvents_update(
            p.k,
            p.r,
            p.w,
            p.n,
            p.b,
            codeword.as_mut_ptr(),
            codeword.len(),
            serials.as_mut_ptr(),
            serials.len(),
            change.as_ptr(),
            change.len(),
            to,
            serial,
            reached,
        )
    })
}

/// Writes in `codeword` (n·b bytes) the blocks of the nodes of `lost` anew, from
/// those of the q lowest of `from`, r other nodes; of the n `serials` those of
/// `lost` become the highest of all r. Every other byte and serial stays; `lost`
/// may be empty.
///
/// Puts the questions 1 to 9.
pub fn repair(
    p: Params,
    codeword: &mut [u8],
    serials: &mut [u32],
    from: u32,
    lost: u32,
) -> Result<(), Refusal> {
    // SAFETY: each pointer and length is that of a slice borrowed for the call.
    served(unsafe {
        raw::jirvents_repair(
            p.k,
            p.r,
            p.w,
            p.n,
            p.b,
            codeword.as_mut_ptr(),
            codeword.len(),
            serials.as_mut_ptr(),
            serials.len(),
            from,
            lost,
        )
    })
}

/// Writes to `out` (n'·b bytes, the shape's n') the codeword for a new shape and
/// a new message (k'·b bytes), and to `out_serials` its n' serials. `codeword` has
/// the old n·b bytes, `serials` the old n; `from` names r nodes up to n, `to` w'
/// nodes up to n'. The blocks of the nodes of `to` and of nodes above n are new and
/// take the highest serial of all r; the others are copied and keep theirs, so a
/// flat node can be left out of both sets; nodes above n' are dropped. The new
/// blocks are found from those of the q lowest of `from`.
///
/// Puts the questions 1 to 5, 11 to 14, 6, 7, 8.
#[allow(clippy::too_many_arguments)]
pub fn reconfigure(
    p: Params,
    shape: Shape,
    codeword: &[u8],
    serials: &[u32],
    from: u32,
    to: u32,
    message: &[u8],
    out: &mut [u8],
    out_serials: &mut [u32],
) -> Result<(), Refusal> {
    // SAFETY: each pointer and length is that of a slice borrowed for the call.
    served(unsafe {
        raw::jirvents_reconfigure(
            p.k,
            p.r,
            p.w,
            p.n,
            p.b,
            shape.k,
            shape.r,
            shape.w,
            shape.n,
            codeword.as_ptr(),
            codeword.len(),
            serials.as_ptr(),
            serials.len(),
            from,
            to,
            message.as_ptr(),
            message.len(),
            out.as_mut_ptr(),
            out.len(),
            out_serials.as_mut_ptr(),
            out_serials.len(),
        )
    })
}

/// A node set serves if one message and slack give the blocks of all nodes outside
/// it, in `codeword` (n·b bytes). Seeks the smallest. Sets are tried by size from 0,
/// the empty set first, and within a size by number; at most `budget` of them, which
/// may be any number, 0 too. If one serves, [`set`](Blame::set) is the first that
/// does, [`tried`](Blame::tried) how many were tried, that one among them, and
/// [`distance`](Blame::distance) 0. If none does, `set` is the nodes q+1 to n, which
/// always serve, `tried` the budget, and `distance` their number less the size of
/// the first set not tried. No set that serves is smaller than `set` by more than
/// `distance`.
///
/// If the blocks of some message and slack differ from the codeword's at no more
/// than (n - q)/2 nodes, and the budget is above the number of sets that come before
/// the set of these (as it is where `tried` is below it; 1 + n does for one node),
/// `set` is exactly these nodes. With more damage it may name sound ones: with
/// n - q = 1 it is node 1, whichever node is damaged (node n if the budget is under
/// 2).
///
/// The budget bounds the time: of 32 nodes up to 2^32 - 32 sets may be tried.
///
/// Puts the questions 1 to 6.
pub fn check(p: Params, codeword: &[u8], budget: usize) -> Result<Blame, Refusal> {
    let (mut set, mut tried, mut distance) = (0, 0, 0);
    // SAFETY: the pointer and length are those of a slice borrowed for the call,
    // and `set`, `tried` and `distance` are locals.
    served(unsafe {
        raw::jirvents_check(
            p.k,
            p.r,
            p.w,
            p.n,
            p.b,
            codeword.as_ptr(),
            codeword.len(),
            budget,
            &mut set,
            &mut tried,
            &mut distance,
        )
    })?;
    Ok(Blame {
        set,
        tried,
        distance,
    })
}

/// The block of one node, counted from 1: b of the n·b bytes of `codeword`.
///
/// Puts the questions 1 to 6 and 10.
pub fn view(p: Params, codeword: &[u8], node: u8) -> Result<&[u8], Refusal> {
    let mut start = 0;
    // SAFETY: the pointer and length are those of a slice borrowed for the call,
    // and `start` is a local.
    served(unsafe {
        raw::jirvents_view(
            p.k,
            p.r,
            p.w,
            p.n,
            p.b,
            codeword.as_ptr(),
            codeword.len(),
            node,
            &mut start,
        )
    })?;
    Ok(&codeword[start..start + p.b])
}

/// Writes to `out` the inverse of a square matrix over the field. Both have
/// side·side bytes and are stored by rows.
///
/// Puts the questions 16, 6, 15.
pub fn invert(side: usize, matrix: &[u8], out: &mut [u8]) -> Result<(), InvertError> {
    let mut column = 0;
    // SAFETY: each pointer and length is that of a slice borrowed for the call,
    // and `column` is a local.
    let number = unsafe {
        raw::jirvents_invert(
            side,
            matrix.as_ptr(),
            matrix.len(),
            out.as_mut_ptr(),
            out.len(),
            &mut column,
        )
    };
    match number {
        15 => Err(InvertError::Singular { column }),
        number => served(number).map_err(InvertError::Refused),
    }
}

/// What the safe functions do not show: numbers that are not written.
#[cfg(test)]
mod tests {
    use super::raw::{jirvents_check, jirvents_invert, jirvents_view};

    /// View at (1,2,2,3) with this b, on a codeword of this length; 99 stands where
    /// nothing was written.
    fn viewed(b: usize, length: usize, node: u8) -> (u32, usize) {
        let (codeword, mut start) = ([7; 8], 99);
        let from = codeword.as_ptr();
        // SAFETY: `length` is at most that of the codeword.
        let number = unsafe { jirvents_view(1, 2, 2, 3, b, from, length, node, &mut start) };
        (number, start)
    }

    #[test]
    fn a_refusal_leaves_start() {
        assert_eq!(viewed(0, 6, 1), (5, 99));
        assert_eq!(viewed(2, 7, 1), (6, 99));
        assert_eq!(viewed(2, 6, 0), (10, 99));
        assert_eq!(viewed(2, 6, 4), (10, 99));
        assert_eq!(viewed(2, 6, 3), (0, 4));
    }

    /// Check with these k, r, w, n and b, on a codeword of this length: its number,
    /// set, tried and distance; 99 stands where nothing was written.
    fn checked(p: [usize; 5], length: usize, budget: usize) -> (u32, u32, usize, usize) {
        let (codeword, [k, r, w, n, b]) = ([7; 8], p);
        let (mut set, mut tried, mut distance) = (99, 99, 99);
        // SAFETY: `length` is at most that of the codeword.
        let number = unsafe {
            jirvents_check(
                k,
                r,
                w,
                n,
                b,
                codeword.as_ptr(),
                length,
                budget,
                &mut set,
                &mut tried,
                &mut distance,
            )
        };
        (number, set, tried, distance)
    }

    #[test]
    fn a_refusal_leaves_set_tried_and_distance() {
        for budget in [0, 1, 2, usize::MAX] {
            let number = |p, length| {
                let (number, set, tried, distance) = checked(p, length, budget);
                assert_eq!((set, tried, distance), (99, 99, 99));
                number
            };
            assert_eq!(number([1, 2, 2, 33, 2], 6), 1);
            assert_eq!(number([1, 4, 2, 3, 2], 6), 2);
            assert_eq!(number([0, 2, 2, 3, 2], 6), 3);
            assert_eq!(number([2, 2, 2, 3, 2], 6), 4);
            assert_eq!(number([1, 2, 2, 3, 0], 6), 5);
            assert_eq!(number([1, 2, 2, 3, 2], 7), 6);
        }
        let p = [1, 2, 2, 3, 2];
        assert_eq!(checked(p, 6, 0), (0, 0b100, 0, 1));
        assert_eq!(checked(p, 6, 1), (0, 0b100, 1, 0));
        assert_eq!(checked(p, 6, 2), (0, 0b001, 2, 0));
        assert_eq!(checked(p, 6, usize::MAX), (0, 0b001, 2, 0));
    }

    /// The inverse of a matrix that is said to have this side: its number, and the
    /// column; 99 stands where nothing was written.
    fn inverted(side: usize, matrix: &[u8]) -> (u32, usize) {
        let (mut out, mut column) = ([0; 1024], 99);
        let (from, to, length) = (matrix.as_ptr(), out.as_mut_ptr(), matrix.len());
        // SAFETY: no matrix here is longer than `out`.
        let number = unsafe { jirvents_invert(side, from, length, to, length, &mut column) };
        (number, column)
    }

    #[test]
    fn only_question_15_gives_a_column() {
        for side in 1..=32 {
            let mut bytes = [0; 1024];
            bytes.iter_mut().step_by(side + 1).for_each(|b| *b = 1);
            let identity = &bytes[..side * side];
            assert_eq!(inverted(side, identity), (0, 99));
            assert_eq!(inverted(side, &identity[1..]), (6, 99));
        }
        assert_eq!(inverted(2, &[0, 1, 0, 1]), (15, 1));
        assert_eq!(inverted(2, &[1, 0, 1, 0]), (15, 2));
        assert_eq!(inverted(2, &[1, 1, 1, 1]), (15, 2));
        for side in [0, 33, 1 << 32, usize::MAX] {
            assert_eq!(inverted(side, &[1, 0, 0, 1]), (16, 99));
        }
    }
}
