//! One call with all its arguments, to be put to any implementation.

use crate::calls::{Move, Sending};
use crate::{Arrangement, Blame, Shape};

/// An implementation of the calls. Each gives its number and writes its buffers
/// in place.
pub trait Calls {
    /// The column goes with 15 only.
    fn inverse(&self, side: u64, matrix: &[u8], out: &mut [u8]) -> (u64, Option<u64>);
    fn setup(
        &self,
        a: &Arrangement,
        message: &[u8],
        slack: &[u8],
        record: &mut [u8],
        serials: &mut [u32],
    ) -> u64;
    fn reading(&self, a: &Arrangement, record: &[u8], read: u32, out: &mut [u8]) -> u64;
    fn difference(&self, a: &Arrangement, d: &[u8], write: u32, out: &mut [u8]) -> u64;
    fn change(
        &self,
        a: &Arrangement,
        record: &mut [u8],
        serials: &mut [u32],
        given: &Sending,
    ) -> u64;
    fn rebuild(
        &self,
        a: &Arrangement,
        record: &mut [u8],
        serials: &mut [u32],
        read: u32,
        lost: u32,
    ) -> u64;
    fn rearrangement(
        &self,
        a: &Arrangement,
        record: &[u8],
        serials: &[u32],
        given: &Move,
        new: &mut [u8],
        new_serials: &mut [u32],
    ) -> u64;
    /// A refused check gives its number alone.
    fn check(&self, a: &Arrangement, record: &[u8], budget: u64) -> (u64, Option<Blame>);
    fn view<'r>(&self, a: &Arrangement, record: &'r [u8], trap: u64) -> (u64, &'r [u8]);
}

/// This crate's own calls.
pub struct Reference;

impl Calls for Reference {
    fn inverse(&self, side: u64, matrix: &[u8], out: &mut [u8]) -> (u64, Option<u64>) {
        crate::inverse(side, matrix, out)
    }

    fn setup(
        &self,
        a: &Arrangement,
        message: &[u8],
        slack: &[u8],
        record: &mut [u8],
        serials: &mut [u32],
    ) -> u64 {
        crate::setup(a, message, slack, record, serials)
    }

    fn reading(&self, a: &Arrangement, record: &[u8], read: u32, out: &mut [u8]) -> u64 {
        crate::reading(a, record, read, out)
    }

    fn difference(&self, a: &Arrangement, d: &[u8], write: u32, out: &mut [u8]) -> u64 {
        crate::difference(a, d, write, out)
    }

    fn change(
        &self,
        a: &Arrangement,
        record: &mut [u8],
        serials: &mut [u32],
        given: &Sending,
    ) -> u64 {
        crate::change(a, record, serials, given)
    }

    fn rebuild(
        &self,
        a: &Arrangement,
        record: &mut [u8],
        serials: &mut [u32],
        read: u32,
        lost: u32,
    ) -> u64 {
        crate::rebuild(a, record, serials, read, lost)
    }

    fn rearrangement(
        &self,
        a: &Arrangement,
        record: &[u8],
        serials: &[u32],
        given: &Move,
        new: &mut [u8],
        new_serials: &mut [u32],
    ) -> u64 {
        crate::rearrangement(a, record, serials, given, new, new_serials)
    }

    fn check(&self, a: &Arrangement, record: &[u8], budget: u64) -> (u64, Option<Blame>) {
        crate::check(a, record, budget)
    }

    fn view<'r>(&self, a: &Arrangement, record: &'r [u8], trap: u64) -> (u64, &'r [u8]) {
        crate::view(a, record, trap)
    }
}

/// A call and its arguments; a buffer that is written has what it holds before.
#[derive(Clone, Debug)]
pub enum Case {
    Inverse {
        side: u64,
        matrix: Vec<u8>,
        out: Vec<u8>,
    },
    Setup {
        a: Arrangement,
        message: Vec<u8>,
        slack: Vec<u8>,
        record: Vec<u8>,
        serials: Vec<u32>,
    },
    Reading {
        a: Arrangement,
        record: Vec<u8>,
        read: u32,
        out: Vec<u8>,
    },
    Difference {
        a: Arrangement,
        d: Vec<u8>,
        write: u32,
        out: Vec<u8>,
    },
    Change {
        a: Arrangement,
        record: Vec<u8>,
        serials: Vec<u32>,
        d: Vec<u8>,
        write: u32,
        serial: u32,
        reached: u32,
    },
    Rebuild {
        a: Arrangement,
        record: Vec<u8>,
        serials: Vec<u32>,
        read: u32,
        lost: u32,
    },
    Rearrangement {
        a: Arrangement,
        record: Vec<u8>,
        serials: Vec<u32>,
        read: u32,
        to: Shape,
        write: u32,
        message: Vec<u8>,
        new: Vec<u8>,
        new_serials: Vec<u32>,
    },
    Check {
        a: Arrangement,
        record: Vec<u8>,
        budget: u64,
    },
    View {
        a: Arrangement,
        record: Vec<u8>,
        trap: u64,
    },
}

/// What a call leaves.
#[derive(Clone, Debug, PartialEq, Eq)]
pub struct Outcome {
    pub number: u64,
    /// What the buffer holds; of a view, the part.
    pub bytes: Vec<u8>,
    /// What the serials are; of a rearrangement, the new ones.
    pub serials: Vec<u32>,
    /// Check's set, how many it tried, and the distance.
    pub blame: Option<Blame>,
    /// The column that the inverse gives with 15.
    pub column: Option<u64>,
}

impl Outcome {
    fn new(number: u64, bytes: Vec<u8>) -> Outcome {
        Outcome {
            number,
            bytes,
            serials: Vec::new(),
            blame: None,
            column: None,
        }
    }
}

impl Case {
    /// Puts the call to an implementation.
    pub fn run(&self, calls: &dyn Calls) -> Outcome {
        match self {
            Case::Inverse { side, matrix, out } => {
                let mut out = out.clone();
                let (number, column) = calls.inverse(*side, matrix, &mut out);
                Outcome {
                    column,
                    ..Outcome::new(number, out)
                }
            }
            Case::Setup {
                a,
                message,
                slack,
                record,
                serials,
            } => {
                let (mut record, mut serials) = (record.clone(), serials.clone());
                let number = calls.setup(a, message, slack, &mut record, &mut serials);
                Outcome {
                    serials,
                    ..Outcome::new(number, record)
                }
            }
            Case::Reading {
                a,
                record,
                read,
                out,
            } => {
                let mut out = out.clone();
                Outcome::new(calls.reading(a, record, *read, &mut out), out)
            }
            Case::Difference { a, d, write, out } => {
                let mut out = out.clone();
                Outcome::new(calls.difference(a, d, *write, &mut out), out)
            }
            Case::Change {
                a,
                record,
                serials,
                d,
                write,
                serial,
                reached,
            } => {
                let (mut record, mut serials) = (record.clone(), serials.clone());
                let given = Sending {
                    d,
                    write: *write,
                    serial: *serial,
                    reached: *reached,
                };
                let number = calls.change(a, &mut record, &mut serials, &given);
                Outcome {
                    serials,
                    ..Outcome::new(number, record)
                }
            }
            Case::Rebuild {
                a,
                record,
                serials,
                read,
                lost,
            } => {
                let (mut record, mut serials) = (record.clone(), serials.clone());
                let number = calls.rebuild(a, &mut record, &mut serials, *read, *lost);
                Outcome {
                    serials,
                    ..Outcome::new(number, record)
                }
            }
            Case::Rearrangement {
                a,
                record,
                serials: old,
                read,
                to,
                write,
                message,
                new,
                new_serials,
            } => {
                let (mut new, mut serials) = (new.clone(), new_serials.clone());
                let given = Move {
                    read: *read,
                    to: *to,
                    write: *write,
                    message,
                };
                let number = calls.rearrangement(a, record, old, &given, &mut new, &mut serials);
                Outcome {
                    serials,
                    ..Outcome::new(number, new)
                }
            }
            Case::Check { a, record, budget } => {
                let (number, blame) = calls.check(a, record, *budget);
                Outcome {
                    blame,
                    ..Outcome::new(number, Vec::new())
                }
            }
            Case::View { a, record, trap } => {
                let (number, part) = calls.view(a, record, *trap);
                Outcome::new(number, part.to_vec())
            }
        }
    }
}
