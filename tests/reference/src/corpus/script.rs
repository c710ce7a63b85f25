//! Histories: a season file is written event by event, with a ledger beside it
//! as document 01's ledger machine has it. Where it is settled that a reading
//! gives the ledger's bytes, that is promised, and tested when the file's output
//! is made. The ledger machine settles it where all r traps of each R were
//! undamaged; by the calls' definitions the q lowest of each R are enough.

use crate::corpus::draft::{self, all, Draft};
use crate::corpus::rng::Rng;
use crate::corpus::shapes::{any_shape, wrong_shape};
use crate::{Arrangement, Shape};

/// The message that the event of this number must read.
pub type Promise = (usize, Vec<u8>);

pub struct Script<'a> {
    pub rng: &'a mut Rng,
    pub now: Arrangement,
    pub draft: Draft,
    pub promises: Vec<Promise>,
    ledger: Vec<u8>,
    damaged: u32,
    /// False once a rebuild or rearrangement used damaged traps.
    sound: bool,
}

impl<'a> Script<'a> {
    pub fn new(rng: &'a mut Rng, now: Arrangement) -> Script<'a> {
        let message = rng.bytes(now.shape.k * now.b);
        let slack = rng.bytes(now.shape.l() * now.b);
        let draft = Draft {
            arrangement: now,
            message: message.clone(),
            slack,
            events: Vec::new(),
        };
        Script {
            rng,
            now,
            draft,
            promises: Vec::new(),
            ledger: message,
            damaged: 0,
            sound: true,
        }
    }

    pub fn push(&mut self, event: Vec<u8>) {
        self.draft.events.push(event);
    }

    /// A choice of so many traps of 1..n.
    fn any(&mut self, size: u64) -> u32 {
        self.rng.choose(all(self.now.shape.n), size)
    }

    /// The q lowest traps of a choice.
    pub fn lowest(&self, choice: u32) -> u32 {
        let q = self.now.shape.q();
        let below = |bit: u32| choice & ((1 << bit) - 1);
        let used = |bit: &u32| u64::from(below(*bit).count_ones()) < q;
        choice & (0..32).filter(used).fold(0, |bits, bit| bits | 1 << bit)
    }

    /// Is every trap that this R brings into use undamaged?
    fn untouched(&self, read: u32) -> bool {
        self.lowest(read) & self.damaged == 0
    }

    /// R for a rebuild or rearrangement: undamaged if there are enough.
    fn read_choice(&mut self) -> u32 {
        let undamaged = all(self.now.shape.n) & !self.damaged;
        let read = self.rng.choose(undamaged, self.now.shape.r);
        if u64::from(read.count_ones()) == self.now.shape.r {
            return read;
        }
        self.any(self.now.shape.r)
    }

    pub fn change(&mut self) {
        let write = self.any(self.now.shape.w);
        self.change_through(write);
    }

    pub fn change_through(&mut self, write: u32) {
        let d = self.rng.bytes(self.now.shape.k * self.now.b);
        for (held, added) in self.ledger.iter_mut().zip(&d) {
            *held ^= added;
        }
        self.push(draft::change(write, &d));
    }

    /// Damage to a few traps, mostly; at times to none or to all.
    pub fn damage(&mut self) {
        let n = self.now.shape.n;
        let size = self.rng.pick(&[0, 1, 1, 1, 1, 2, 2, 2, 3, 3, 4, n]);
        self.damage_some(size);
    }

    /// Damage to so many traps.
    pub fn damage_some(&mut self, size: u64) {
        let traps = self.any(size);
        self.damage_to(traps);
    }

    pub fn damage_to(&mut self, traps: u32) {
        let blocks = self.rng.blocks(traps, self.now.b);
        self.damaged |= traps;
        self.push(draft::damage(traps, &blocks));
    }

    /// Rebuilds some traps outside R, mostly the damaged ones.
    pub fn rebuild(&mut self) {
        if self.rng.chance(60) {
            return self.repair();
        }
        let read = self.read_choice();
        let size = self.rng.range(0, 32);
        let lost = self.rng.choose(all(self.now.shape.n) & !read, size);
        self.rebuild_from(read, lost);
    }

    /// Rebuilds the damaged traps outside R.
    pub fn repair(&mut self) {
        let read = self.read_choice();
        self.rebuild_from(read, self.damaged & !read);
    }

    pub fn rebuild_from(&mut self, read: u32, lost: u32) {
        self.sound &= self.untouched(read);
        self.damaged &= !lost;
        self.push(draft::rebuild(read, lost));
    }

    /// A reading, of undamaged traps where that can be.
    pub fn reading(&mut self) {
        let read = if self.rng.chance(80) {
            self.read_choice()
        } else {
            self.any(self.now.shape.r)
        };
        self.read(read);
    }

    pub fn read(&mut self, read: u32) {
        self.push(draft::reading(read));
        if self.sound && self.untouched(read) {
            let promise = (self.draft.events.len(), self.ledger.clone());
            self.promises.push(promise);
        }
    }

    /// Readings through r neighbours, starting at each trap in turn, so that
    /// every block that a reading can use has a part in some line of the output.
    pub fn read_windows(&mut self) {
        let Shape { r, n, .. } = self.now.shape;
        for start in 0..n {
            let traps = (start..start + r).map(|t| t % n);
            self.read(traps.fold(0, |choice, t| choice | 1 << t));
        }
    }

    /// A few such readings.
    pub fn read_some_windows(&mut self, count: u64) {
        let Shape { r, n, .. } = self.now.shape;
        for _ in 0..count {
            let start = self.rng.below(n);
            let traps = (start..start + r).map(|t| t % n);
            self.read(traps.fold(0, |choice, t| choice | 1 << t));
        }
    }

    pub fn rearrange(&mut self) {
        let to = any_shape(self.rng, 32);
        self.rearrange_to(to);
    }

    pub fn rearrange_to(&mut self, to: Shape) {
        let read = self.read_choice();
        let write = self.rng.choose(all(to.n), to.w);
        self.rearrange_through(read, to, write);
    }

    pub fn rearrange_through(&mut self, read: u32, to: Shape, write: u32) {
        let message = self.rng.bytes(to.k * self.now.b);
        self.push(draft::rearrangement(read, &to, write, &message));
        self.sound &= self.untouched(read);
        self.damaged &= !write & all(self.now.shape.n) & all(to.n);
        self.ledger = message;
        self.now = to.with(self.now.b);
    }

    /// One event of a kind that is accepted.
    pub fn any_event(&mut self) {
        match self.rng.below(100) {
            0..=24 => self.change(),
            25..=39 => self.damage(),
            40..=59 => self.rebuild(),
            60..=84 => self.reading(),
            _ => self.rearrange(),
        }
    }

    /// One event that is refused; it changes nothing here either.
    pub fn refused_event(&mut self) {
        let event = match self.rng.below(5) {
            0 => self.refused_change(),
            1 => self.refused_rebuild(),
            2 => self.refused_damage(),
            3 => self.refused_reading(),
            _ => self.refused_rearrangement(),
        };
        self.push(event);
    }

    /// A choice that question 7 or 8 refuses.
    fn wrong_choice(&mut self, n: u64, size: u64) -> u32 {
        let right = self.rng.choose(all(n), size);
        if n < 32 && self.rng.chance(50) {
            let bit = self.rng.range(n, 31);
            return right | 1 << bit;
        }
        let other = self.rng.range(0, n - 1);
        let other = if other >= size { other + 1 } else { other };
        self.rng.choose(all(n), other)
    }

    fn refused_change(&mut self) -> Vec<u8> {
        let Shape { k, w, n, .. } = self.now.shape;
        let d = self.rng.bytes(k * self.now.b);
        draft::change(self.wrong_choice(n, w), &d)
    }

    fn refused_reading(&mut self) -> Vec<u8> {
        let Shape { r, n, .. } = self.now.shape;
        draft::reading(self.wrong_choice(n, r))
    }

    /// Refused by R's size or traps, by L above n, or by a common trap.
    fn refused_rebuild(&mut self) -> Vec<u8> {
        let Shape { r, n, .. } = self.now.shape;
        let read = self.any(r);
        let some = self.rng.word() as u32;
        match self.rng.below(3) {
            0 => draft::rebuild(self.wrong_choice(n, r), some & all(n)),
            1 if n < 32 => draft::rebuild(read, some | 1 << n),
            _ => {
                let common = self.rng.choose(read, 1);
                let others = if self.rng.chance(50) { some } else { !read };
                draft::rebuild(read, (others & all(n)) | common)
            }
        }
    }

    /// Refused by a trap above n, alone or with others; if there is none, the
    /// event is a refused reading.
    fn refused_damage(&mut self) -> Vec<u8> {
        let above = !all(self.now.shape.n);
        if above == 0 {
            return self.refused_reading();
        }
        let one = self.rng.choose(above, 1);
        let few = self.any(2);
        let some = self.rng.word() as u32;
        let traps = self
            .rng
            .pick(&[one, one | few, one | few, one | some, u32::MAX]);
        let blocks = self.rng.blocks(traps, self.now.b);
        draft::damage(traps, &blocks)
    }

    fn refused_rearrangement(&mut self) -> Vec<u8> {
        let read = self.any(self.now.shape.r);
        let good = any_shape(self.rng, 32);
        let write = self.rng.choose(all(good.n), good.w);
        let (read, to, write) = match self.rng.below(4) {
            0 => (
                self.wrong_choice(self.now.shape.n, self.now.shape.r),
                good,
                write,
            ),
            1 => (read, good, self.wrong_choice(good.n, good.w)),
            _ => (read, wrong_shape(self.rng, good), write),
        };
        let message = self.rng.bytes(to.k * self.now.b);
        draft::rearrangement(read, &to, write, &message)
    }
}
