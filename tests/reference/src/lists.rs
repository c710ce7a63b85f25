//! Lists of calls against document 01's ledger machine, as requests 2026-03 and
//! 2026-04 have it: sends that break and are repeated, damage to several traps at
//! once, also while a change is open, rebuilds, rearrangements and refused calls,
//! at random over shapes of every sort. They can be put to any implementation.

use crate::calls::{write_blocks, Move, Sending};
use crate::cases::Calls;
use crate::corpus::draft::all;
use crate::corpus::{any_shape, shapes, Rng};
use crate::{Arrangement, Shape};
use std::collections::{BTreeMap, BTreeSet};

/// The change that was last begun.
struct Begun {
    d: Vec<u8>,
    write: u32,
    serial: u32,
    /// The traps reached so far.
    reached: u32,
}

/// How often things came up.
#[derive(Default)]
pub(crate) struct Counts(pub(crate) BTreeMap<&'static str, usize>);

impl Counts {
    pub(crate) fn note(&mut self, what: &'static str, came_up: bool) {
        *self.0.entry(what).or_default() += usize::from(came_up);
    }

    /// There are so many of them, and each came up at least so often.
    pub(crate) fn test(self, things: usize, least: usize) {
        assert_eq!(self.0.len(), things);
        for (what, count) in self.0 {
            assert!(count >= least, "{what}: {count}");
        }
    }
}

/// What the calls are given, and beside it what the ledger machine holds.
struct List<'a> {
    calls: &'a dyn Calls,
    rng: &'a mut Rng,
    a: Arrangement,
    record: Vec<u8>,
    serials: Vec<u32>,
    ledger: Vec<u8>,
    damaged: u32,
    /// The serials of the changes that the ledger has.
    counted: BTreeSet<u32>,
    begun: Begun,
    /// Was anything written since the last send?
    written: bool,
}

impl<'a> List<'a> {
    /// An accepted set-up over any bytes.
    fn open(calls: &'a dyn Calls, rng: &'a mut Rng, a: Arrangement) -> List<'a> {
        let Arrangement { shape, b } = a;
        let (ledger, slack) = (rng.bytes(shape.k * b), rng.bytes(shape.l() * b));
        let mut record = rng.bytes(shape.n * b);
        let mut serials: Vec<u32> = (0..shape.n).map(|_| rng.word() as u32).collect();
        let number = calls.setup(&a, &ledger, &slack, &mut record, &mut serials);
        assert_eq!(number, 0);
        let begun = Begun {
            d: Vec::new(),
            write: 0,
            serial: 0,
            reached: 0,
        };
        List {
            calls,
            rng,
            a,
            record,
            serials,
            ledger,
            damaged: 0,
            counted: BTreeSet::new(),
            begun,
            written: true,
        }
    }

    fn is_closed(&self) -> bool {
        self.begun.write & !self.begun.reached == 0
    }

    fn any_event(&mut self, counts: &mut Counts) {
        match self.rng.below(100) {
            0..=34 => self.send(counts),
            35..=49 => self.damage(counts),
            50..=59 => self.refused(counts),
            60..=69 => self.rebuild(counts),
            70..=79 => self.rearrange(counts),
            _ => self.read(counts),
        }
    }

    /// A change is repeated while it is open, and may be until anything else is
    /// written; else another begins.
    fn send(&mut self, counts: &mut Counts) {
        let again = !self.is_closed() || (!self.written && self.rng.chance(40));
        if !again && !self.begin() {
            return;
        }
        let (write, some) = (self.begun.write, self.rng.word() as u32);
        let choices = [write, u32::MAX, some, some, write & some, 0];
        let reached = self.rng.pick(&choices);
        let before = self.record.clone();
        self.send_to(reached);
        counts.note("a broken send", !self.is_closed());
        counts.note("a repeated send", again);
        counts.note("a send that moves nobody", before == self.record);
    }

    /// The change that was last begun goes out; the ledger has it once.
    fn send_to(&mut self, reached: u32) {
        let given = Sending {
            d: &self.begun.d,
            write: self.begun.write,
            serial: self.begun.serial,
            reached,
        };
        let (record, serials) = (&mut self.record, &mut self.serials);
        let number = self.calls.change(&self.a, record, serials, &given);
        assert_eq!(number, 0);
        if self.counted.insert(given.serial) {
            add(&mut self.ledger, given.d);
        }
        self.begun.reached |= reached;
        self.written = false;
    }

    /// Another change, under a serial above all before; false if there is none.
    fn begin(&mut self) -> bool {
        let Shape { k, w, n, .. } = self.a.shape;
        let last = self.begun.serial;
        let step = self.rng.pick(&[1, 1, 1, 1, 1, 2, 1000, 1 << 20]);
        let step = if self.rng.chance(2) { u32::MAX } else { step };
        let serial = last.saturating_add(step);
        if serial == last {
            return false;
        }
        self.begun = Begun {
            d: self.rng.bytes(k * self.a.b),
            write: self.rng.choose(all(n), w),
            serial,
            reached: 0,
        };
        true
    }

    /// Damage to any set of traps, which keep their serials.
    fn damage(&mut self, counts: &mut Counts) {
        let (b, traps) = (self.a.b, self.damage_set());
        let blocks = self.rng.blocks(traps, b);
        write_blocks(&mut self.record, b, traps, &blocks);
        let (again, new) = (traps & self.damaged, traps & !self.damaged);
        self.damaged |= traps;
        self.written = true;
        counts.note("damage while a change is open", !self.is_closed());
        counts.note("damage to several traps", traps.count_ones() > 1);
        counts.note("damage to no trap", traps == 0);
        counts.note("damage to damaged and undamaged", again != 0 && new != 0);
    }

    /// Damaged and undamaged traps, of which mostly r stay undamaged.
    fn damage_set(&mut self) -> u32 {
        let Shape { r, n, .. } = self.a.shape;
        let undamaged = all(n) & !self.damaged;
        let spare = u64::from(undamaged.count_ones()).saturating_sub(r);
        let most = if self.rng.chance(10) { n } else { spare };
        let size = self.rng.pick(&[0, 1, 1, 2, 3, 32]).min(most);
        let again = self.rng.range(0, 3);
        self.rng.choose(undamaged, size) | self.rng.choose(self.damaged, again)
    }

    /// R of undamaged traps, between closed changes.
    fn sound(&mut self) -> Option<u32> {
        let Shape { r, n, .. } = self.a.shape;
        let read = self.rng.choose(all(n) & !self.damaged, r);
        let enough = u64::from(read.count_ones()) == r;
        (enough && self.is_closed()).then_some(read)
    }

    fn read(&mut self, counts: &mut Counts) {
        let Some(read) = self.sound() else { return };
        let mut out = self.rng.bytes(self.a.shape.k * self.a.b);
        let number = self.calls.reading(&self.a, &self.record, read, &mut out);
        assert_eq!(number, 0);
        assert_eq!(out, self.ledger);
        counts.note("a reading", true);
    }

    fn rebuild(&mut self, counts: &mut Counts) {
        let Some(read) = self.sound() else { return };
        let some = self.rng.word() as u32;
        let lost = self.rng.pick(&[self.damaged, u32::MAX, some]) & all(self.a.shape.n) & !read;
        let (record, serials) = (&mut self.record, &mut self.serials);
        let number = self.calls.rebuild(&self.a, record, serials, read, lost);
        assert_eq!(number, 0);
        self.damaged &= !lost;
        self.written = true;
        counts.note("a rebuild", lost != 0);
    }

    fn rearrange(&mut self, counts: &mut Counts) {
        let Some(read) = self.sound() else { return };
        let (b, to) = (self.a.b, any_shape(self.rng, 32));
        let message = self.rng.bytes(to.k * b);
        let given = Move {
            read,
            to,
            write: self.rng.choose(all(to.n), to.w),
            message: &message,
        };
        let mut new = self.rng.bytes(to.n * b);
        let mut serials = vec![0xEEEE; to.n as usize];
        let (record, old) = (&self.record, &self.serials);
        let number = self
            .calls
            .rearrangement(&self.a, record, old, &given, &mut new, &mut serials);
        assert_eq!(number, 0);
        self.damaged &= !given.write & all(self.a.shape.n) & all(to.n);
        (self.a, self.record, self.serials) = (to.with(b), new, serials);
        self.ledger = message;
        self.written = true;
        counts.note("a rearrangement", true);
    }

    /// A refused change or rebuild alters nothing, also while a change is open.
    fn refused(&mut self, counts: &mut Counts) {
        let Shape { k, r, w, n } = self.a.shape;
        let d = self.rng.bytes(k * self.a.b);
        let write = self.rng.choose(all(n), w);
        let (before, old) = (self.record.clone(), self.serials.clone());
        let (record, serials) = (&mut self.record, &mut self.serials);
        let refused = |write, serial| Sending {
            d: &d,
            write,
            serial,
            reached: u32::MAX,
        };
        let (a, calls) = (&self.a, self.calls);
        assert_eq!(calls.change(a, record, serials, &refused(write, 0)), 24);
        assert_eq!(calls.change(a, record, serials, &refused(0, u32::MAX)), 8);
        assert_eq!(calls.rebuild(a, record, serials, all(r), 1), 9);
        assert_eq!((&self.record, &self.serials), (&before, &old));
        counts.note("refused while a change is open", !self.is_closed());
    }

    /// The whole change once more, if it is open; then a reading.
    fn close(&mut self, counts: &mut Counts) {
        if !self.is_closed() {
            self.send_to(self.begun.write);
        }
        self.read(counts);
    }
}

fn add(ledger: &mut [u8], d: &[u8]) {
    for (held, added) in ledger.iter_mut().zip(d) {
        *held ^= added;
    }
}

/// Runs lists: every reading must be the ledger, or this panics.
pub fn test(calls: &dyn Calls, seed: u64) {
    let mut rng = Rng::new(seed);
    let mut counts = Counts::default();
    let mut starts: Vec<Shape> = (1..=5).flat_map(shapes).collect();
    starts.extend((0..1500).map(|_| any_shape(&mut rng, 32)));
    for shape in starts {
        let b = rng.range(1, 3);
        let mut list = List::open(calls, &mut rng, shape.with(b));
        for _ in 0..60 {
            list.any_event(&mut counts);
        }
        list.close(&mut counts);
    }
    counts.test(11, 1001);
}
