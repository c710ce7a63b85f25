//! What a stolen handful of traps tells, as request 2026-07 has it. Lists of accepted
//! changes and rebuilds, at random and bound by none of request 2026-03's rules for
//! lists, are used after the set-ups of two messages. The second gets every slack
//! there is, and for every choice of traps it is counted with how many of them those
//! traps end with the first's bytes. The tests can be put to any implementation.

use crate::calls::Sending;
use crate::cases::Calls;
use crate::corpus::draft::all;
use crate::corpus::{any_shape, shapes, Rng};
use crate::lists::Counts;
use crate::pair::{traps_of, Pair};
use crate::{Arrangement, Shape};
use std::ops::RangeInclusive;

/// A change that was begun. Others may have its serial, with another W and other
/// bytes.
struct Change {
    d: Vec<u8>,
    write: u32,
    serial: u32,
    /// The traps reached so far.
    reached: u32,
}

#[derive(Debug)]
enum Event {
    /// The change of this index goes out.
    Send {
        change: usize,
        reached: u32,
    },
    Rebuild {
        read: u32,
        lost: u32,
    },
}

/// Changes and rebuilds that must be accepted after every set-up of the arrangement.
struct List {
    a: Arrangement,
    changes: Vec<Change>,
    events: Vec<Event>,
    /// What the serials are after the events, whatever was set up.
    serials: Vec<u32>,
}

impl List {
    fn any(rng: &mut Rng, a: Arrangement, length: u64, counts: &mut Counts) -> List {
        let mut list = List {
            a,
            changes: Vec::new(),
            events: Vec::new(),
            serials: vec![0; a.shape.n as usize],
        };
        for _ in 0..length {
            if rng.chance(60) {
                list.send(rng, counts);
            } else {
                list.rebuild(rng, counts);
            }
        }
        let (l, is_loose) = (a.shape.l(), a.shape.r > a.shape.q());
        counts.note("an arrangement with no slack", l == 0);
        counts.note("a loose one with slack", l > 0 && is_loose);
        counts.note("a list with no event", length == 0);
        counts.note("a list that leaves a change open", list.open() > 0);
        list
    }

    /// How many changes are open.
    fn open(&self) -> usize {
        let is_open = |change: &&Change| change.write & !change.reached != 0;
        self.changes.iter().filter(is_open).count()
    }

    /// Some change that was begun goes out again, at any time, or another begins. The
    /// traps of W that are reached take its serial if it is above their own.
    fn send(&mut self, rng: &mut Rng, counts: &mut Counts) {
        let begun = self.changes.len();
        let again = begun > 0 && rng.chance(35);
        let index = if again {
            rng.below(begun as u64) as usize
        } else {
            self.begin(rng, counts);
            begun
        };
        let Change { write, serial, .. } = self.changes[index];
        let some = rng.word() as u32;
        let reached = rng.pick(&[write, u32::MAX, some, some, write & some, 0]);
        self.changes[index].reached |= reached;
        let before = self.serials.clone();
        for place in places(write & reached) {
            self.serials[place] = serial.max(before[place]);
        }
        self.events.push(Event::Send {
            change: index,
            reached,
        });
        let is_partial = write & reached != 0 && write & !reached != 0;
        counts.note("a partial send", is_partial);
        counts.note("a change sent again", again);
        counts.note("a send that moves nobody", before == self.serials);
        counts.note("several changes open", self.open() > 1);
    }

    /// Another change: its serial mostly above all before, else any.
    fn begin(&mut self, rng: &mut Rng, counts: &mut Counts) {
        let Shape { k, w, n, .. } = self.a.shape;
        let before: Vec<u32> = self.changes.iter().map(|change| change.serial).collect();
        let highest = before.iter().copied().max().unwrap_or(0);
        let next = highest.saturating_add(1);
        let old = rng.pick(&[&before[..], &[1]].concat());
        let any = (rng.word() as u32).max(1);
        let serial = rng.pick(&[next, next, next, next, next, old, old, any]);
        let serial = if rng.chance(3) { u32::MAX } else { serial };
        counts.note("a serial of another change", before.contains(&serial));
        counts.note("a serial below one before", serial < highest);
        counts.note("the highest serial there is", serial == u32::MAX);
        self.changes.push(Change {
            d: rng.bytes(k * self.a.b),
            write: rng.choose(all(n), w),
            serial,
            reached: 0,
        });
    }

    /// Rebuilt traps take the highest serial in R.
    fn rebuild(&mut self, rng: &mut Rng, counts: &mut Counts) {
        let Shape { r, n, .. } = self.a.shape;
        let read = rng.choose(all(n), r);
        let some = rng.word() as u32;
        let lost = rng.pick(&[u32::MAX, u32::MAX, u32::MAX, some, 0]) & all(n) & !read;
        let of_read = places(read).map(|place| self.serials[place]);
        let highest = of_read.max().expect("r is at least 1");
        for place in places(lost) {
            self.serials[place] = highest;
        }
        self.events.push(Event::Rebuild { read, lost });
        let (is_open, is_loose) = (self.open() > 0, r > self.a.shape.q());
        counts.note("a rebuild", lost != 0);
        counts.note("a rebuild of no trap", lost == 0);
        counts.note("a rebuild while a change is open", lost != 0 && is_open);
        counts.note("a rebuild with traps to spare", lost != 0 && is_loose);
    }

    /// The record that the list ends with after a set-up over any bytes. Every call
    /// must be accepted, and the serials must be the list's.
    fn end(&self, calls: &dyn Calls, rng: &mut Rng, message: &[u8], slack: &[u8]) -> Vec<u8> {
        let Arrangement { shape, b } = self.a;
        let mut record = rng.bytes(shape.n * b);
        let mut serials = vec![rng.word() as u32; shape.n as usize];
        let number = calls.setup(&self.a, message, slack, &mut record, &mut serials);
        assert_eq!(number, 0);
        for event in &self.events {
            let number = self.put(calls, event, &mut record, &mut serials);
            assert_eq!(number, 0, "{:?} {event:?}", self.a);
        }
        assert_eq!(serials, self.serials);
        record
    }

    fn put(&self, calls: &dyn Calls, event: &Event, record: &mut [u8], serials: &mut [u32]) -> u64 {
        match *event {
            Event::Send { change, reached } => {
                let change = &self.changes[change];
                let given = Sending {
                    d: &change.d,
                    write: change.write,
                    serial: change.serial,
                    reached,
                };
                calls.change(&self.a, record, serials, &given)
            }
            Event::Rebuild { read, lost } => calls.rebuild(&self.a, record, serials, read, lost),
        }
    }

    /// The records it ends with for the slacks of these numbers, in this order.
    fn ends(
        &self,
        calls: &dyn Calls,
        rng: &mut Rng,
        message: &[u8],
        slacks: &[u64],
    ) -> Vec<Vec<u8>> {
        let length = (self.a.shape.l() * self.a.b) as usize;
        let end = |number: &u64| self.end(calls, rng, message, &number.to_le_bytes()[..length]);
        slacks.iter().map(end).collect()
    }
}

/// Where the traps of a choice have their serials.
fn places(choice: u32) -> impl Iterator<Item = usize> {
    traps_of(choice).into_iter().map(|trap| trap as usize - 1)
}

/// The traps at which two records have equal bytes.
fn equal_traps(b: u64, first: &[u8], second: &[u8]) -> u32 {
    let blocks = first.chunks(b as usize).zip(second.chunks(b as usize));
    let bits = (0..).zip(blocks).map(|(i, (x, y))| u32::from(x == y) << i);
    bits.sum()
}

/// How many slacks of so many parts there are.
fn count_of_slacks(parts: u64, b: u64) -> u64 {
    1 << (8 * parts * b)
}

/// With how many slacks of the second message a choice of so many traps must end with
/// the first's bytes. For n - w traps it is one, as the request has it. So the blocks of
/// n - w traps take every value, each with one slack, and those of fewer take each of
/// theirs as often as the missing ones have values. A choice of q traps tells the
/// message, and one of n - w or more tells the slack that goes with a message.
fn expected(a: &Arrangement, traps: u64, same_message: bool) -> RangeInclusive<u64> {
    let (l, q) = (a.shape.l(), a.shape.q());
    if traps <= l {
        let count = count_of_slacks(l - traps, a.b);
        count..=count
    } else if same_message {
        1..=1
    } else if traps < q {
        0..=1
    } else {
        0..=0
    }
}

/// One end of the first message against the second's with every slack. Some choice of
/// more than n - w traps, but fewer than q, may rule the second message out.
fn test_end(
    a: &Arrangement,
    first: &[u8],
    seconds: &[Vec<u8>],
    same_message: bool,
    counts: &mut Counts,
) {
    let mut exactly = vec![0; 1 << a.shape.n];
    for second in seconds {
        exactly[equal_traps(a.b, first, second) as usize] += 1;
    }
    for stolen in 0..=all(a.shape.n) {
        let among = |&equal: &u32| stolen & !equal == 0;
        let equal = (0..=all(a.shape.n)).filter(among);
        let found: u64 = equal.map(|traps| exactly[traps as usize]).sum();
        let traps = stolen.count_ones().into();
        let expected = expected(a, traps, same_message);
        let fits = expected.contains(&found);
        assert!(fits, "{a:?} {stolen:b}: {found}, not {expected:?}");
        let is_between = a.shape.l() < traps && traps < a.shape.q();
        counts.note("fewer than q rule a message out", is_between && found == 0);
    }
}

/// A list after the set-ups of two messages: the first with at most so many of its
/// slacks, the second with every one.
fn test_pair(
    calls: &dyn Calls,
    rng: &mut Rng,
    list: &List,
    messages: [&[u8]; 2],
    most: u64,
    counts: &mut Counts,
) {
    let count = count_of_slacks(list.a.shape.l(), list.a.b);
    let every: Vec<u64> = (0..count).collect();
    let mut some = every.clone();
    if most < count {
        some = (0..most).map(|_| rng.below(count)).collect();
    }
    let firsts = list.ends(calls, rng, messages[0], &some);
    let seconds = list.ends(calls, rng, messages[1], &every);
    let same_message = messages[0] == messages[1];
    for (&number, first) in some.iter().zip(&firsts) {
        test_end(&list.a, first, &seconds, same_message, counts);
        if same_message {
            assert_eq!(first, &seconds[number as usize]);
        }
    }
}

/// Another message, one that differs in one byte, and the same.
fn second_messages(rng: &mut Rng, message: &[u8]) -> [Vec<u8>; 3] {
    let length = message.len() as u64;
    let mut near = message.to_vec();
    near[rng.below(length) as usize] ^= rng.range(1, 255) as u8;
    let mut other = rng.bytes(length);
    if other == message {
        other = near.clone();
    }
    [other, near, message.to_vec()]
}

/// Every shape of up to five traps with at most one part of slack, which has one
/// byte: each slack of the first message against every slack of the second.
pub fn test(calls: &dyn Calls, seed: u64) {
    let mut rng = Rng::new(seed);
    let mut counts = Counts::default();
    for shape in (1..=5).flat_map(shapes).filter(|shape| shape.l() <= 1) {
        for _ in 0..12 {
            let b = if shape.l() == 0 { rng.range(1, 3) } else { 1 };
            let length = rng.range(0, 16);
            let list = List::any(&mut rng, shape.with(b), length, &mut counts);
            let message = rng.bytes(shape.k * b);
            for second in second_messages(&mut rng, &message) {
                let messages = [&message[..], &second];
                test_pair(calls, &mut rng, &list, messages, 256, &mut counts);
            }
        }
    }
    counts.test(16, 20);
}

/// A list of eight events, a rebuild while a change is open among them.
fn list_with_rebuild(rng: &mut Rng, a: Arrangement) -> List {
    loop {
        let mut counts = Counts::default();
        let list = List::any(rng, a, 8, &mut counts);
        if counts.0.get("a rebuild while a change is open") > Some(&0) {
            return list;
        }
    }
}

/// Slacks of two bytes, in two parts or in one, tight and loose: some slacks of the
/// first message against every slack of the second.
pub fn test_two_bytes(calls: &dyn Calls, seed: u64) {
    let mut rng = Rng::new(seed);
    for a in [
        Arrangement::new(1, 3, 2, 4, 1),
        Arrangement::new(2, 4, 3, 5, 1),
        Arrangement::new(1, 4, 3, 5, 1),
        Arrangement::new(1, 2, 2, 3, 2),
        Arrangement::new(1, 3, 3, 4, 2),
    ] {
        let list = list_with_rebuild(&mut rng, a);
        let message = rng.bytes(a.shape.k * a.b);
        for second in second_messages(&mut rng, &message) {
            let messages = [&message[..], &second];
            test_pair(calls, &mut rng, &list, messages, 8, &mut Counts::default());
        }
    }
}

/// The slack with which a message has the blocks of another pair at the stolen traps.
fn slack_for(a: &Arrangement, message: &[u8], pair: &Pair, stolen: u32) -> Vec<u8> {
    let wanted: Vec<_> = traps_of(stolen)
        .into_iter()
        .map(|trap| (trap, pair.block(trap)))
        .collect();
    let found = Pair::with_message(message, &a.shape, a.b as usize, &wanted);
    found.message(a.shape.q()).split_off(message.len())
}

/// Any choice of n - w traps: the slack with which they are set up alike ends with equal
/// bytes there, and another one does not.
fn test_found_slack(calls: &dyn Calls, rng: &mut Rng, list: &List) {
    let Arrangement { shape, b } = list.a;
    let [message, other] = [0; 2].map(|_| rng.bytes(shape.k * b));
    let slack = rng.bytes(shape.l() * b);
    let stolen = rng.choose(all(shape.n), shape.l());
    let pair = Pair::new(&message, &slack, b as usize);
    let mut found = slack_for(&list.a, &other, &pair, stolen);
    let first = list.end(calls, rng, &message, &slack);
    let second = list.end(calls, rng, &other, &found);
    assert_eq!(stolen & !equal_traps(b, &first, &second), 0);
    if stolen != 0 {
        found[rng.below(shape.l() * b) as usize] ^= rng.range(1, 255) as u8;
        let second = list.end(calls, rng, &other, &found);
        assert_ne!(stolen & !equal_traps(b, &first, &second), 0);
    }
}

/// Shapes of up to 32 traps, most of which have too many slacks to go through.
pub fn test_large(calls: &dyn Calls, seed: u64) {
    let mut rng = Rng::new(seed);
    let mut counts = Counts::default();
    for _ in 0..1500 {
        let shape = any_shape(&mut rng, 32);
        let (b, length) = (rng.range(1, 3), rng.range(0, 16));
        let list = List::any(&mut rng, shape.with(b), length, &mut counts);
        test_found_slack(calls, &mut rng, &list);
    }
    counts.test(15, 20);
}
