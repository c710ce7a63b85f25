//! The part of the corpus that is always written: openings, choices, refusals,
//! faults. Boxes of cards, and limits with large files, have modules of their own.

use crate::corpus::draft::{all, change, damage, reading, rearrangement, rebuild, Counts, Draft};
use crate::corpus::rng::Rng;
use crate::corpus::script::Script;
use crate::corpus::shapes::{any_shape, looser, shapes, tight, tight_shapes};
use crate::corpus::store::Store;
use crate::{Arrangement, Shape};
use std::io;

pub fn write(store: &mut Store, rng: &mut Rng) -> io::Result<()> {
    examples(store)?;
    truncated(store, rng)?;
    first_counts(store)?;
    wrong_counts(store, rng)?;
    slack_lengths(store, rng)?;
    edges(store, rng)?;
    one_short(store, rng)?;
    refused_setups(store, rng)?;
    corners(store, rng)?;
    shape_walks(store, rng)?;
    shape_openings(store, rng)?;
    all_choices(store, rng)?;
    refusals(store, rng)?;
    question_order(store, rng)?;
    unknown_kinds(store, rng)?;
    leftovers(store, rng)?;
    new_counts(store, rng)?;
    copied_damage(store, rng)?;
    spare_damage(store, rng)?;
    growth(store, rng)
}

/// Document 01's own example, in the form of request 2026-04.
pub fn example() -> Draft {
    Draft {
        arrangement: Arrangement::new(1, 2, 2, 3, 1),
        message: vec![7],
        slack: vec![1],
        events: vec![
            change(3, &[5]),
            reading(5),
            change(5, &[2]),
            damage(1, &[0xFF]),
            reading(6),
        ],
    }
}

/// The example, whole, cut at every byte, with bytes behind it, and with every
/// count of events that is near.
fn examples(store: &mut Store) -> io::Result<()> {
    let draft = example();
    let bytes = draft.bytes();
    store.put("example", &bytes)?;
    for length in 0..bytes.len() {
        store.put("truncated", &bytes[..length])?;
    }
    for extra in [&[0][..], &[4], &[4, 0, 0, 0, 3], &[0xFF; 300]] {
        store.put("leftover", &[&bytes, extra].concat())?;
    }
    for events in [0, 1, 2, 3, 4, 6, 7, 255, 256, 0x0500, 65_535] {
        let counts = Counts {
            events,
            ..draft.counts()
        };
        store.put("counts", &draft.bytes_with(&counts))?;
    }
    Ok(())
}

/// A short file with every kind of event, and with two parts of each sort.
fn small_file(rng: &mut Rng, now: Arrangement, to: Shape) -> Vec<u8> {
    let mut script = Script::new(rng, now);
    script.damage_some(2);
    script.rebuild();
    script.change();
    script.reading();
    script.rearrange_to(to);
    script.change();
    script.reading();
    script.draft.bytes()
}

/// Every truncation of some small files.
fn truncated(store: &mut Store, rng: &mut Rng) -> io::Result<()> {
    let files = [
        (Arrangement::new(2, 4, 3, 5, 2), tight(1, 2, 3)),
        (Arrangement::new(1, 1, 2, 2, 1), tight(2, 2, 4)),
        (Arrangement::new(1, 2, 1, 2, 3), tight(2, 3, 3)),
        (Arrangement::new(2, 4, 4, 5, 2), Shape::new(1, 3, 2, 3)),
    ];
    for (now, to) in files {
        let bytes = small_file(rng, now, to);
        for length in 0..=bytes.len() {
            store.put("truncated", &bytes[..length])?;
        }
    }
    Ok(())
}

/// First counts that are not 5, with and without anything behind them.
fn first_counts(store: &mut Store) -> io::Result<()> {
    let draft = example();
    for first in [0, 1, 4, 6, 0x0105, 0x0500, 0x8005, 65_535] {
        let counts = Counts {
            first,
            ..draft.counts()
        };
        let bytes = draft.bytes_with(&counts);
        for length in [2, 3, bytes.len()] {
            store.put("first-count", &bytes[..length])?;
        }
    }
    Ok(())
}

/// Message and slack counts that are not those of the bytes, or not those of
/// the arrangement.
fn wrong_counts(store: &mut Store, rng: &mut Rng) -> io::Result<()> {
    let script = Script::new(rng, Arrangement::new(2, 4, 3, 5, 3));
    let mut draft = script.draft;
    draft.events = vec![reading(15), reading(30)];
    let right = draft.counts();
    for (message, slack) in near(right.message, right.slack) {
        let counts = Counts {
            message,
            slack,
            ..right
        };
        store.put("counts", &draft.bytes_with(&counts))?;
        let mut other = draft.clone();
        other.message.resize(message.min(300) as usize, 0xAB);
        other.slack.resize(slack.min(300) as usize, 0xCD);
        store.put("lengths", &other.bytes())?;
    }
    Ok(())
}

/// Counts about the right ones.
fn near(message: u64, slack: u64) -> Vec<(u64, u64)> {
    let mut pairs: Vec<(u64, u64)> = vec![(message - 1, slack + 1), (message + 1, slack - 1)];
    for m in [0, message - 1, message + 1, message + 256, 65_535] {
        pairs.push((m, slack));
    }
    for s in [0, slack - 1, slack + 1, slack + 256, 65_535] {
        pairs.push((message, s));
    }
    pairs
}

/// The slack has n - w parts, not r - k: both lengths, and those about them.
fn slack_lengths(store: &mut Store, rng: &mut Rng) -> io::Result<()> {
    for n in [3, 4, 7, 32] {
        for shape in [tight(1, n, n), tight(2, n - 1, n), tight(1, 2, n)] {
            for shape in looser(shape).take(4) {
                let b = rng.range(1, 3);
                for parts in [shape.n - shape.w, shape.r - shape.k] {
                    for slack in [(parts * b).saturating_sub(1), parts * b, parts * b + 1] {
                        let draft = opening(rng, shape.with(b), shape.k * b, slack);
                        store.put("slack", &draft.bytes())?;
                    }
                }
            }
        }
    }
    Ok(())
}

/// A file with a set-up of any numbers, and parts of these lengths.
fn opening(rng: &mut Rng, a: Arrangement, message: u64, slack: u64) -> Draft {
    Draft {
        arrangement: a,
        message: rng.bytes(message),
        slack: rng.bytes(slack),
        events: vec![reading(1), reading(3)],
    }
}

/// The edges that documents 01 and 02 list and the loosest shape, as set-ups and
/// as rearrangements.
fn edges(store: &mut Store, rng: &mut Rng) -> io::Result<()> {
    let shapes = [
        Shape::new(1, 1, 32, 32),
        Shape::new(2, 3, 3, 4),
        Shape::new(1, 1, 33, 33),
        Shape::new(2, 5, 3, 4),
        Shape::new(0, 1, 1, 2),
        Shape::new(3, 2, 3, 4),
        Shape::new(3, 3, 3, 4),
        Shape::new(1, 2, 3, 3),
        Shape::new(1, 32, 32, 32),
    ];
    for shape in shapes {
        for b in [0, 1, 3, 1024, 1025] {
            let slack = (shape.n - shape.w) * b;
            let draft = opening(rng, shape.with(b), shape.k * b, slack);
            store.put("edges", &draft.bytes())?;
        }
        let mut script = Script::new(rng, Arrangement::new(1, 2, 2, 3, 2));
        let message = script.rng.bytes(shape.k * 2);
        let write = script.rng.choose(all(shape.n.min(32)), shape.w);
        script.push(rearrangement(5, &shape, write, &message));
        script.push(reading(3));
        script.push(reading(1));
        store.put("edges", &script.draft.bytes())?;
    }
    Ok(())
}

/// For each n shapes with r + w = k + n - 1, as set-ups and as rearrangements,
/// with all else right.
fn one_short(store: &mut Store, rng: &mut Rng) -> io::Result<()> {
    for n in 2..=32u64 {
        let half = n.div_ceil(2);
        for (k, w) in [(1, 1), (1, half), (half, half), (1, n - 1), (n - 1, n - 1)] {
            let least = tight(k, w, n);
            let r = least.r - 1;
            let short = Shape { r, ..least };
            let mut draft = opening(rng, short.with(2), k * 2, (n - w) * 2);
            draft.events = vec![reading(all(r))];
            store.put("short", &draft.bytes())?;
            let mut script = Script::new(rng, least.with(2));
            let message = script.rng.bytes(k * 2);
            script.push(rearrangement(all(least.r), &short, all(w), &message));
            script.read_some_windows(2);
            store.put_script("short", &script)?;
        }
    }
    Ok(())
}

/// Numbers of k, r, w, n, B that a set-up refuses, and some that only look so.
fn refused_arrangements() -> Vec<Arrangement> {
    let most = 65_535;
    let numbers = [
        [1, 1, 1, 0, 1],
        [1, 1, 33, 33, 1],
        [0, 0, 0, 0, 0],
        [most, most, most, most, most],
        [1, 1, 1, 256, 1],
        [1, 1, 1, 257, 1],
        [0, 9, 9, 40, 2000],
        [1, 3, 2, 2, 1],
        [1, 2, 3, 2, 1],
        [0, 33, 33, 32, 0],
        [5, most, 1, 4, 1],
        [1, 257, 1, 1, 1],
        [0, 0, 0, 1, 1],
        [0, 2, 2, 4, 1],
        [1, 0, 2, 2, 1],
        [1, 2, 0, 2, 1],
        [3, 2, 4, 4, 1],
        [3, 4, 2, 4, 1],
        [most, 4, 4, 4, 1],
        [257, 1, 1, 1, 1],
        [33, 32, 32, 32, 1],
        [0, 1, 1, 2, 0],
        [1, 2, 2, 4, 1],
        [1, 2, 2, 2, 1],
        [2, 4, 4, 4, 1],
        [1, 1, 1, 2, 1],
        [32, 32, 32, 32, 0],
        [16, 16, 16, 32, 1],
        [1, 16, 16, 32, 1],
        [31, 31, 31, 32, 1],
        [1, 2, 2, 4, 0],
        [1, 2, 2, 2, 0],
        [1, 1, 1, 1, 0],
        [1, 1, 1, 1, 1025],
        [1, 1, 1, 1, 2048],
        [1, 1, 1, 1, 4096],
        [1, 1, 1, 1, 32_768],
        [1, 1, 1, 1, most],
        [32, 32, 32, 32, 2048],
        [1, 1, 1, 1, 1024],
        [32, 32, 32, 32, 1],
    ];
    let built = |[k, r, w, n, b]: [u64; 5]| Arrangement::new(k, r, w, n, b);
    numbers.into_iter().map(built).collect()
}

fn refused_setups(store: &mut Store, rng: &mut Rng) -> io::Result<()> {
    for a in refused_arrangements() {
        let fitting = a.shape.k * a.b;
        let length = if fitting < 40_000 { fitting } else { 5 };
        let slack = a.shape.n.saturating_sub(a.shape.w).min(40);
        let draft = opening(rng, a, length, slack);
        store.put("setup", &draft.bytes())?;
        store.put("setup", &opening(rng, a, 0, 0).bytes())?;
        let bytes = draft.bytes();
        let events = bytes.len() - 10;
        store.put("setup", &bytes[..events - 1])?;
        store.put("setup", &bytes[..events])?;
    }
    Ok(())
}

/// For each n the outermost shapes, each with every kind of event.
fn corners(store: &mut Store, rng: &mut Rng) -> io::Result<()> {
    for n in 1..=32u64 {
        let half = n.div_ceil(2);
        let corners = [(1, 1), (1, n), (n, n), (half, half), (half, n), (1, half)];
        for (k, w) in corners {
            let least = tight(k, w, n);
            let mut corners = vec![least];
            corners.extend(looser(least).last());
            for shape in corners {
                let b = rng.pick(&[1, 1, 2, 3, 5, 8, 17]);
                let mut script = Script::new(rng, shape.with(b));
                history(&mut script);
                store.put_script("corner", &script)?;
            }
        }
    }
    Ok(())
}

/// A few events of each kind that keep the shape.
fn history(script: &mut Script) {
    script.read_some_windows(3);
    script.change();
    script.read_some_windows(2);
    script.damage();
    script.read_some_windows(3);
    script.rebuild();
    script.change();
    script.read_some_windows(3);
    let same = script.now.shape;
    script.rearrange_to(same);
    script.read_some_windows(3);
}

/// So many shapes fit into one file of a walk.
const STEPS: usize = 440;

/// For each n files that go through every shape of that n.
fn shape_walks(store: &mut Store, rng: &mut Rng) -> io::Result<()> {
    for n in 1..=32 {
        let b = if n < 20 { rng.range(1, 3) } else { 1 };
        let all: Vec<Shape> = shapes(n).collect();
        for walk in all.chunks(STEPS) {
            let mut script = Script::new(rng, walk[0].with(b));
            for shape in walk {
                script.rearrange_to(*shape);
                script.change();
                script.read_some_windows(2);
            }
            store.put_script("shapes", &script)?;
        }
    }
    Ok(())
}

/// Every tight shape as an opening, and a looser one with each where there is
/// one, with a change and readings.
fn shape_openings(store: &mut Store, rng: &mut Rng) -> io::Result<()> {
    for least in (1..=32).flat_map(tight_shapes) {
        let mut openings = vec![least];
        if least.r < least.n {
            let r = rng.range(least.r + 1, least.n);
            openings.push(Shape { r, ..least });
        }
        for shape in openings {
            let b = rng.range(1, 3);
            let mut script = Script::new(rng, shape.with(b));
            script.reading();
            script.change();
            script.reading();
            store.put_script("shape-setup", &script)?;
        }
    }
    Ok(())
}

/// Some shapes with every choice of each size.
fn all_choices(store: &mut Store, rng: &mut Rng) -> io::Result<()> {
    let shapes = [
        tight(1, 2, 3),
        tight(2, 3, 4),
        tight(2, 3, 5),
        tight(3, 4, 6),
        tight(1, 4, 6),
        tight(2, 5, 7),
        tight(4, 4, 8),
        Shape::new(1, 2, 3, 3),
        Shape::new(1, 3, 3, 4),
        Shape::new(2, 4, 4, 5),
        Shape::new(2, 5, 4, 6),
        Shape::new(1, 3, 6, 7),
    ];
    for shape in shapes {
        let mut script = Script::new(rng, shape.with(2));
        for choice in 0..1 << shape.n {
            choice_events(&mut script, choice);
        }
        store.put_script("choices", &script)?;
    }
    Ok(())
}

/// The events that this choice serves, and a refused reading if none.
fn choice_events(script: &mut Script, choice: u32) {
    let Shape { r, w, n, .. } = script.now.shape;
    let size = u64::from(choice.count_ones());
    if size == r {
        script.read(choice);
        let lost = script.rng.word() as u32 & all(n) & !choice;
        script.rebuild_from(choice, lost);
    }
    if size == w {
        script.change_through(choice);
        script.read_some_windows(2);
    }
    if size != r {
        script.push(reading(choice));
    }
}

/// Every refusal of each kind of event, between readings that show that
/// nothing was altered.
fn refusals(store: &mut Store, rng: &mut Rng) -> io::Result<()> {
    for (shape, b) in [
        (tight(1, 2, 3), 1),
        (tight(2, 3, 5), 2),
        (tight(3, 9, 9), 4),
        (tight(5, 20, 31), 1),
        (tight(4, 30, 32), 2),
        (Shape::new(1, 2, 3, 3), 1),
        (Shape::new(2, 4, 4, 5), 3),
        (Shape::new(4, 20, 30, 32), 1),
    ] {
        let mut script = Script::new(rng, shape.with(b));
        for event in refused_events(&mut script) {
            script.push(event);
            script.read_some_windows(1);
        }
        script.read_windows();
        store.put_script("refused", &script)?;
    }
    Ok(())
}

fn refused_events(script: &mut Script) -> Vec<Vec<u8>> {
    let Arrangement { shape, b } = script.now;
    let Shape { k, r, w, n } = shape;
    let d = script.rng.bytes(k * b);
    let mut events = Vec::new();
    for wrong in wrong_choices(script, n, w) {
        events.push(change(wrong, &d));
    }
    for wrong in wrong_choices(script, n, r) {
        events.push(reading(wrong));
        events.push(rebuild(wrong, 0));
        events.push(rearrangement(wrong, &shape, all(w), &d));
    }
    for wrong in wrong_choices(script, n, w) {
        events.push(rearrangement(all(r), &shape, wrong, &d));
    }
    if shape.q() < r {
        let few = all(shape.q());
        events.push(reading(few));
        events.push(rebuild(few, 0));
        events.push(rearrangement(few, &shape, all(w), &d));
    }
    events.push(rebuild(all(r), 1));
    events.push(rebuild(all(r), 1 << (r - 1)));
    events.push(rebuild(all(r), all(n)));
    for traps in choices_above(n) {
        events.push(damage(traps, &script.rng.blocks(traps, b)));
    }
    for to in refused_shapes() {
        let message = script.rng.bytes(to.k * b);
        events.push(rearrangement(all(r), &to, all(to.w.min(32)), &message));
    }
    events
}

/// Choices of a wrong size, or with a trap above n.
fn wrong_choices(script: &mut Script, n: u64, size: u64) -> Vec<u32> {
    let mut choices = vec![0];
    choices.push(script.rng.choose(all(n), size - 1));
    if size < n {
        choices.push(script.rng.choose(all(n), size + 1));
        choices.push(all(n));
    }
    if n < 32 {
        choices.push(script.rng.choose(all(n), size - 1) | 1 << n);
        choices.push(script.rng.choose(all(n), size) | 1 << 31);
        choices.push(u32::MAX);
    }
    choices
}

/// Choices with a trap above n, alone or with others; none if n is 32.
fn choices_above(n: u64) -> Vec<u32> {
    let (within, above) = (all(n), !all(n));
    if above == 0 {
        return Vec::new();
    }
    let (next, last) = (1 << n, 1 << 31);
    let mut choices = vec![next, last, above, u32::MAX];
    choices.extend([1 | next, within | next, within | last]);
    choices
}

/// New shapes that 11, 12, 13 and 14 refuse.
fn refused_shapes() -> Vec<Shape> {
    let numbers = [
        [1, 1, 1, 0],
        [1, 1, 33, 33],
        [2, 2, 2, 65_535],
        [1, 1, 1, 256],
        [1, 2, 1, 1],
        [1, 1, 2, 1],
        [1, 65_535, 1, 1],
        [1, 33, 1, 32],
        [0, 1, 1, 1],
        [0, 0, 0, 4],
        [2, 1, 2, 2],
        [2, 2, 1, 2],
        [33, 32, 32, 32],
        [1, 1, 1, 2],
        [1, 2, 2, 4],
        [3, 3, 3, 4],
        [1, 16, 16, 32],
        [31, 31, 31, 32],
        [2, 2, 2, 32],
    ];
    let built = |[k, r, w, n]: [u64; 4]| Shape::new(k, r, w, n);
    numbers.into_iter().map(built).collect()
}

/// Events in which two questions say no: the first of the list is the answer.
fn question_order(store: &mut Store, rng: &mut Rng) -> io::Result<()> {
    let mut script = Script::new(rng, Arrangement::new(2, 4, 3, 5, 2));
    let d = script.rng.bytes(4);
    let right = tight(2, 3, 5);
    let events = vec![
        change(0xFF, &d),
        reading(0xFFFF_FFFF),
        rebuild(0x0F, 0x2F),
        rebuild(0x07, 0x20),
        rebuild(0x2F, 0x01),
        rebuild(0x07, 0x07),
        rebuild(0x1F, 0x1F),
        rebuild(0x0F, 0x1F),
        rebuild(0x0F, 0x00),
        rearrangement(0xFF, &Shape::new(2, 3, 3, 0), 0xFF, &d),
        rearrangement(0xFF, &Shape::new(2, 6, 3, 5), 0xFF, &d),
        rearrangement(0xFF, &Shape::new(0, 3, 3, 5), 0xFF, &[]),
        rearrangement(0xFF, &Shape::new(2, 3, 3, 5), 0xFF, &d),
        rearrangement(0x07, &right, 0x20, &d),
        rearrangement(0x2F, &right, 0x01, &d),
        rearrangement(0x07, &right, 0x07, &d),
        rearrangement(0x0F, &right, 0x0F, &d),
        rearrangement(0x0F, &tight(2, 3, 3), 0x0E, &d),
        rearrangement(0x0F, &tight(2, 3, 6), 0x31, &d),
        reading(0x0F),
        reading(0x17),
        reading(0x1F),
    ];
    for event in events {
        script.push(event);
    }
    store.put("order", &script.draft.bytes())?;
    Ok(())
}

/// Unknown kinds as the first event, behind others, and at the very end.
fn unknown_kinds(store: &mut Store, rng: &mut Rng) -> io::Result<()> {
    let kinds = [
        0, 6, 7, 8, 9, 10, 13, 16, 20, 32, 48, 49, 52, 127, 128, 129, 132, 254, 255,
    ];
    for kind in kinds {
        let mut script = Script::new(rng, Arrangement::new(1, 2, 2, 3, 1));
        script.push(vec![kind]);
        store.put("unknown", &script.draft.bytes())?;
        script.push(reading(3));
        store.put("unknown", &script.draft.bytes())?;
        script.draft.events.insert(0, reading(3));
        script.draft.events.insert(1, reading(0));
        store.put("unknown", &script.draft.bytes())?;
    }
    Ok(())
}

/// Bytes behind the last event, also behind no event and a refused one.
fn leftovers(store: &mut Store, rng: &mut Rng) -> io::Result<()> {
    for events in 0..4 {
        for extra in [1, 2, 5, 100] {
            let mut script = Script::new(rng, Arrangement::new(2, 3, 4, 5, 3));
            for _ in 0..events {
                script.refused_event();
            }
            let rest = script.rng.bytes(extra);
            let bytes = [script.draft.bytes(), rest].concat();
            store.put("leftover", &bytes)?;
        }
    }
    let refused = opening(rng, Arrangement::new(3, 3, 3, 4, 1), 3, 1);
    let bytes = [refused.bytes(), vec![1, 2, 3]].concat();
    store.put("leftover", &bytes)?;
    Ok(())
}

/// Rearrangements whose k' is 0, FFFF, or such that k'·B leaves two bytes.
fn new_counts(store: &mut Store, rng: &mut Rng) -> io::Result<()> {
    let cases = [
        (65_535, 1),
        (65_535, 2),
        (65_535, 1024),
        (64, 1024),
        (65, 1024),
        (128, 512),
        (257, 255),
        (4096, 16),
        (32_768, 2),
        (33, 1),
        (256, 1),
        (1000, 3),
        (0, 1),
        (0, 1024),
    ];
    for (k, b) in cases {
        for given in [0, 1, b, 33 * b, (k * b).min(20_000)] {
            let to = Shape::new(k, 32, 32, 32);
            let mut script = Script::new(rng, Arrangement::new(1, 2, 2, 3, b));
            script.push(reading(3));
            let message = script.rng.bytes(given);
            script.push(rearrangement(3, &to, u32::MAX, &message));
            script.push(reading(6));
            store.put("new-count", &script.draft.bytes())?;
        }
    }
    Ok(())
}

/// Damaged traps that a rearrangement copies with their damage, and reads and
/// changes through them.
fn copied_damage(store: &mut Store, rng: &mut Rng) -> io::Result<()> {
    let moves = [
        (tight(2, 3, 6), tight(2, 3, 6), 0b00_0111),
        (tight(2, 4, 6), tight(1, 2, 5), 0b00_0011),
        (tight(2, 4, 6), tight(3, 4, 8), 0b1000_0111),
        (tight(1, 3, 6), tight(2, 2, 9), 0b00_0011),
        (tight(2, 4, 6), Shape::new(1, 4, 3, 6), 0b01_0011),
        (Shape::new(1, 4, 5, 6), tight(2, 3, 6), 0b10_0101),
        (Shape::new(2, 5, 4, 6), Shape::new(1, 5, 3, 7), 0b110_0001),
    ];
    for (from, to, write) in moves {
        for trap in 1..=from.n {
            let mut script = Script::new(rng, from.with(3));
            let damaged = 1 << (trap - 1);
            script.damage_to(damaged);
            let sound = all(from.n) & !damaged;
            let read = script.rng.choose(sound, from.r);
            script.rearrange_through(read, to, write);
            script.read_windows();
            script.change();
            script.read_windows();
            script.rebuild();
            script.read_windows();
            store.put_script("copied", &script)?;
        }
    }
    Ok(())
}

/// Loose shapes with damage in some of R's r - q traps that are not used, before
/// a reading, a rebuild and rearrangements through R.
fn spare_damage(store: &mut Store, rng: &mut Rng) -> io::Result<()> {
    let shapes = [
        Shape::new(1, 2, 3, 3),
        Shape::new(1, 3, 3, 4),
        Shape::new(2, 4, 4, 5),
        Shape::new(2, 5, 4, 6),
        Shape::new(3, 8, 7, 9),
        Shape::new(2, 16, 16, 17),
        Shape::new(5, 20, 24, 31),
        Shape::new(1, 32, 32, 32),
        Shape::new(9, 30, 20, 32),
    ];
    for shape in shapes {
        for _ in 0..4 {
            let mut script = Script::new(rng, shape.with(2));
            for _ in 0..3 {
                through_spare_damage(&mut script);
            }
            store.put_script("spare", &script)?;
        }
    }
    Ok(())
}

/// One such damage, and what is done through R after it: the record goes to a
/// loose shape or a tight one, and back.
fn through_spare_damage(script: &mut Script) {
    let shape = script.now.shape;
    let read = script.rng.choose(all(shape.n), shape.r);
    let spare = read & !script.lowest(read);
    let size = script.rng.range(1, 3);
    let traps = script.rng.choose(spare, size);
    script.damage_to(traps);
    script.read(read);
    script.change();
    script.read(read);
    let lost = script.rng.word() as u32 & all(shape.n) & !read;
    script.rebuild_from(read, lost);
    script.read_windows();
    let to = if script.rng.chance(50) {
        tight(shape.k, shape.w, shape.n)
    } else {
        any_shape(script.rng, 32)
    };
    let write = script.rng.choose(all(to.n), to.w);
    script.rearrange_through(read, to, write);
    script.read_windows();
    script.rearrange_to(shape);
    script.read_some_windows(2);
}

/// Growth from one trap to 32 and back, by small steps and at once.
fn growth(store: &mut Store, rng: &mut Rng) -> io::Result<()> {
    for step in [1, 5, 31] {
        for slack in [0, 1, 3] {
            let mut script = Script::new(rng, tight(1, 1, 1).with(2));
            let up = (1..=32).step_by(step);
            let down = (1..=32).rev().step_by(step);
            for n in up.chain(down) {
                let l = slack.min(n - 1);
                let k = script.rng.range(1, n - l);
                let r = script.rng.range(k + l, n);
                script.rearrange_to(Shape::new(k, r, n - l, n));
                script.read_some_windows(3);
                script.change();
                script.read_some_windows(2);
            }
            store.put_script("growth", &script)?;
        }
    }
    Ok(())
}
