//! Files about the limit of 65,535 bytes, files with large blocks, and files by
//! the length of their blocks.

use crate::corpus::draft::{all, change, damage, reading, rearrangement, rebuild, Counts, Draft};
use crate::corpus::rng::Rng;
use crate::corpus::script::Script;
use crate::corpus::shapes::{any_shape, tight};
use crate::corpus::store::Store;
use crate::season::LIMIT;
use crate::{Arrangement, Shape};
use std::io;

pub fn write(store: &mut Store, rng: &mut Rng) -> io::Result<()> {
    ends(store, rng)?;
    cut_events(store, rng)?;
    cut_openings(store, rng)?;
    many_events(store, rng)?;
    large_blocks(store, rng)?;
    large_damage(store, rng)?;
    block_lengths(store, rng)
}

/// Adds rebuilds, readings and damages until the file is exactly so long. The
/// blocks are of `b` bytes and n is 3; the length left must be at least
/// 5·(b + 5) + 36.
fn fill(rng: &mut Rng, draft: &mut Draft, length: usize) {
    let b = draft.arrangement.b;
    let one = b as usize + 5;
    let mut left = length - draft.length();
    while !left.is_multiple_of(5) {
        draft.events.push(rebuild(rng.pick(&[3, 5, 6, 7]), 4));
        left -= 9;
    }
    while !left.is_multiple_of(one) {
        draft.events.push(reading(rng.pick(&[3, 5, 6, 6, 7, 9])));
        left -= 5;
    }
    for _ in 0..left / one {
        let traps = rng.pick(&[1, 2, 4, 4, 8]);
        draft.events.push(damage(traps, &rng.bytes(b)));
    }
}

/// A file of exactly this length, whose events end with it.
pub fn file_of_length(rng: &mut Rng, b: u64, length: usize) -> Draft {
    let mut draft = Script::new(rng, Arrangement::new(1, 2, 2, 3, b)).draft;
    fill(rng, &mut draft, length);
    draft
}

/// Files that end at, before and past the limit.
fn ends(store: &mut Store, rng: &mut Rng) -> io::Result<()> {
    for b in [1, 100, 1000] {
        let whole = file_of_length(rng, b, LIMIT).bytes();
        store.put("limit-exact", &whole)?;
        for length in [LIMIT + 1, LIMIT + 2, 70_000] {
            let extra = (length - LIMIT) as u64;
            let more = [whole.clone(), rng.bytes(extra)].concat();
            store.put("limit-past", &more)?;
        }
        store.put("limit-cut", &whole[..LIMIT - 1])?;
        let short = file_of_length(rng, b, LIMIT - 1).bytes();
        store.put("limit-before", &short)?;
        for extra in [1, 2] {
            let more = [short.clone(), rng.bytes(extra)].concat();
            store.put("limit-leftover", &more)?;
        }
        for length in [LIMIT + 1, 70_000] {
            store.put("limit-cut", &file_of_length(rng, b, length).bytes())?;
        }
    }
    Ok(())
}

/// Each kind of event, lying across the limit at several places.
fn cut_events(store: &mut Store, rng: &mut Rng) -> io::Result<()> {
    let to = Shape::new(2, 2, 3, 3);
    let events = [
        change(3, &rng.bytes(50)),
        rebuild(3, 4),
        damage(2, &rng.bytes(50)),
        damage(5, &rng.bytes(100)),
        damage(u32::MAX, &rng.bytes(1600)),
        damage(0, &[]),
        reading(5),
        rearrangement(5, &to, 7, &rng.bytes(100)),
        vec![77],
    ];
    for event in events {
        for inside in inside_lengths(event.len()) {
            let mut draft = file_of_length(rng, 50, LIMIT - inside);
            draft.events.push(event.clone());
            store.put("limit-event", &draft.bytes())?;
            draft.events.push(reading(3));
            store.put("limit-event", &draft.bytes())?;
        }
    }
    Ok(())
}

/// How much of an event of this length lies before the limit.
fn inside_lengths(length: usize) -> Vec<usize> {
    let mut lengths = vec![0, 1, length / 2, length - 1, length];
    lengths.dedup();
    lengths
}

/// Openings that the limit cuts.
fn cut_openings(store: &mut Store, rng: &mut Rng) -> io::Result<()> {
    let a = Arrangement::new(32, 32, 32, 32, 1024);
    for message in [65_535, 65_521, 65_520, 65_519, 65_518, 65_517, 65_516] {
        let draft = Draft {
            arrangement: a,
            message: rng.bytes(message),
            slack: rng.bytes(4),
            events: vec![reading(1)],
        };
        store.put("limit-opening", &draft.bytes())?;
        let empty = Counts {
            slack: 0,
            events: 0,
            ..draft.counts()
        };
        let bare = Draft {
            slack: Vec::new(),
            ..draft
        };
        store.put("limit-opening", &bare.bytes_with(&empty))?;
    }
    Ok(())
}

/// As many events as a file can hold, of the shortest kinds.
fn many_events(store: &mut Store, rng: &mut Rng) -> io::Result<()> {
    let mut readings = Script::new(rng, tight(1, 1, 1).with(1)).draft;
    readings.events = vec![reading(1); (LIMIT - readings.length()) / 5];
    store.put("many", &readings.bytes())?;
    let mut damages = Script::new(rng, tight(1, 1, 1).with(1)).draft;
    let room = LIMIT - damages.length();
    damages.events = vec![damage(0, &[]); room / 5];
    store.put("many", &damages.bytes())?;
    damages.events = (0..room / 6)
        .map(|i| damage(1 << (i % 2), &[i as u8]))
        .collect();
    store.put("many", &damages.bytes())?;
    let counts = Counts {
        events: 65_535,
        ..damages.counts()
    };
    store.put("many", &damages.bytes_with(&counts))?;
    let mut changes = Script::new(rng, tight(1, 2, 3).with(1));
    for _ in 0..(LIMIT - changes.draft.length() - 3 * 5) / 6 {
        changes.change();
    }
    changes.read_windows();
    store.put_script("many", &changes)
}

/// Shapes with large blocks that fit: (k, r, w, n, B).
const LARGE: [(u64, u64, u64, u64, u64); 16] = [
    (1, 1, 1, 1, 1024),
    (1, 32, 1, 32, 1024),
    (1, 1, 32, 32, 1024),
    (1, 32, 32, 32, 1024),
    (32, 32, 32, 32, 1022),
    (32, 32, 32, 32, 1),
    (16, 32, 16, 32, 1024),
    (16, 24, 24, 32, 1000),
    (16, 28, 24, 32, 1000),
    (8, 16, 16, 24, 1024),
    (2, 4, 3, 5, 1023),
    (2, 4, 4, 5, 1023),
    (3, 4, 31, 32, 777),
    (31, 32, 31, 32, 512),
    (7, 19, 20, 32, 1024),
    (7, 31, 20, 32, 1024),
];

fn large_blocks(store: &mut Store, rng: &mut Rng) -> io::Result<()> {
    for (k, r, w, n, b) in LARGE {
        let mut script = Script::new(rng, Arrangement::new(k, r, w, n, b));
        large_events(&mut script);
        store.put_script("large", &script)?;
    }
    let mut script = Script::new(rng, tight(32, 32, 32).with(1024));
    script.read_some_windows(3);
    script.change();
    store.put("large-cut", &script.draft.bytes())?;
    Ok(())
}

/// Events as far as they fit into the limit; the last ones are readings.
fn large_events(script: &mut Script) {
    for step in 0..12 {
        let before = script.draft.clone();
        let room = LIMIT - 100;
        let needed = (script.now.shape.n * script.now.b) as usize + 40;
        if before.length() + needed > room {
            break;
        }
        match step % 4 {
            0 => script.change(),
            1 => script.damage(),
            2 => script.rebuild(),
            _ => rearrange_within(script),
        }
        script.read_some_windows(1);
    }
    script.read_some_windows(3);
}

/// A rearrangement to a shape with no larger n.
fn rearrange_within(script: &mut Script) {
    let to = any_shape(script.rng, script.now.shape.n);
    script.rearrange_to(to);
}

/// Many damages and rebuilds of large blocks.
fn large_damage(store: &mut Store, rng: &mut Rng) -> io::Result<()> {
    for shape in [
        tight(1, 20, 32),
        tight(2, 2, 8),
        tight(4, 28, 32),
        Shape::new(1, 20, 20, 32),
        Shape::new(4, 16, 28, 32),
    ] {
        let mut script = Script::new(rng, shape.with(1024));
        while script.draft.length() < 50_000 {
            let size = script.rng.range(1, 3);
            script.damage_some(size);
            script.read_some_windows(1);
            script.rebuild();
            script.read_some_windows(1);
        }
        let undamaged_or_not = all(script.now.shape.r);
        script.push(rebuild(undamaged_or_not, 0));
        store.put_script("large", &script)?;
    }
    Ok(())
}

/// Block lengths about a word of eight bytes, about tiles and the largest.
const LENGTHS: [u64; 22] = [
    7, 8, 9, 15, 16, 17, 31, 32, 33, 63, 64, 65, 127, 128, 129, 255, 256, 257, 511, 513, 1023, 1024,
];

/// Changes at these block lengths, with one trap or more to change and one part
/// or more, and set-ups that are refused by their length.
fn block_lengths(store: &mut Store, rng: &mut Rng) -> io::Result<()> {
    for shape in [
        tight(1, 1, 3),
        tight(1, 2, 3),
        tight(1, 9, 9),
        tight(5, 6, 7),
        tight(4, 7, 10),
        Shape::new(4, 9, 7, 10),
        tight(8, 9, 10),
        tight(16, 24, 32),
    ] {
        for b in [0, 1025] {
            let mut script = Script::new(rng, shape.with(b));
            script.push(reading(all(shape.r)));
            store.put("block-length", &script.draft.bytes())?;
        }
        for b in LENGTHS {
            let mut script = Script::new(rng, shape.with(b));
            changes(&mut script);
            store.put_script("block-length", &script)?;
        }
    }
    Ok(())
}

/// Changes as far as they fit into the limit, from the second on over damage,
/// with readings between and a rebuild at the end.
fn changes(script: &mut Script) {
    let Arrangement { shape, b } = script.now;
    script.read_some_windows(1);
    for step in 0..6 {
        let needed = ((shape.k + 1) * b) as usize + 100;
        if script.draft.length() + needed > LIMIT {
            break;
        }
        if step == 1 {
            script.damage_some(1);
        }
        script.change();
        script.read_some_windows(2);
    }
    script.rebuild();
    script.read_some_windows(2);
}
