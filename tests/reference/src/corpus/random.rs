//! The random part of the corpus.

use crate::corpus::draft::{Counts, Draft};
use crate::corpus::rng::Rng;
use crate::corpus::script::Script;
use crate::corpus::shapes::{any_shape, wrong_shape};
use crate::corpus::store::Store;
use crate::Arrangement;
use std::io;

/// Writes `count` files, the families in turn.
pub fn write(store: &mut Store, rng: &mut Rng, count: u64) -> io::Result<()> {
    for index in 0..count {
        match index % 10 {
            0 | 1 => valid(store, rng)?,
            2 => repaired(store, rng)?,
            3 | 4 => mixed(store, rng)?,
            5 | 6 => mutated(store, rng)?,
            7 => cut_or_longer(store, rng)?,
            8 => garbage(store, rng)?,
            _ => wild_opening(store, rng)?,
        }
    }
    Ok(())
}

fn any_arrangement(rng: &mut Rng) -> Arrangement {
    let most = rng.pick(&[3, 6, 12, 32, 32]);
    let size = rng.pick(&[1, 1, 2, 4, 8, 16, 64, 1024]);
    let b = rng.range(1, size);
    any_shape(rng, most).with(b)
}

/// Fills a history up to a length and a count of events.
fn grow(script: &mut Script, refused_percent: u64) {
    let length = script.draft.length() + script.rng.range(50, 3000) as usize;
    let count = script.rng.range(1, 60) as usize;
    while script.draft.length() < length && script.draft.events.len() < count {
        if script.rng.chance(refused_percent) {
            script.refused_event();
        } else {
            script.any_event();
        }
    }
}

/// Can the history be written without passing the limit?
fn fits(script: &Script) -> bool {
    script.draft.length() < crate::season::LIMIT
}

fn put(store: &mut Store, family: &str, script: &Script) -> io::Result<()> {
    if fits(script) {
        return store.put_script(family, script);
    }
    store.put(family, &script.draft.bytes())?;
    Ok(())
}

/// Only events that are accepted.
fn valid(store: &mut Store, rng: &mut Rng) -> io::Result<()> {
    let now = any_arrangement(rng);
    let mut script = Script::new(rng, now);
    grow(&mut script, 0);
    script.read_some_windows(3);
    put(store, "valid", &script)
}

/// As much damage as can be repaired, then the repair, several times.
fn repaired(store: &mut Store, rng: &mut Rng) -> io::Result<()> {
    let b = rng.range(1, 9);
    let shape = any_shape(rng, 32);
    let mut script = Script::new(rng, shape.with(b));
    for _ in 0..3 {
        let spare = script.now.shape.n - script.now.shape.r;
        let lost = script.rng.range(0, spare);
        let at_once = script.rng.range(0, lost);
        script.damage_some(at_once);
        script.damage_some(lost - at_once);
        script.change();
        script.read_some_windows(2);
        script.rebuild();
        script.read_some_windows(3);
        script.rearrange();
        script.read_some_windows(2);
    }
    put(store, "repaired", &script)
}

/// Accepted and refused events.
fn mixed(store: &mut Store, rng: &mut Rng) -> io::Result<()> {
    let now = any_arrangement(rng);
    let mut script = Script::new(rng, now);
    grow(&mut script, 50);
    script.read_some_windows(2);
    put(store, "mixed", &script)
}

fn some_file(rng: &mut Rng) -> Draft {
    let now = any_arrangement(rng);
    let mut script = Script::new(rng, now);
    grow(&mut script, 15);
    script.draft
}

/// A file of a history with some bytes altered, put in or taken out.
fn mutated(store: &mut Store, rng: &mut Rng) -> io::Result<()> {
    let mut bytes = some_file(rng).bytes();
    for _ in 0..rng.range(1, 4) {
        mutate(rng, &mut bytes);
    }
    store.put("mutated", &bytes)?;
    Ok(())
}

fn mutate(rng: &mut Rng, bytes: &mut Vec<u8>) {
    let last = bytes.len() as u64 - 1;
    let reach = if rng.chance(25) { last.min(17) } else { last };
    let place = rng.range(0, reach) as usize;
    match rng.below(5) {
        0 => bytes[place] = rng.word() as u8,
        1 => bytes[place] ^= 1 << rng.below(8),
        2 => bytes[place] = rng.pick(&[0, 1, 2, 3, 4, 5, 6, 32, 33, 127, 128, 255]),
        3 => bytes.insert(place, rng.word() as u8),
        _ if bytes.len() > 20 => drop(bytes.remove(place)),
        _ => bytes[place] = 0,
    }
}

/// A file cut at some byte, with bytes behind it, or with a wrong count.
fn cut_or_longer(store: &mut Store, rng: &mut Rng) -> io::Result<()> {
    let draft = some_file(rng);
    let mut bytes = draft.bytes();
    match rng.below(3) {
        0 => {
            bytes.truncate(rng.below(bytes.len() as u64) as usize);
            store.put("cut", &bytes)?;
        }
        1 => {
            let extra = rng.range(1, 9);
            bytes.extend(rng.bytes(extra));
            store.put("leftover", &bytes)?;
        }
        _ => {
            let counts = near_counts(rng, &draft);
            store.put("counts", &draft.bytes_with(&counts))?;
        }
    }
    Ok(())
}

fn near_counts(rng: &mut Rng, draft: &Draft) -> Counts {
    let mut counts = draft.counts();
    let count = match rng.below(3) {
        0 => &mut counts.message,
        1 => &mut counts.slack,
        _ => &mut counts.events,
    };
    *count = rng.pick(&[0, *count + 1, count.saturating_sub(1), *count + 256, 65_535]);
    counts
}

/// Random bytes: from the start, behind a right first count, or as events.
fn garbage(store: &mut Store, rng: &mut Rng) -> io::Result<()> {
    let length = rng.range(0, 400);
    let tail = rng.bytes(length);
    let bytes = match rng.below(4) {
        0 => tail,
        1 => [vec![0, 5], tail].concat(),
        2 => [small_numbers(rng), tail].concat(),
        _ => garbage_events(rng, tail),
    };
    store.put("garbage", &bytes)?;
    Ok(())
}

/// A right first count and small numbers for the arrangement and the counts.
fn small_numbers(rng: &mut Rng) -> Vec<u8> {
    let mut bytes = vec![0, 5];
    for _ in 0..5 {
        bytes.extend([0, rng.range(0, 5) as u8]);
    }
    bytes
}

/// A right opening, and random events whose kinds are mostly known.
fn garbage_events(rng: &mut Rng, tail: Vec<u8>) -> Vec<u8> {
    let most = rng.pick(&[2, 4, 32]);
    let shape = any_shape(rng, most);
    let draft = Script::new(rng, shape.with(1)).draft;
    let counts = Counts {
        events: rng.range(1, 90),
        ..draft.counts()
    };
    let known = |b: u8| if b % 16 < 14 { b % 6 } else { b };
    let opening = draft.bytes_with(&counts);
    [opening, tail.into_iter().map(known).collect()].concat()
}

/// An opening whose arrangement is mostly refused, with fitting lengths.
fn wild_opening(store: &mut Store, rng: &mut Rng) -> io::Result<()> {
    let now = any_arrangement(rng);
    let mut script = Script::new(rng, now);
    script.read_some_windows(2);
    let mut draft = script.draft;
    match rng.below(4) {
        0 => draft.arrangement.b = rng.pick(&[0, 1025, 1026, 2048, 65_535]),
        1 => drop(draft.message.pop()),
        2 => draft.slack.push(0),
        _ => draft.arrangement.shape = wrong_shape(rng, now.shape),
    }
    store.put("opening", &draft.bytes())?;
    Ok(())
}
