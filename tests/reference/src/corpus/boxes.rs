//! Damage to several traps at once: a choice, and a block for each of its traps.

use crate::corpus::draft::{all, damage, reading};
use crate::corpus::rng::Rng;
use crate::corpus::script::Script;
use crate::corpus::shapes::tight;
use crate::corpus::store::Store;
use crate::{Arrangement, Shape};
use std::io;

pub fn write(store: &mut Store, rng: &mut Rng) -> io::Result<()> {
    every_choice(store, rng)?;
    cut(store, rng)?;
    largest(store, rng)?;
    about_a_move(store, rng)?;
    over_damage(store, rng)
}

/// Damage to a choice of any traps; with one above n it alters nothing.
fn damage_any(script: &mut Script, traps: u32) {
    let Arrangement { shape, b } = script.now;
    if traps & !all(shape.n) == 0 {
        return script.damage_to(traps);
    }
    let blocks = script.rng.blocks(traps, b);
    script.push(damage(traps, &blocks));
}

/// Every choice of small shapes, with traps just above n and with the last trap,
/// between readings of every block.
fn every_choice(store: &mut Store, rng: &mut Rng) -> io::Result<()> {
    for shape in [
        tight(1, 2, 3),
        tight(1, 3, 3),
        tight(1, 4, 5),
        Shape::new(1, 2, 4, 4),
    ] {
        for low in 0..1 << (shape.n + 2) {
            let b = rng.range(1, 3);
            let last = if rng.chance(20) { 1 << 31 } else { 0 };
            let mut script = Script::new(rng, shape.with(b));
            script.read_windows();
            damage_any(&mut script, low | last);
            script.read_windows();
            script.repair();
            script.read_windows();
            store.put_script("box", &script)?;
        }
    }
    Ok(())
}

/// Files that end at every byte of such an event, the choice within n or not,
/// and the whole event with another behind it.
fn cut(store: &mut Store, rng: &mut Rng) -> io::Result<()> {
    for traps in [0, 1, 6, 7, 0xC, 0x8000_0001, u32::MAX] {
        let b = rng.range(1, 3);
        let mut script = Script::new(rng, tight(1, 2, 3).with(b));
        script.push(reading(3));
        let start = script.draft.length();
        damage_any(&mut script, traps);
        let bytes = script.draft.bytes();
        for length in start..=bytes.len() {
            store.put("box-cut", &bytes[..length])?;
        }
        script.push(reading(6));
        store.put("box-cut", &script.draft.bytes())?;
    }
    Ok(())
}

/// All 32 traps with the largest blocks, in records of 32 traps and of fewer:
/// whole, one byte short, and cut at blocks and within the choice.
fn largest(store: &mut Store, rng: &mut Rng) -> io::Result<()> {
    for n in [32, 31, 3, 1] {
        let mut script = Script::new(rng, tight(1, n, n).with(1024));
        script.read_windows();
        damage_any(&mut script, u32::MAX);
        let whole = script.draft.bytes();
        for missing in [1, 1024, 16 * 1024, 32 * 1024, 32 * 1024 + 1] {
            store.put("box-largest", &whole[..whole.len() - missing])?;
        }
        script.read_windows();
        store.put_script("box-largest", &script)?;
        damage_any(&mut script, u32::MAX);
        store.put("box-largest", &script.draft.bytes())?;
    }
    Ok(())
}

/// A choice that is within n only after a rearrangement, and no longer after the
/// one back.
fn about_a_move(store: &mut Store, rng: &mut Rng) -> io::Result<()> {
    for (few, many) in [
        (tight(1, 2, 3), tight(1, 3, 5)),
        (tight(1, 1, 1), tight(2, 20, 32)),
        (tight(2, 30, 31), Shape::new(1, 9, 30, 32)),
        (Shape::new(1, 4, 5, 6), tight(1, 16, 17)),
    ] {
        let last = 1 << (many.n - 1);
        for traps in [last, last | 1, all(many.n) & !all(few.n), all(many.n)] {
            let b = rng.range(1, 4);
            let mut script = Script::new(rng, few.with(b));
            damage_and_repair(&mut script, traps);
            script.rearrange_to(many);
            damage_and_repair(&mut script, traps);
            script.rearrange_to(few);
            damage_and_repair(&mut script, traps);
            store.put_script("box-moved", &script)?;
        }
    }
    Ok(())
}

fn damage_and_repair(script: &mut Script, traps: u32) {
    damage_any(script, traps);
    script.read_some_windows(3);
    script.repair();
    script.read_some_windows(3);
}

/// Damage to traps of which some are damaged already, then their rebuild. As
/// many traps stay undamaged as a reading takes.
fn over_damage(store: &mut Store, rng: &mut Rng) -> io::Result<()> {
    for shape in [
        tight(1, 8, 9),
        tight(2, 5, 6),
        tight(3, 20, 24),
        tight(1, 32, 32),
        Shape::new(2, 5, 8, 9),
    ] {
        for b in [1, 2, 5] {
            let mut script = Script::new(rng, shape.with(b));
            for _ in 0..6 {
                damage_twice(&mut script);
                script.read_windows();
                script.change();
                script.repair();
                script.read_windows();
            }
            store.put_script("box-again", &script)?;
        }
    }
    Ok(())
}

/// Two sets with traps in common, each with a trap that the other lacks.
fn damage_twice(script: &mut Script) {
    let Shape { r, n, .. } = script.now.shape;
    let lost = script.rng.choose(all(n), n - r);
    let (lowest, highest) = (1 << lost.trailing_zeros(), 1 << lost.ilog2());
    script.damage_to(lost & !highest);
    script.damage_to(lost & !lowest);
}
