//! Document 01's figures: one history of a record of (1,2,2,3), B = 1. Then
//! figures worked by hand for (1,2,3,3), B = 1, where there is no slack and a
//! block is the message times the point.

mod plain;

use plain::{change, rearrangement, rebuild, setup};
use reference::calls::Move;
use reference::{check, difference, reading, view, Arrangement, Shape};

fn arrangement() -> Arrangement {
    Arrangement::new(1, 2, 2, 3, 1)
}

fn read(record: &[u8], traps: u32) -> u8 {
    let mut out = [0xEE];
    assert_eq!(reading(&arrangement(), record, traps, &mut out), 0);
    out[0]
}

/// The set to blame, found within a budget that suffices, and how many were tried.
fn blamed(a: &Arrangement, record: &[u8]) -> (u32, u64) {
    let (number, blame) = check(a, record, 8);
    let blame = blame.unwrap();
    assert_eq!((number, blame.distance), (0, 0));
    (blame.set, blame.tried)
}

#[test]
fn the_history_of_the_figures() {
    let a = arrangement();
    let mut record = [0xEE; 3];
    assert_eq!(setup(&a, &[7], &[1], &mut record), 0);
    assert_eq!(record, [0x06, 0x0A, 0x0C]);
    let mut differences = [0xEE; 2];
    assert_eq!(difference(&a, &[5], 0b011, &mut differences), 0);
    assert_eq!(differences, [0x06, 0x06]);
    assert_eq!(change(&a, &mut record, &[5], 0b011), 0);
    assert_eq!(record, [0x00, 0x0C, 0x0C]);
    assert_eq!(read(&record, 0b101), 0x02);
    assert_eq!(change(&a, &mut record, &[2], 0b101), 0);
    assert_eq!(record, [0x03, 0x0C, 0x0F]);
    assert_eq!(read(&record, 0b110), 0x00);
}

#[test]
fn rebuild_of_trap_one() {
    let mut record = [0xFF, 0x0C, 0x0F];
    assert_eq!(rebuild(&arrangement(), &mut record, 0b110, 0b001), 0);
    assert_eq!(record, [0x03, 0x0C, 0x0F]);
}

#[test]
fn rearranged_with_all_traps_written() {
    let given = Move {
        read: 0b110,
        to: Shape::new(2, 2, 3, 3),
        write: 0b111,
        message: &[1, 1],
    };
    let mut new = [0xEE; 3];
    let record = [0x03, 0x0C, 0x0F];
    assert_eq!(rearrangement(&arrangement(), &record, &given, &mut new), 0);
    assert_eq!(new, [0x00, 0x06, 0x06]);
}

#[test]
fn check_and_view_of_the_record() {
    let a = arrangement();
    let good = [0x03, 0x0C, 0x0F];
    assert_eq!(blamed(&a, &good), (0, 1));
    assert_eq!(blamed(&a, &[0x03, 0x0C, 0x0E]), (0b001, 2));
    assert_eq!(blamed(&a, &[0x02, 0x0C, 0x0F]), (0b001, 2));
    assert_eq!(view(&a, &good, 2), (0, &good[1..2]));
    assert_eq!(view(&a, &good, 4), (10, &[][..]));
}

fn loose() -> Arrangement {
    Arrangement::new(1, 2, 3, 3, 1)
}

fn read_loose(record: &[u8], traps: u32) -> u8 {
    let mut out = [0xEE];
    assert_eq!(reading(&loose(), record, traps, &mut out), 0);
    out[0]
}

#[test]
fn the_lower_of_two_traps_is_read() {
    let mut record = [0xEE; 3];
    assert_eq!(setup(&loose(), &[7], &[], &mut record), 0);
    assert_eq!(record, [0x07, 0x0E, 0x09]);
    for traps in [0b011, 0b101, 0b110] {
        assert_eq!(read_loose(&record, traps), 0x07);
    }
    record[1] = 0xFF;
    assert_eq!(read_loose(&record, 0b011), 0x07);
    assert_eq!(read_loose(&record, 0b101), 0x07);
    assert_eq!(read_loose(&record, 0b110), 0xF1);
}

#[test]
fn a_change_of_three_traps() {
    let mut differences = [0xEE; 3];
    assert_eq!(difference(&loose(), &[5], 0b111, &mut differences), 0);
    assert_eq!(differences, [0x05, 0x0A, 0x0F]);
    let mut record = [0x07, 0x0E, 0x09];
    assert_eq!(change(&loose(), &mut record, &[5], 0b111), 0);
    assert_eq!(record, [0x02, 0x04, 0x06]);
    assert_eq!(read_loose(&record, 0b110), 0x02);
}

#[test]
fn rebuilds_from_the_lower_of_two_traps() {
    let mut record = [0x07, 0xFF, 0x09];
    assert_eq!(rebuild(&loose(), &mut record, 0b101, 0b010), 0);
    assert_eq!(record, [0x07, 0x0E, 0x09]);
    let mut record = [0x00, 0x0E, 0xAA];
    assert_eq!(rebuild(&loose(), &mut record, 0b110, 0b001), 0);
    assert_eq!(record, [0x07, 0x0E, 0xAA]);
    let mut record = [0x07, 0xFF, 0x09];
    assert_eq!(rebuild(&loose(), &mut record, 0b110, 0b001), 0);
    assert_eq!(record, [0xF1, 0xFF, 0x09]);
}

#[test]
fn checks_of_three_traps() {
    assert_eq!(blamed(&loose(), &[0x07, 0x0E, 0x09]), (0, 1));
    assert_eq!(blamed(&loose(), &[0xF1, 0x0E, 0x09]), (0b001, 2));
    assert_eq!(blamed(&loose(), &[0x07, 0xFF, 0x09]), (0b010, 3));
    assert_eq!(blamed(&loose(), &[0x07, 0x0E, 0x08]), (0b100, 4));
    // F1 and FF agree with each other.
    assert_eq!(blamed(&loose(), &[0xF1, 0xFF, 0x09]), (0b100, 4));
    assert_eq!(blamed(&loose(), &[0xF1, 0xFE, 0x09]), (0b011, 5));
}

fn moved(a: &Arrangement, record: &[u8], given: &Move) -> [u8; 3] {
    let mut new = [0xEE; 3];
    assert_eq!(rearrangement(a, record, given, &mut new), 0);
    new
}

/// From a tight arrangement to a loose one, to another, and back.
#[test]
fn rearranged_into_and_out_of_loose() {
    let given = Move {
        read: 0b110,
        to: loose().shape,
        write: 0b111,
        message: &[7],
    };
    let record = moved(&arrangement(), &[0x03, 0x0C, 0x0F], &given);
    assert_eq!(record, [0x07, 0x0E, 0x09]);
    let given = Move {
        read: 0b011,
        to: Shape::new(1, 3, 2, 3),
        write: 0b110,
        message: &[6],
    };
    let second = moved(&loose(), &[0x07, 0xBB, 0x09], &given);
    assert_eq!(second, [0x07, 0x08, 0x0F]);
    let mut out = [0xEE];
    let damaged = [0x07, 0x08, 0x55];
    assert_eq!(reading(&given.to.with(1), &damaged, 0b111, &mut out), 0);
    assert_eq!(out, [0x06]);
    let given = Move {
        read: 0b111,
        to: Shape::new(2, 2, 3, 3),
        write: 0b111,
        message: &[1, 1],
    };
    let third = moved(&Arrangement::new(1, 3, 2, 3, 1), &damaged, &given);
    assert_eq!(third, [0x00, 0x06, 0x06]);
}
