//! The questions at the gate: numbers, order, and buffers left alone.

mod plain;

use plain::{change, rearrangement, rebuild, setup};
use reference::calls::Move;
use reference::{check, difference, reading, view, Arrangement, Shape};

/// The number of a check of no bytes: 6 means that 1 to 5 were passed.
fn number(k: u64, r: u64, w: u64, n: u64, b: u64) -> u64 {
    check(&Arrangement::new(k, r, w, n, b), &[], 1).0
}

#[test]
fn edges_of_the_documents() {
    assert_eq!(number(1, 1, 32, 32, 1), 6);
    assert_eq!(number(2, 3, 3, 4, 1), 6);
    assert_eq!(number(1, 1, 33, 33, 1), 1);
    assert_eq!(number(2, 5, 3, 4, 1), 2);
    assert_eq!(number(0, 1, 1, 2, 1), 3);
    assert_eq!(number(3, 2, 3, 4, 1), 3);
    assert_eq!(number(3, 3, 3, 4, 1), 4);
    assert_eq!(number(1, 2, 3, 3, 1), 6);
    assert_eq!(number(1, 32, 32, 32, 1), 6);
    assert_eq!(number(1, 1, 1, 1, 1024), 6);
    assert_eq!(number(1, 1, 1, 1, 0), 5);
    assert_eq!(number(1, 1, 1, 1, 1025), 5);
}

/// Question 4 is no exactly where r + w is less than k + n.
#[test]
fn the_fourth_question() {
    for n in 1..=32 {
        for k in 1..=n {
            for w in k..=n {
                for r in k..=n {
                    let expected = if r + w < k + n { 4 } else { 6 };
                    assert_eq!(number(k, r, w, n, 1), expected);
                }
            }
        }
    }
}

#[test]
fn any_numbers_are_answered() {
    let most = u64::MAX;
    assert_eq!(number(most, most, most, most, most), 1);
    assert_eq!(number(1, most, 1, 1, 1), 2);
    assert_eq!(number(1, 1, most, 1, 1), 2);
    assert_eq!(number(most, 1, 1, 1, 1), 3);
    assert_eq!(number(1, 1, 1, 1, most), 5);
    assert_eq!(number(0, 0, 0, 0, 0), 1);
    assert_eq!(number(1, 0, 1, 1, 0), 3);
}

/// The arrangement (2,4,3,5) with blocks of two bytes.
fn five() -> Arrangement {
    Arrangement::new(2, 4, 3, 5, 2)
}

#[test]
fn setup_refuses_each_wrong_length() {
    let a = five();
    for (message, slack, record) in [(3, 4, 10), (5, 4, 10), (4, 3, 10), (4, 5, 10), (4, 4, 9)] {
        let mut held = vec![0xAA; record];
        let answer = setup(&a, &vec![1; message], &vec![2; slack], &mut held);
        assert_eq!((answer, held), (6, vec![0xAA; record]));
    }
}

/// The slack has n - w parts also where r - k is another number.
#[test]
fn slack_lengths_of_loose_arrangements() {
    for (k, r, w, n) in [(1, 2, 3, 3), (1, 3, 4, 5), (2, 5, 4, 6), (1, 32, 32, 32)] {
        let a = Arrangement::new(k, r, w, n, 2);
        let message = vec![1; k as usize * 2];
        let right = (n - w) as usize * 2;
        for slack in 0..=64 {
            let mut held = vec![0xAA; n as usize * 2];
            let answer = setup(&a, &message, &vec![2; slack], &mut held);
            assert_eq!(answer, if slack == right { 0 } else { 6 });
            assert_eq!(held == vec![0xAA; held.len()], answer == 6);
        }
    }
}

/// R has r traps, not q, and L keeps out of all of them.
#[test]
fn choices_of_loose_arrangements() {
    let a = Arrangement::new(1, 3, 4, 5, 1);
    for (read, expected) in [(0b00011, 8), (0b00111, 0), (0b11100, 0), (0b01111, 8)] {
        assert_eq!(reading(&a, &[5; 5], read, &mut [0]), expected);
        assert_eq!(rebuild(&a, &mut [5; 5], read, 0), expected);
    }
    for (lost, expected) in [(1, 9), (2, 9), (4, 9), (8, 0), (16, 0), (24, 0)] {
        assert_eq!(rebuild(&a, &mut [5; 5], 0b00111, lost), expected);
    }
}

#[test]
fn reading_refuses_and_writes_nothing() {
    let a = five();
    for (length, read, out, expected) in [
        (9, 0xFF, 4, 6),
        (10, 0xFF, 5, 6),
        (10, 0x2F, 4, 7),
        (10, 0xFFFF_FFFF, 4, 7),
        (10, 0x07, 4, 8),
        (10, 0x1F, 4, 8),
        (10, 0, 4, 8),
    ] {
        let mut held = vec![0xAA; out];
        assert_eq!(reading(&a, &vec![3; length], read, &mut held), expected);
        assert_eq!(held, vec![0xAA; out]);
    }
}

#[test]
fn difference_and_change_refuse_alike() {
    let a = five();
    for (d, write, expected) in [(3, 0x07, 6), (4, 0x26, 7), (4, 0x0F, 8), (4, 0x03, 8)] {
        let mut out = vec![0xAA; 6];
        assert_eq!(difference(&a, &vec![1; d], write, &mut out), expected);
        assert_eq!(out, vec![0xAA; 6]);
        let mut record = vec![0xBB; 10];
        assert_eq!(change(&a, &mut record, &vec![1; d], write), expected);
        assert_eq!(record, vec![0xBB; 10]);
    }
    assert_eq!(difference(&a, &[1; 4], 0xFF, &mut [0; 7]), 6);
    assert_eq!(change(&a, &mut [0; 11], &[1; 4], 0xFF), 6);
}

#[test]
fn rebuild_asks_seven_eight_nine() {
    let a = five();
    for (read, lost, expected) in [
        (0x0F, 0x20, 7),
        (0x27, 0x10, 7),
        (0x07, 0x20, 7),
        (0x07, 0x07, 8),
        (0x1F, 0x00, 8),
        (0x0F, 0x11, 9),
        (0x0F, 0x10, 0),
        (0x0F, 0x00, 0),
    ] {
        let mut record = vec![9; 10];
        assert_eq!(rebuild(&a, &mut record, read, lost), expected);
        let untouched = record == vec![9; 10];
        assert_eq!(untouched, expected != 0 || lost == 0);
    }
}

#[test]
fn view_asks_ten_last() {
    let a = five();
    let record: Vec<u8> = (0..10).collect();
    assert_eq!(view(&a, &record, 1), (0, &[0, 1][..]));
    assert_eq!(view(&a, &record, 5), (0, &[8, 9][..]));
    for trap in [0, 6, 33, 256, 257, u64::MAX] {
        assert_eq!(view(&a, &record, trap), (10, &[][..]));
    }
    assert_eq!(view(&a, &record[1..], 0), (6, &[][..]));
    for budget in [0, 1, u64::MAX] {
        assert_eq!(check(&a, &record[1..], budget), (6, None));
    }
}

/// The number of a rearrangement from (2,4,3,5), with buffers of these sizes.
fn moved(b: u64, to: Shape, choices: (u32, u32), message: usize, new: usize) -> u64 {
    let message = vec![1; message];
    let given = Move {
        read: choices.0,
        to,
        write: choices.1,
        message: &message,
    };
    let mut held = vec![0xAA; new];
    let answer = rearrangement(&five().shape.with(b), &[7; 10], &given, &mut held);
    assert!(answer == 0 || held == vec![0xAA; new]);
    answer
}

#[test]
fn rearrangement_asks_in_the_lists_order() {
    let to = Shape::new(1, 2, 2, 3);
    let right = (0x0F, 0x05);
    assert_eq!(moved(2, to, right, 2, 6), 0);
    assert_eq!(moved(0, Shape::new(1, 1, 1, 0), right, 2, 6), 5);
    assert_eq!(moved(2, Shape::new(1, 2, 2, 33), (0xFF, 0xFF), 9, 9), 11);
    assert_eq!(moved(2, Shape::new(1, 4, 2, 3), (0xFF, 0xFF), 9, 9), 12);
    assert_eq!(moved(2, Shape::new(0, 2, 2, 3), (0xFF, 0xFF), 9, 9), 13);
    assert_eq!(moved(2, Shape::new(2, 2, 2, 3), (0xFF, 0xFF), 9, 9), 14);
    assert_eq!(moved(2, Shape::new(1, 2, 3, 3), (0x0F, 0x07), 2, 6), 0);
    assert_eq!(moved(2, Shape::new(1, 3, 2, 3), (0x0F, 0x05), 2, 6), 0);
    assert_eq!(moved(2, Shape::new(1, 2, 3, 3), (0xFF, 0xFF), 9, 9), 6);
    assert_eq!(moved(2, to, (0xFF, 0xFF), 3, 6), 6);
    assert_eq!(moved(2, to, (0xFF, 0xFF), 2, 7), 6);
    assert_eq!(moved(2, to, (0x2F, 0x05), 2, 6), 7);
    assert_eq!(moved(2, to, (0x07, 0x09), 2, 6), 7);
    assert_eq!(moved(2, to, (0x07, 0x05), 2, 6), 8);
    assert_eq!(moved(2, to, (0x0F, 0x07), 2, 6), 8);
}

#[test]
fn all_32_traps_may_be_named() {
    let a = Arrangement::new(32, 32, 32, 32, 1);
    let message: Vec<u8> = (100..132).collect();
    let mut record = [0; 32];
    assert_eq!(setup(&a, &message, &[], &mut record), 0);
    let mut out = [0; 32];
    assert_eq!(reading(&a, &record, u32::MAX, &mut out), 0);
    assert_eq!(out[..], message[..]);
}
