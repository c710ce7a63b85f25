//! What stolen traps tell, as request 2026-07 has it: lists worked by hand, and counts
//! of the slacks of a second message.

use reference::calls::Sending;
use reference::cases::Reference;
use reference::{change, rebuild, setup, stolen, Arrangement};

/// The record after a set-up, and after a change of 05 through the traps 1 to w that
/// reaches trap 1 alone and then, while it is open, a rebuild of trap 2 through R.
fn records(a: &Arrangement, message: u8, slack: u8, read: u32) -> [Vec<u8>; 2] {
    let n = a.shape.n as usize;
    let (mut record, mut serials) = (vec![0xEE; n], vec![9; n]);
    let number = setup(a, &[message], &[slack], &mut record, &mut serials);
    assert_eq!(number, 0);
    let at_first = record.clone();
    let given = Sending {
        d: &[0x05],
        write: (1 << a.shape.w) - 1,
        serial: 1,
        reached: 0b001,
    };
    assert_eq!(change(a, &mut record, &mut serials, &given), 0);
    assert_eq!(rebuild(a, &mut record, &mut serials, read, 0b010), 0);
    assert_eq!(serials, [1, 1, 0, 0][..n]);
    [at_first, record]
}

/// The slacks of message 02 that end with message 07's byte at the trap, where 07 has
/// slack 01.
fn slacks_of_02(a: &Arrangement, read: u32, trap: usize) -> Vec<u8> {
    let end = |message, slack| records(a, message, slack, read)[1][trap - 1];
    let expected = end(0x07, 0x01);
    let serves = |&slack: &u8| end(0x02, slack) == expected;
    (0x00..=0xFF).filter(serves).collect()
}

/// (1,2,2,3), one byte: trap i has x·i + v·i², with 01 04 05 for i². The change has 06
/// at trap 1. Where traps 1 and 3 then have y and z, 06·v = 03·y + z and x = y + v in
/// their pair, and trap 2 gets 02·x + 04·v.
#[test]
fn one_stolen_trap() {
    let a = Arrangement::new(1, 2, 2, 3, 1);
    let read = 0b101;
    // Set up 07 + 01, 0E + 04, 09 + 05. Then trap 1 has 06 + 06 = 00, so 06·v = 0C: v = 02,
    // x = 02, and trap 2 gets 04 + 08 = 0C.
    let first = records(&a, 0x07, 0x01, read);
    assert_eq!(first, [[0x06, 0x0A, 0x0C], [0x00, 0x0C, 0x0C]]);
    // Trap 1 stolen: 02 + v = 06, so v = 04: set up 06, 04 + 10, 06 + 14. Then trap 1 has
    // 06 + 06 = 00, so 06·v = 12: v = 07, x = 07, and trap 2 gets 0E + 1C = 12.
    let second = records(&a, 0x02, 0x04, read);
    assert_eq!(second, [[0x06, 0x14, 0x12], [0x00, 0x12, 0x12]]);
    assert_eq!(slacks_of_02(&a, read, 1), [0x04]);
    // Trap 2 stolen: 04 + 04·v = 0A, so 04·v = 0E. 02·8D = 11A + 11D = 07 and 02·07 = 0E,
    // so v = 8D: set up 02 + 8D, 0A, 06 + 0E + 8D. Then trap 1 has 8F + 06 = 89, and
    // 03·89 = 112 + 11D + 89 = 86, so 06·v = 86 + 85 = 03: v = 8E as 02·8E = 01,
    // x = 89 + 8E = 07, and trap 2 gets 0E + 02 = 0C.
    let second = records(&a, 0x02, 0x8D, read);
    assert_eq!(second, [[0x8F, 0x0A, 0x85], [0x89, 0x0C, 0x85]]);
    assert_eq!(slacks_of_02(&a, read, 2), [0x8D]);
    // Trap 3 stolen: 06 + 05·v = 0C, so 05·v = 0A, v = 02: set up 02 + 02, 04 + 08, 0C. Then
    // trap 1 has 00 + 06 = 06, so 06·v = 0A + 0C = 06: v = 01, x = 07, and trap 2 gets
    // 0E + 04 = 0A.
    let second = records(&a, 0x02, 0x02, read);
    assert_eq!(second, [[0x00, 0x0C, 0x0C], [0x06, 0x0A, 0x0C]]);
    assert_eq!(slacks_of_02(&a, read, 3), [0x02]);
}

/// (1,3,3,4), which is loose: a rebuild through traps 1, 3 and 4 is as above and leaves
/// trap 4 unused, where i² is 10. The change gives 00 there: 05·04 = 14 = 10·46, as
/// 02·46 = 8C and 02·8C = 118 + 11D = 05. So it has 05 + 46 = 43 at trap 1.
#[test]
fn one_stolen_trap_of_a_loose_arrangement() {
    let a = Arrangement::new(1, 3, 3, 4, 1);
    let read = 0b1101;
    // Trap 4 is set up as 1C + 10. Then trap 1 has 06 + 43 = 45, and 03·45 = 8A + 45 = CF,
    // so 06·v = CF + 0C = C3: v = AE as 02·AE = 15C + 11D = 41 and 03·41 = 82 + 41 = C3,
    // x = 45 + AE = EB, and trap 2 gets 1D6 + 11D = CB and 82: 49.
    let first = records(&a, 0x07, 0x01, read);
    assert_eq!(first[0], [0x06, 0x0A, 0x0C, 0x0C]);
    assert_eq!(first[1], [0x45, 0x49, 0x0C, 0x0C]);
    // Trap 2 stolen: v = 8D as above, and trap 4 is set up as 08 + 38. Then trap 1 has
    // 8F + 43 = CC, and 03·CC = 198 + 11D + CC = 49, so 06·v = 49 + 85 = CC: v = 22 as
    // 02·22 = 44 and 03·44 = 88 + 44 = CC, x = CC + 22 = EE, and trap 2 gets
    // 1DC + 11D = C1 and 88: 49.
    let second = records(&a, 0x02, 0x8D, read);
    assert_eq!(second[0], [0x8F, 0x0A, 0x85, 0x30]);
    assert_eq!(second[1], [0xCC, 0x49, 0x85, 0x30]);
    assert_eq!(slacks_of_02(&a, read, 2), [0x8D]);
}

/// README's list at (1,4,3,5), which is loose: change 05 through traps 1 to 3, which
/// reaches trap 1, a rebuild of trap 5 from traps 1 to 4, and the change again, which
/// reaches all three. The records after each.
fn worked_list(message: u8, slack: [u8; 2]) -> [Vec<u8>; 4] {
    let a = Arrangement::new(1, 4, 3, 5, 1);
    let (mut record, mut serials) = (vec![0xEE; 5], vec![9; 5]);
    let number = setup(&a, &[message], &slack, &mut record, &mut serials);
    assert_eq!((number, &serials[..]), (0, &[0, 0, 0, 0, 0][..]));
    let at_first = record.clone();
    let given = |reached| Sending {
        d: &[0x05],
        write: 0b00111,
        serial: 1,
        reached,
    };
    let number = change(&a, &mut record, &mut serials, &given(0b00001));
    assert_eq!((number, &serials[..]), (0, &[1, 0, 0, 0, 0][..]));
    let broken = record.clone();
    let number = rebuild(&a, &mut record, &mut serials, 0b01111, 0b10000);
    assert_eq!((number, &serials[..]), (0, &[1, 0, 0, 0, 1][..]));
    let rebuilt = record.clone();
    let number = change(&a, &mut record, &mut serials, &given(0b00111));
    assert_eq!((number, &serials[..]), (0, &[1, 1, 1, 0, 1][..]));
    [at_first, broken, rebuilt, record]
}

/// The rows of README's table, which `StolenExample` of the crate `ledger` proves.
/// Traps 2 and 5 end alike.
#[test]
fn worked_lists() {
    let first = [
        [0x04, 0x1A, 0x12, 0x8C, 0xA0],
        [0x01, 0x1A, 0x12, 0x8C, 0xA0],
        [0x01, 0x1A, 0x12, 0x8C, 0xD7],
        [0x01, 0x13, 0x91, 0x8C, 0xD7],
    ];
    let second = [
        [0xF5, 0x1A, 0x15, 0x73, 0xA0],
        [0xF0, 0x1A, 0x15, 0x73, 0xA0],
        [0xF0, 0x1A, 0x15, 0x73, 0xD7],
        [0xF0, 0x13, 0x96, 0x73, 0xD7],
    ];
    assert_eq!(worked_list(0x07, [0x01, 0x02]), first);
    assert_eq!(worked_list(0x00, [0xDE, 0x2B]), second);
}

#[test]
fn each_slack_has_one() {
    stolen::test(&Reference, 51);
}

#[test]
fn slacks_of_two_bytes() {
    stolen::test_two_bytes(&Reference, 52);
}

#[test]
fn large_shapes() {
    stolen::test_large(&Reference, 53);
}
