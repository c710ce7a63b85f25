//! The season program: document 01's example in the form of request 2026-04, and
//! the format's corners.

use reference::corpus::draft::{damage, reading, Draft};
use reference::corpus::tight;
use reference::field;
use reference::season;
use reference::season::LIMIT;

fn run(input: &[u8]) -> String {
    let mut out = Vec::new();
    season(input, &mut out).unwrap();
    String::from_utf8(out).unwrap()
}

fn bytes(hex: &str) -> Vec<u8> {
    let digits: Vec<u32> = hex.chars().filter_map(|c| c.to_digit(16)).collect();
    let byte = |pair: &[u32]| (pair[0] * 16 + pair[1]) as u8;
    digits.chunks(2).map(byte).collect()
}

fn run_hex(hex: &str) -> String {
    run(&bytes(hex))
}

/// The opening of the example, without its count of events.
const OPENING: &str = "0005 0001 0002 0002 0003 0001, 0001 07, 0001 01,";

fn with_events(count: u16, events: &str) -> String {
    run_hex(&format!("{OPENING} {count:04x} {events}"))
}

#[test]
fn the_documents_example() {
    let events = "01 00000003 05, 04 00000005, 01 00000005 02, 03 00000001 FF, 04 00000006";
    let expected = "0 0 0\n1 1 0\n2 4 0 02\n3 1 0\n4 3 0\n5 4 0 00\n";
    assert_eq!(with_events(5, events), expected);
}

#[test]
fn the_first_count_is_tested_first() {
    assert_eq!(run_hex(""), "0 0 21\n");
    assert_eq!(run_hex("00"), "0 0 21\n");
    assert_eq!(run_hex("04"), "0 0 21\n");
    assert_eq!(run_hex("0004"), "0 0 20\n");
    assert_eq!(run_hex("0005"), "0 0 21\n");
    assert_eq!(run_hex("0500"), "0 0 20\n");
}

#[test]
fn all_of_the_opening_is_read_before_the_setup() {
    let refused = "0005 0001 0001 0021 0021 0001, 0001 07, 0000";
    assert_eq!(run_hex(refused), "0 0 21\n");
    assert_eq!(run_hex(&format!("{refused} 00")), "0 0 21\n");
    assert_eq!(run_hex(&format!("{refused} 0000")), "0 0 1\n");
    assert_eq!(run_hex(&format!("{refused} 0009 0102")), "0 0 1\n");
}

#[test]
fn wrong_lengths_are_six() {
    let arrangement = "0005 0001 0002 0002 0003 0001";
    assert_eq!(
        run_hex(&format!("{arrangement} 0002 0707 0000 0000")),
        "0 0 6\n"
    );
    assert_eq!(
        run_hex(&format!("{arrangement} 0000 0001 07 0000")),
        "0 0 6\n"
    );
    assert_eq!(
        run_hex(&format!("{arrangement} 0002 0707 0001 01")),
        "0 0 21\n"
    );
}

#[test]
fn faults_of_events() {
    assert_eq!(with_events(0, ""), "0 0 0\n");
    assert_eq!(with_events(1, ""), "0 0 0\n1 0 21\n");
    assert_eq!(with_events(1, "00"), "0 0 0\n1 0 22\n");
    assert_eq!(with_events(1, "FF"), "0 0 0\n1 255 22\n");
    assert_eq!(with_events(1, "06 00"), "0 0 0\n1 6 22\n");
    assert_eq!(with_events(0, "01"), "0 0 0\n1 0 23\n");
    assert_eq!(with_events(1, "04 000000FF 00"), "0 0 0\n1 4 7\n2 0 23\n");
    assert_eq!(with_events(2, "04 00000001"), "0 0 0\n1 4 8\n2 0 21\n");
}

#[test]
fn all_fields_are_read_before_an_event_is_tried() {
    for (kind, fields) in [
        (1, "01 000000FF"),
        (2, "02 000000FF 000000"),
        (3, "03 0000FF"),
        (3, "03 0000000C AA"),
        (3, &format!("03 FFFFFFFF {}", "AA".repeat(31))),
        (4, "04 0000FF"),
        (5, "05 000000FF FFFF 0000 0000 0000 00000000 0102"),
    ] {
        let expected = format!("0 0 0\n1 {kind} 21\n");
        assert_eq!(with_events(1, fields), expected);
    }
}

#[test]
fn each_refusal_of_an_event() {
    for (fields, answer) in [
        ("01 00000008 05", "1 7"),
        ("01 00000001 05", "1 8"),
        ("02 00000003 00000008", "2 7"),
        ("02 00000001 00000002", "2 8"),
        ("02 00000003 00000002", "2 9"),
        ("03 00000008 05", "3 7"),
        ("03 0000000C AA BB", "3 7"),
        (&format!("03 FFFFFFFF {}", "AA".repeat(32)), "3 7"),
        ("04 00000009", "4 7"),
        ("04 00000007", "4 8"),
        ("05 00000003 0001 0001 0001 0021 00000001 05", "5 11"),
        ("05 00000003 0001 0002 0001 0001 00000001 05", "5 12"),
        ("05 00000003 0000 0001 0001 0001 00000001", "5 13"),
        ("05 00000003 0001 0001 0001 0002 00000001 05", "5 14"),
        ("05 00000009 0001 0001 0001 0001 00000001 05", "5 7"),
        ("05 00000003 0001 0001 0001 0001 00000002 05", "5 7"),
        ("05 00000003 0001 0001 0001 0001 00000000 05", "5 8"),
        ("05 00000003 0001 0001 0001 0001 00000001 05", "5 0"),
    ] {
        let expected = format!("0 0 0\n1 {answer}\n");
        assert_eq!(with_events(1, fields), expected);
    }
}

#[test]
fn lengths_follow_the_arrangement_in_force() {
    let grown = "05 00000003 0002 0002 0003 0003 00000007 0101";
    let change = "01 00000007 0203";
    let reading = "04 00000005";
    let events = format!("{grown} {change} {reading}");
    assert_eq!(with_events(3, &events), "0 0 0\n1 5 0\n2 1 0\n3 4 0 0302\n");
}

/// (1,2,3,3), message 07, no slack: each reading is of the lower trap.
#[test]
fn a_loose_arrangement() {
    let opening = "0005 0001 0002 0003 0003 0001, 0001 07,";
    let events = "03 00000002 FF, 04 00000003, 04 00000006, 02 00000005 00000002, 04 00000006";
    assert_eq!(
        run_hex(&format!("{opening} 0000 0005 {events}")),
        "0 0 0\n1 3 0\n2 4 0 07\n3 4 0 f1\n4 2 0\n5 4 0 07\n"
    );
    assert_eq!(
        run_hex(&format!("{opening} 0001 01 0005 {events}")),
        "0 0 6\n"
    );
}

/// The file's answers to these events at (1,1,n,n), and then what each trap holds:
/// its point times what it alone reads. At first trap i holds i times the message,
/// whose bytes are 01, 02, ...
fn answers_and_blocks(n: u64, b: u64, events: &[Vec<u8>]) -> (Vec<String>, Vec<Vec<u8>>) {
    let readings = (0..n).map(|bit| reading(1 << bit));
    let draft = Draft {
        arrangement: tight(1, n, n).with(b),
        message: (1..=b).map(|i| i as u8).collect(),
        slack: Vec::new(),
        events: events.iter().cloned().chain(readings).collect(),
    };
    let output = run(&draft.bytes());
    let third = |line: &str| line.split(' ').skip(2).collect::<Vec<_>>().join(" ");
    let mut answers: Vec<String> = output.lines().skip(1).map(third).collect();
    let read = answers.split_off(events.len());
    let held = |(digits, trap): (&String, u64)| {
        let read = bytes(digits.strip_prefix("0 ").unwrap());
        read.iter().map(|&x| field::mul(x, trap as u8)).collect()
    };
    (answers, read.iter().zip(1..).map(held).collect())
}

/// What the traps hold after the set-up.
fn blocks_at_first(n: u64, b: u64) -> Vec<Vec<u8>> {
    let block = |trap| (1..=b).map(|i| field::mul(i as u8, trap as u8)).collect();
    (1..=n).map(block).collect()
}

#[test]
fn a_box_is_replaced_in_rising_order() {
    let given: Vec<u8> = (0xA1..=0xA9).collect();
    let (answers, blocks) = answers_and_blocks(4, 3, &[damage(0b1101, &given)]);
    assert_eq!(answers, ["0"]);
    let second = blocks_at_first(4, 3)[1].clone();
    let expected = [&given[..3], &second, &given[3..6], &given[6..]];
    assert_eq!(blocks, expected);
}

#[test]
fn all_of_a_box_is_replaced_or_none() {
    for traps in [0b1_0000, 0b1_0001, 0b11_1111, 1 << 31 | 0b110, u32::MAX] {
        let given = vec![0xEE; traps.count_ones() as usize * 2];
        let (answers, blocks) = answers_and_blocks(4, 2, &[damage(traps, &given)]);
        assert_eq!(answers, ["7"]);
        assert_eq!(blocks, blocks_at_first(4, 2));
    }
}

/// It has no block, so that the next event follows its choice.
#[test]
fn an_empty_box_is_accepted() {
    let empty = damage(0, &[]);
    let (answers, blocks) = answers_and_blocks(3, 1024, &[empty.clone(), empty]);
    assert_eq!(answers, ["0", "0"]);
    assert_eq!(blocks, blocks_at_first(3, 1024));
    assert_eq!(with_events(1, "03 00000000"), "0 0 0\n1 3 0\n");
    let left_over = with_events(1, "03 00000000 AA");
    assert_eq!(left_over, "0 0 0\n1 3 0\n2 0 23\n");
}

#[test]
fn traps_above_n_have_their_blocks_in_the_file() {
    let events = "03 0000000C AA BB, 04 00000003, 03 80000000 04, 04 00000006";
    let expected = "0 0 0\n1 3 7\n2 4 0 07\n3 3 7\n4 4 0 07\n";
    assert_eq!(with_events(4, events), expected);
}

/// 32 blocks of 1,024 bytes, also where n is less.
#[test]
fn the_largest_box() {
    let given: Vec<u8> = (0..32 * 1024).map(|i| (i / 1024 + i % 251) as u8).collect();
    for (n, answer) in [(32, "0"), (31, "7"), (3, "7"), (1, "7")] {
        let (answers, blocks) = answers_and_blocks(n, 1024, &[damage(u32::MAX, &given)]);
        assert_eq!(answers, [answer]);
        let first = blocks_at_first(n, 1024).concat();
        assert!(blocks.concat() == if n == 32 { given.clone() } else { first });
    }
}

/// The bytes end before all of a box's fields are read: 21, and not 7.
#[test]
fn a_box_that_ends_early() {
    for n in [32, 31, 3] {
        let mut draft = Draft {
            arrangement: tight(1, n, n).with(1024),
            message: vec![7; 1024],
            slack: Vec::new(),
            events: Vec::new(),
        };
        let start = draft.length();
        draft.events.push(damage(u32::MAX, &[9; 32 * 1024]));
        let whole = draft.bytes();
        let answer = if n == 32 { 0 } else { 7 };
        assert_eq!(run(&whole), format!("0 0 0\n1 3 {answer}\n"));
        for length in [start + 1, start + 4, start + 5, whole.len() - 1] {
            assert_eq!(run(&whole[..length]), "0 0 0\n1 3 21\n");
        }
    }
}

/// The same box at three traps, at four, and at three again.
#[test]
fn a_box_goes_by_the_arrangement_in_force() {
    let boxed = "03 0000000A AA BB";
    let grown = "05 00000003 0001 0002 0003 0004 0000000E 09";
    let back = "05 00000005 0001 0002 0002 0003 00000003 07";
    let events = format!("{boxed} 04 00000003 {grown} {boxed} 04 00000005 {back} {boxed}");
    let expected = "0 0 0\n1 3 7\n2 4 0 07\n3 5 0\n4 3 0\n5 4 0 09\n6 5 0\n7 3 7\n";
    assert_eq!(with_events(7, &events), expected);
}

/// (1,2,4,5): a box with a damaged trap and an undamaged one, and its rebuild.
#[test]
fn damage_over_damage_and_a_rebuild() {
    let opening = "0005 0001 0002 0004 0005 0001, 0001 07, 0001 01, 000A";
    let boxes = "03 00000002 EE, 03 0000000A AA BB";
    // AA / 02 = 55 = 3B + 02·37 and BB / 04 = E7 = 3B + 04·37
    let inside = "04 0000000A";
    let around = "04 00000005, 04 00000014";
    let rebuild = "02 00000011 0000000A";
    let through = "04 00000003, 04 0000000A, 04 00000018, 04 0000000C";
    assert_eq!(
        run_hex(&format!("{opening} {boxes} {inside} {around} {rebuild} {through}")),
        "0 0 0\n1 3 0\n2 3 0\n3 4 0 3b\n4 4 0 07\n5 4 0 07\n6 2 0\n7 4 0 07\n8 4 0 07\n9 4 0 07\n10 4 0 07\n"
    );
}

#[test]
fn a_new_count_does_not_wrap() {
    let mut input = bytes("0005 0001 0001 0001 0001 0400 0400");
    input.extend(vec![7; 1024]);
    input.extend(bytes("0000 0001 05 00000001 0040 0001 0001 0001 00000001"));
    assert_eq!(run(&input), "0 0 0\n1 5 21\n");
}

/// A file of readings that is at least so long, with its count right.
fn readings(length: usize) -> Vec<u8> {
    let opening = bytes("0005 0001 0001 0001 0001 0001 0001 07 0000");
    let count = (length - opening.len() - 2) / 5;
    let mut input = opening;
    input.extend((count as u16).to_be_bytes());
    for _ in 0..count {
        input.extend(bytes("04 00000001"));
    }
    input
}

#[test]
fn bytes_past_the_limit_do_not_count() {
    let mut input = readings(LIMIT);
    let exact = run(&input);
    let missing = LIMIT - input.len();
    assert!(missing > 0);
    input.extend(vec![0; missing]);
    let with_rest = run(&input);
    assert!(with_rest.starts_with(&exact));
    assert!(with_rest.ends_with(" 0 23\n"));
    input.extend([0; 9]);
    assert_eq!(run(&input), with_rest);
}

#[test]
fn an_event_across_the_limit_ends_early() {
    let mut input = readings(LIMIT);
    let count = u16::from_be_bytes([input[17], input[18]]);
    input[17..19].copy_from_slice(&(count + 1).to_be_bytes());
    input.extend(bytes("04 00000001"));
    assert!(input.len() > LIMIT);
    let expected = format!("\n{} 4 21\n", count + 1);
    assert!(run(&input).ends_with(&expected));
}
