//! The words that go with the numbers.

use jirvents::{decode, encode, invert, reconfigure, repair, update, view};
use jirvents::{InvertError, Params, Refusal, Shape, QUESTIONS};

const README: &str = include_str!("../../../README.md");
const HEADER: &str = include_str!("../../../c/jirvents.h");

/// All questions in the order of document 01's list, where those of the new
/// parameters come after 5, and of request 2026-03, which puts 24 after 8.
fn questions() -> Vec<(u32, String)> {
    let own = |(number, words): &(u32, &str)| (*number, words.to_string());
    let new = (1..=4).map(|n| (10 + n, format!("{n} for the new parameters")));
    let (before, after) = QUESTIONS.split_at(5);
    let before = before.iter().map(own);
    before.chain(new).chain(after.iter().map(own)).collect()
}

#[test]
fn the_order_is_the_documents() {
    let numbers: Vec<_> = questions().into_iter().map(|row| row.0).collect();
    let order = [1, 2, 3, 4, 5, 11, 12, 13, 14, 16, 6, 7, 8, 24, 9, 10, 15];
    assert_eq!(numbers, order);
}

/// The rows of the README's table of numbers and questions.
fn rows() -> Vec<(&'static str, &'static str)> {
    let lines = README.lines();
    let mut table = lines.skip_while(|line| *line != "| number | question |");
    table.nth(1).expect("the table's head");
    let rows = table.take_while(|line| line.starts_with('|'));
    let cells = |row: &'static str| {
        let inner = row.trim_matches('|').trim();
        inner.split_once(" | ").expect("two cells")
    };
    rows.map(cells).collect()
}

fn number(text: &str) -> u32 {
    text.parse().expect("a number")
}

#[test]
fn the_readme_has_the_same_words() {
    let mut rows = rows();
    let new = ("11 to 14", "1 to 4 for the new parameters");
    assert_eq!(rows.remove(5), new);
    let rows = rows.into_iter().map(|(n, words)| (number(n), words));
    assert_eq!(rows.collect::<Vec<_>>(), QUESTIONS);
}

/// A refusal of the C header's enum: `NAME = number, /* words */`.
fn enumerator(line: &str) -> (u32, String) {
    let (left, comment) = line.split_once("/*").expect("words");
    let (_, value) = left.split_once('=').expect("a value");
    let words = comment.strip_suffix("*/").expect("the words' end");
    let value = value.trim().trim_end_matches(',');
    (number(value), words.trim().to_string())
}

#[test]
fn the_c_header_has_the_same_words() {
    let lines = HEADER.lines().map(str::trim);
    let mut answers = lines.skip_while(|line| *line != "enum {").skip(1);
    assert_eq!(answers.next(), Some("JIRVENTS_SERVED = 0,"));
    let refusals = answers.take_while(|line| *line != "};").map(enumerator);
    assert_eq!(refusals.collect::<Vec<_>>(), questions());
}

fn params(k: usize, r: usize, w: usize, n: usize, b: usize) -> Params {
    Params { k, r, w, n, b }
}

fn moved(k: usize, r: usize, w: usize, n: usize) -> Refusal {
    let shape = Shape { k, r, w, n };
    let p = params(1, 2, 2, 3, 1);
    let (mut out, mut serials) = ([0; 3], [0; 3]);
    reconfigure(
        p,
        shape,
        &[0; 3],
        &[0; 3],
        3,
        3,
        &[0],
        &mut out,
        &mut serials,
    )
    .unwrap_err()
}

/// A refused call for each question but 15 and 16, in the order of the numbers.
fn refusals() -> Vec<Refusal> {
    let p = params(1, 2, 2, 3, 1);
    let mut serials = [0; 3];
    let mut refused = |p| encode(p, &[0], &[0], &mut [0; 3], &mut serials).unwrap_err();
    vec![
        refused(params(1, 2, 2, 33, 1)),
        refused(params(1, 4, 2, 3, 1)),
        refused(params(0, 2, 2, 3, 1)),
        refused(params(1, 1, 2, 3, 1)),
        refused(params(1, 2, 2, 3, 0)),
        encode(p, &[0], &[0], &mut [0; 3], &mut [0; 4]).unwrap_err(),
        decode(p, &[0; 3], 0b1001, &mut [0]).unwrap_err(),
        decode(p, &[0; 3], 0b111, &mut [0]).unwrap_err(),
        repair(p, &mut [0; 3], &mut [0; 3], 0b011, 0b010).unwrap_err(),
        view(p, &[0; 3], 4).unwrap_err(),
        moved(1, 2, 2, 0),
        moved(1, 4, 2, 3),
        moved(3, 2, 2, 3),
        moved(1, 1, 2, 3),
        update(p, &mut [0; 3], &mut [0; 3], &[0], 0b011, 0, 0b011).unwrap_err(),
    ]
}

#[test]
fn each_refusal_tells_its_question() {
    for (refusal, number) in refusals().into_iter().zip((1..=14).chain([24])) {
        assert_eq!(refusal.number(), number);
        let (asked, of) = match number {
            11..=14 => (number - 10, " of the new parameters"),
            _ => (number, ""),
        };
        let row = QUESTIONS.iter().find(|row| row.0 == asked);
        let words = row.expect("its question").1;
        let expected = format!("question {number}{of}: {words}");
        assert_eq!(refusal.to_string(), expected);
    }
}

#[test]
fn the_inverse_tells_its_column() {
    let singular = invert(2, &[1, 0, 1, 0], &mut [0; 4]).unwrap_err();
    assert_eq!(singular, InvertError::Singular { column: 2 });
    assert_eq!(singular.number(), 15);
    let words = "question 15: has the matrix an inverse? \
                 No: column 2 is the first that is a sum of multiples of those before it";
    assert_eq!(singular.to_string(), words);
    let refused = invert(33, &[], &mut []).unwrap_err();
    assert_eq!(refused.number(), 16);
    let words = "question 16: is the matrix's side from 1 to 32?";
    assert_eq!(refused.to_string(), words);
}
