//! Files of calls, a line each: the call, its arguments as name=value, an arrow,
//! the answer, what the buffers hold after it, and what is given beside it.

use crate::cases::{Calls, Case, Outcome, Reference};
use crate::pair::traps_of;
use crate::{Arrangement, Shape};
use std::collections::BTreeMap;

pub type Parsed<T> = Result<T, String>;

/// A line's named values.
struct Fields<'a> {
    values: BTreeMap<&'a str, &'a str>,
}

impl<'a> Fields<'a> {
    fn parse(text: &'a str) -> Parsed<Fields<'a>> {
        let mut values = BTreeMap::new();
        for word in text.split_whitespace() {
            let (name, value) = word.split_once('=').ok_or(format!("no '=' in {word}"))?;
            values.insert(name, value);
        }
        Ok(Fields { values })
    }

    fn text(&self, name: &str) -> Parsed<&'a str> {
        let found = self.values.get(name).copied();
        found.ok_or_else(|| format!("{name} is missing"))
    }

    fn number(&self, name: &str) -> Parsed<u64> {
        let text = self.text(name)?;
        text.parse().map_err(|_| format!("{name} is no number"))
    }

    fn choice(&self, name: &str) -> Parsed<u32> {
        let text = self.text(name)?;
        u32::from_str_radix(text, 16).map_err(|_| format!("{name} is no choice"))
    }

    fn bytes(&self, name: &str) -> Parsed<Vec<u8>> {
        let text = self.text(name)?;
        from_hex(text).ok_or_else(|| format!("{name} is not in hex"))
    }

    fn serial(&self, name: &str) -> Parsed<u32> {
        let text = self.text(name)?;
        text.parse().map_err(|_| format!("{name} is no serial"))
    }

    fn serials(&self, name: &str) -> Parsed<Vec<u32>> {
        let text = self.text(name)?;
        from_list(text).ok_or_else(|| format!("{name} are no serials"))
    }

    fn shape(&self, mark: &str) -> Parsed<Shape> {
        let number = |name: &str| self.number(&format!("{name}{mark}"));
        Ok(Shape::new(
            number("k")?,
            number("r")?,
            number("w")?,
            number("n")?,
        ))
    }

    fn arrangement(&self) -> Parsed<Arrangement> {
        Ok(self.shape("")?.with(self.number("B")?))
    }

    fn case(&self, call: &str) -> Parsed<Case> {
        Ok(match call {
            "inverse" => Case::Inverse {
                side: self.number("side")?,
                matrix: self.bytes("matrix")?,
                out: self.bytes("out")?,
            },
            "setup" => Case::Setup {
                a: self.arrangement()?,
                message: self.bytes("message")?,
                slack: self.bytes("slack")?,
                record: self.bytes("record")?,
                serials: self.serials("serials")?,
            },
            "reading" => Case::Reading {
                a: self.arrangement()?,
                record: self.bytes("record")?,
                read: self.choice("R")?,
                out: self.bytes("out")?,
            },
            "difference" => Case::Difference {
                a: self.arrangement()?,
                d: self.bytes("d")?,
                write: self.choice("W")?,
                out: self.bytes("out")?,
            },
            "change" => Case::Change {
                a: self.arrangement()?,
                record: self.bytes("record")?,
                serials: self.serials("serials")?,
                d: self.bytes("d")?,
                write: self.choice("W")?,
                serial: self.serial("serial")?,
                reached: self.choice("reached")?,
            },
            "rebuild" => Case::Rebuild {
                a: self.arrangement()?,
                record: self.bytes("record")?,
                serials: self.serials("serials")?,
                read: self.choice("R")?,
                lost: self.choice("L")?,
            },
            "rearrange" => Case::Rearrangement {
                a: self.arrangement()?,
                record: self.bytes("record")?,
                serials: self.serials("serials")?,
                read: self.choice("R")?,
                to: self.shape("'")?,
                write: self.choice("W'")?,
                message: self.bytes("message")?,
                new: self.bytes("new")?,
                new_serials: self.serials("new_serials")?,
            },
            "check" => Case::Check {
                a: self.arrangement()?,
                record: self.bytes("record")?,
                budget: self.number("budget")?,
            },
            "view" => Case::View {
                a: self.arrangement()?,
                record: self.bytes("record")?,
                trap: self.number("trap")?,
            },
            _ => return Err(format!("unknown call {call}")),
        })
    }
}

fn from_hex(text: &str) -> Option<Vec<u8>> {
    if text == "-" {
        return Some(Vec::new());
    }
    let digits: Option<Vec<u32>> = text.chars().map(|c| c.to_digit(16)).collect();
    let digits = digits.filter(|d| d.len() % 2 == 0)?;
    let byte = |pair: &[u32]| (pair[0] * 16 + pair[1]) as u8;
    Some(digits.chunks_exact(2).map(byte).collect())
}

fn to_hex(bytes: &[u8]) -> String {
    if bytes.is_empty() {
        return "-".to_string();
    }
    bytes.iter().map(|b| format!("{b:02x}")).collect()
}

/// Numbers with commas between them.
fn from_list(text: &str) -> Option<Vec<u32>> {
    if text == "-" {
        return Some(Vec::new());
    }
    text.split(',').map(|number| number.parse().ok()).collect()
}

fn to_list(numbers: &[u32]) -> String {
    if numbers.is_empty() {
        return "-".to_string();
    }
    let texts: Vec<String> = numbers.iter().map(u32::to_string).collect();
    texts.join(",")
}

/// A column, `-` where there is none.
fn told(value: Option<u64>) -> String {
    value.map_or("-".to_string(), |v| v.to_string())
}

/// An accepted check's result.
fn blamed(set: u32, tried: u64, distance: u64) -> String {
    format!("0 set={set:08x} tried={tried} distance={distance}")
}

/// An outcome as a line has it behind its arrow.
fn behind_arrow(case: &Case, outcome: &Outcome) -> String {
    let (name, serials) = match case {
        Case::Inverse { .. } | Case::Reading { .. } | Case::Difference { .. } => ("out", None),
        Case::Setup { .. } | Case::Change { .. } | Case::Rebuild { .. } => {
            ("record", Some("serials"))
        }
        Case::Rearrangement { .. } => ("new", Some("new_serials")),
        Case::View { .. } => ("part", None),
        Case::Check { .. } => {
            let accepted = outcome.blame.map(|b| blamed(b.set, b.tried, b.distance));
            return accepted.unwrap_or(outcome.number.to_string());
        }
    };
    let mut text = format!("{} {name}={}", outcome.number, to_hex(&outcome.bytes));
    if let Some(name) = serials {
        text += &format!(" {name}={}", to_list(&outcome.serials));
    }
    if let Case::Inverse { .. } = case {
        text += &format!(" column={}", told(outcome.column));
    }
    text
}

/// So many serials that are 0. For an n above 32 no length is asked.
fn zeros(n: u64) -> Vec<u32> {
    vec![0; n.min(32) as usize]
}

/// What requests 2026-03 and 2026-05 add to a line of an earlier state, before and
/// behind its arrow. 2026-03: serials of the right length, all 0, and a change has
/// the serial 1 and reaches all of W. The traps of an accepted change's W then have
/// serial 1, and all others 0. 2026-05: the inverse's column, as this crate has it.
fn additions(call: &str, fields: &Fields, expected: &str) -> Parsed<(String, String)> {
    if fields.text("serials").is_ok() || expected.contains(" column=") {
        return Ok(Default::default());
    }
    let accepted = expected.starts_with("0 ");
    Ok(match call {
        "inverse" => {
            let column = fields.case(call)?.run(&Reference).column;
            (String::new(), format!(" column={}", told(column)))
        }
        "setup" | "rebuild" => {
            let serials = format!(" serials={}", to_list(&zeros(fields.number("n")?)));
            (serials.clone(), serials)
        }
        "change" => {
            let mut serials = zeros(fields.number("n")?);
            let (before, write) = (to_list(&serials), fields.text("W")?);
            if accepted {
                for trap in traps_of(fields.choice("W")?) {
                    serials[trap as usize - 1] = 1;
                }
            }
            (
                format!(" serials={before} serial=1 reached={write}"),
                format!(" serials={}", to_list(&serials)),
            )
        }
        "rearrange" => {
            let old = to_list(&zeros(fields.number("n")?));
            let new = format!(" new_serials={}", to_list(&zeros(fields.number("n'")?)));
            (format!(" serials={old}{new}"), new)
        }
        _ => Default::default(),
    })
}

/// The result of a check of an earlier state, `trap=` and a trap, as request 2026-06
/// has it for a budget of 1. If no trap differs from the pair of traps 1..q, the
/// empty set serves; else the check is stopped, and a set of one is the next.
fn stopped_check(fields: &Fields, expected: &str) -> Parsed<String> {
    let (number, trap) = expected.split_once(" trap=").ok_or("no trap")?;
    if trap == "-" {
        return Ok(number.to_string());
    }
    if trap == "0" {
        return Ok(blamed(0, 1, 0));
    }
    let shape = fields.shape("")?;
    let set = (shape.q()..shape.n).fold(0, |set, bit| set | 1 << bit);
    Ok(blamed(set, 1, shape.n - shape.q() - 1))
}

/// What the requests add to a line's arguments, and the line's result after them.
fn renewed(call: &str, fields: &Fields, expected: &str) -> Parsed<(String, String)> {
    if call == "check" && fields.text("budget").is_err() {
        return Ok((" budget=1".to_string(), stopped_check(fields, expected)?));
    }
    let (given, left) = additions(call, fields, expected)?;
    Ok((given, format!("{expected}{left}")))
}

/// How a line and an implementation's outcome compare.
#[derive(Clone, Copy, Debug, PartialEq, Eq)]
pub enum Verdict {
    Same,
    NumberDiffers,
    RestDiffers,
}

fn compare(expected: &str, found: &str) -> Verdict {
    let number = |text: &str| text.split(' ').next().map(str::to_string);
    if expected == found {
        Verdict::Same
    } else if number(expected) != number(found) {
        Verdict::NumberDiffers
    } else {
        Verdict::RestDiffers
    }
}

/// A line that was tried.
pub struct Tried<'a> {
    pub call: &'a str,
    pub expected: String,
    pub found: String,
    pub verdict: Verdict,
}

/// Puts one line's call to an implementation.
pub fn try_line<'a>(line: &'a str, calls: &dyn Calls) -> Parsed<Tried<'a>> {
    let (before, expected) = line.split_once(" -> ").ok_or("no arrow")?;
    let (call, rest) = before.split_once(' ').ok_or("no arguments")?;
    let (given, expected) = renewed(call, &Fields::parse(rest)?, expected.trim_end())?;
    let rest = format!("{rest}{given}");
    let case = Fields::parse(&rest)?.case(call)?;
    let outcome = case.run(calls);
    let found = behind_arrow(&case, &outcome);
    let verdict = compare(&expected, &found);
    Ok(Tried {
        call,
        expected,
        found,
        verdict,
    })
}

/// Puts every line's call to an implementation: all must be the same. Gives the
/// count of lines.
pub fn try_all(text: &str, calls: &dyn Calls) -> Parsed<usize> {
    for line in text.lines() {
        let tried = try_line(line, calls)?;
        if tried.verdict != Verdict::Same {
            let verdict = tried.verdict;
            return Err(format!("{verdict:?}: {line}\nfound {}", tried.found));
        }
    }
    Ok(text.lines().count())
}
