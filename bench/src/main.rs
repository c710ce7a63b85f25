//! The speed of whole calls, side by side with other implementations of the same
//! work in one process, and of the season program. See docs/PERFORMANCE.md.

mod buffer;
mod case;
mod coder;
#[cfg(isal)]
mod isal;
#[cfg(jerasure)]
mod jerasure;
mod peer;
mod plain;
mod search;
mod season;
mod sets;
mod timing;

use case::{Case, CALLS, INVERT, POINTS, SIDES};
use coder::Library;
use jirvents::Params;
use peer::Calls;
use std::io;
use std::process::ExitCode;
use timing::{Coders, Row, CODERS};

const USAGE: &str = "bench [--quick] [CALL | POINT]..
Calls: encode, decode, update, repair, check, reconfigure, invert, season. Points: k,r,w,n, and for invert a side.
Measures the calls named at the points named; all, if none is named.";

/// How often all rows are gone through, and how many windows a row has each time.
const PASSES: u32 = 30;
const QUICK_PASSES: u32 = 5;
const WINDOWS: u32 = 10;

/// The library and whom it is compared with.
const NAMES: [&str; CODERS] = ["Jirvents", "plain", "jerasure", "ISA-L"];

fn coders() -> Coders {
    let mut coders: Coders = [const { None }; CODERS];
    coders[0] = Some(Box::new(Library::new()));
    coders[1] = Some(Box::new(Calls::new(plain::Plain::new())));
    #[cfg(jerasure)]
    {
        coders[2] = Some(Box::new(Calls::new(jerasure::Jerasure)));
    }
    #[cfg(isal)]
    {
        coders[3] = Some(Box::new(Calls::new(isal::IsaL::new())));
    }
    coders
}

/// What is asked for on the command line.
struct Wanted {
    quick: bool,
    calls: Vec<String>,
    points: Vec<String>,
}

fn point_name(p: Params) -> String {
    format!("{},{},{},{}", p.k, p.r, p.w, p.n)
}

impl Wanted {
    fn from(arguments: impl Iterator<Item = String>) -> Option<Wanted> {
        let calls = CALLS.map(|(name, _)| name);
        let is_call = |word: &str| calls.contains(&word) || ["invert", "season"].contains(&word);
        let is_point = |word: &str| {
            let side = SIDES.iter().any(|side| side.to_string() == word);
            let mut points = POINTS.iter().chain(&search::POINTS);
            side || points.any(|&p| point_name(p) == word)
        };
        let (quick, calls, points) = (false, Vec::new(), Vec::new());
        let mut wanted = Wanted {
            quick,
            calls,
            points,
        };
        for argument in arguments {
            match argument.as_str() {
                "--quick" => wanted.quick = true,
                word if is_call(word) => wanted.calls.push(argument),
                word if is_point(word) => wanted.points.push(argument),
                _ => return None,
            }
        }
        Some(wanted)
    }

    fn call(&self, name: &str) -> bool {
        self.calls.is_empty() || self.calls.iter().any(|call| call == name)
    }

    fn point(&self, name: &str) -> bool {
        self.points.is_empty() || self.points.iter().any(|point| point == name)
    }
}

/// Three digits.
fn short(number: f64) -> String {
    let digits = match number {
        ..9.995 => 2,
        ..99.95 => 1,
        _ => 0,
    };
    format!("{number:.digits$}")
}

/// The rows asked for.
fn rows(wanted: &Wanted, coders: &mut Coders) -> Vec<Row> {
    let mut rows = Vec::new();
    for (name, call) in CALLS {
        for p in POINTS {
            if wanted.call(name) && wanted.point(&point_name(p)) {
                let at = format!("({}) B={}", point_name(p), p.b);
                rows.push(Row::new(name, at, call, move || Case::at(p, name), coders));
            }
        }
    }
    for side in SIDES {
        if wanted.call("invert") && wanted.point(&side.to_string()) {
            let (at, case) = (format!("side {side}"), move || Case::of_side(side));
            rows.push(Row::new("invert", at, INVERT, case, coders));
        }
    }
    rows
}

fn print_table(rows: &[Row]) {
    print!("| call | at | {}, ns |", NAMES[0]);
    for name in &NAMES[1..] {
        print!(" {name}, ns | ratio |");
    }
    println!("\n|---|---|{}", "---:|".repeat(2 * CODERS - 1));
    for row in rows {
        let [Some(library), peers @ ..] = row.shortest else {
            unreachable!("the library is measured");
        };
        print!("| {} | {} | {} |", row.name, row.at, short(library));
        for peer in peers {
            match peer {
                Some(peer) => print!(" {} | {} |", short(peer), short(library / peer)),
                None => print!(" - | - |"),
            }
        }
        println!();
    }
}

fn measure(wanted: &Wanted) -> io::Result<()> {
    let mut coders = coders();
    let mut rows = rows(wanted, &mut coders);
    let passes = if wanted.quick { QUICK_PASSES } else { PASSES };
    for _ in 0..passes {
        for row in &mut rows {
            row.measure(&mut coders, WINDOWS);
        }
    }
    if !rows.is_empty() {
        print_table(&rows);
    }
    let searched = search::POINTS.into_iter();
    let searched: Vec<Params> = searched.filter(|&p| wanted.point(&point_name(p))).collect();
    if wanted.call("check") && !searched.is_empty() {
        if !rows.is_empty() {
            println!();
        }
        search::measure(&searched, &mut coders, if wanted.quick { 2 } else { 10 });
    }
    if wanted.call("season") && wanted.points.is_empty() {
        season::measure(if wanted.quick { 1 } else { 3 })?;
    }
    Ok(())
}

fn main() -> ExitCode {
    let Some(wanted) = Wanted::from(std::env::args().skip(1)) else {
        eprintln!("{USAGE}");
        return ExitCode::FAILURE;
    };
    match measure(&wanted) {
        Ok(()) => ExitCode::SUCCESS,
        Err(error) => {
            eprintln!("{error}");
            ExitCode::FAILURE
        }
    }
}
