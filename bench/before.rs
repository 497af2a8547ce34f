//! Holds the proved calls against those of an older archive, timed in turn: has any become slower? A program of its own, which
//! bench/run --before builds. It uses a part of what the measurements share.
//!
//! Before there were lists of moved jobs, arrival and closing took none. Of such an archive (older::LISTS is false) their answers and
//! tables are compared, not the lists; in the rows this archive's calls list the jobs, so that their time is part of the ratio.
#![allow(dead_code)]
mod boards;
#[macro_use]
mod calls;
mod comparison;
mod figures;
mod independent;
// Where it lists no moved jobs, it takes lists and does not use them.
#[allow(unused_variables)]
#[path = "../target/bench/older.rs"]
mod older;
mod proved;
mod timing;
mod trials;

use calls::{Call, Perform, INDEPENDENT, LIST};
use figures::{head, micros, print_line, rows, two_places, Row};
use timing::{times, Task};

const OLDER: Perform = |c, t, room| answer!(older, c, t, room);
const PROVED: Perform = |c, t, room| answer!(proved, c, t, room);
const TABLE: &str = "before and now";

/// The proved calls as they can be compared: where the older arrivals and closings list no jobs, these list theirs elsewhere.
const COMPARED: Perform = |c, t, room| match c {
    Call::Arrival(..) | Call::Closing(..) if !older::LISTS => PROVED(c, t, &mut [0; LIST]),
    _ => PROVED(c, t, room),
};

/// The older archive's calls: on each line a name there, and the one in older.rs.
const NAMES: &str = include_str!("../target/bench/older.names");

/// Calls that older archives may lack, and how they are called.
const LATER: [(Call, &str); 2] = [(Call::Sheet(0), "sheet"), (Call::Between(0, 0), "question for two benches")];

/// The rows that are compared where the older archive lacks none: each list of calls on each board of each size (trials.rs).
const ROWS: usize = 198;

/// Gives a call as the older archive has it. The first ones have no sheet, and later ones no question for two benches: then older.rs has
/// this one's in its place, which is neither compared nor timed. Where arrivals and closings list no jobs they refuse no list as too short,
/// so that this one's must be long enough.
fn had(call: Call) -> Option<Call> {
    match call {
        Call::Sheet(..) => NAMES.contains("jobboard_sheet ").then_some(call),
        Call::Between(..) => NAMES.contains("jobboard_between ").then_some(call),
        Call::Arrival(j, x, y, _) if !older::LISTS => Some(Call::Arrival(j, x, y, LIST)),
        Call::Closing(j, _) if !older::LISTS => Some(Call::Closing(j, LIST)),
        _ => Some(call),
    }
}

/// Times calls of one kind, before and now, if the older archive has them.
fn measure_row(board: &str, t: &[u8], calls: &[Call], number: u32) {
    if had(calls[0]).is_none() {
        return;
    }
    let both = times([OLDER, PROVED].map(|perform| Task(perform, t, calls, number)));
    print_line(TABLE, &trials::cells(calls[0], number, board, t), &both);
}

/// Prints that both answer alike, and what the older archive lacks.
fn compare() {
    comparison::print("Before and now", [OLDER, COMPARED], had);
    if !older::LISTS {
        println!("The older archive's arrivals and closings list no jobs: their lists are not compared, and none is too short.");
    }
    for (call, what) in LATER {
        if had(call).is_none() {
            println!("The older archive has no {what}: its calls and rows are left out.");
        }
    }
}

/// Prints the figures of this process, which has a number, as lines.
fn measure(process: usize) {
    timing::shift(process);
    trials::each(measure_row);
}

/// What is claimed. A row's ratio may be above 1 by so much, for noise: more than two copies of one archive differed (RESULTS.md).
const CLAIM: &str = "No call slower than before (three hundredths allowed for noise)";
const NOISE: f64 = 0.03;

/// Gives the ratio of a row, now by before.
fn ratio(row: &Row) -> f64 {
    row.ratio(1, 0).median
}

/// Tells by how much a row is slower than allowed; below 0 it is not.
fn excess(row: &Row) -> f64 {
    ratio(row) - (1.0 + NOISE)
}

/// Writes which calls a row is of, and its ratio.
fn named(row: &Row) -> String {
    let [call, board, benches, jobs] = [0, 1, 2, 3].map(|i| &row.cells[i]);
    format!("{call} on {board} ({benches} benches, {jobs} jobs) {:.3}", ratio(row))
}

/// Prints whether no call is slower than before, and the three rows whose ratio is most above what is allowed or nearest to it.
fn verdict(files: &[String]) {
    let mut rows = rows(TABLE, files);
    let lacks_some = LATER.iter().any(|(call, _)| had(*call).is_none());
    assert!(lacks_some || rows.len() == ROWS, "{} rows are compared", rows.len());
    rows.sort_by(|a, b| excess(b).total_cmp(&excess(a)));
    let slower = rows.iter().filter(|row| excess(row) > 0.0).count();
    let verdict = if slower == 0 { "met" } else { "missed" };
    let worst: Vec<_> = rows.iter().take(3).map(named).collect();
    println!("{CLAIM}: {verdict}, {slower} of {} rows slower; the worst: {}.", rows.len(), worst.join("; "));
}

fn report(files: &[String]) {
    let mut rows = rows(TABLE, files);
    rows.sort_by(|a, b| ratio(b).total_cmp(&ratio(a)));
    head(
        "Each call of the older archive and of this one, in µs, the highest ratio first.",
        "call | board | B | J | before | now | now / before",
    );
    for row in rows {
        row.print(&[row.figure(0).cell(micros), row.figure(1).cell(micros), row.ratio(1, 0).cell(two_places)]);
    }
}

fn main() {
    let arguments: Vec<_> = std::env::args().skip(1).collect();
    match arguments.first().map(String::as_str) {
        Some("compare") => compare(),
        Some("measure") => measure(arguments[1].parse().unwrap()),
        Some("verdict") => verdict(&arguments[1..]),
        Some("report") => report(&arguments[1..]),
        _ => panic!("compare, or measure and the process's number, or verdict or report and files"),
    }
}
