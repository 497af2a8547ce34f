//! Each call on each board, timed with all implementations.
use crate::calls::{moved, outcome, Call};
use crate::figures::{head, micros, print_line, rows, two_places, Row};
use crate::timing::{times, Task};
use crate::trials::{self, SIZES};
use crate::{growth, lengths, targets, INDEPENDENT, PLAIN, PROVED};

const TABLE: &str = "each call";

/// Gives the jobs that a call moved, the paths that it turned or the records that it read, by its values. None for calls without such a
/// number.
fn moved_or_read(call: Call, values: [u32; 3]) -> Option<u32> {
    match call {
        Call::Between(..) => Some(values[1]),
        _ => moved(call, values),
    }
}

/// Gives the mean number of jobs moved, of paths turned or of records read, of calls of one kind. None for calls that have no such number,
/// and for refused ones.
fn mean(t: &[u8], calls: &[Call]) -> Option<f64> {
    let each = calls.iter().map(|&call| moved_or_read(call, outcome(PROVED, call, t).0.ok()?));
    Some(each.sum::<Option<u32>>()? as f64 / calls.len() as f64)
}

/// Counts the form checks that calls of one kind are held against: levelling makes a search for each path, so that it is held against
/// as many.
fn checks(calls: &[Call], moved: Option<f64>) -> f64 {
    if matches!(calls[0], Call::Levelling(..)) {
        moved.unwrap_or(0.0).max(1.0)
    } else {
        1.0
    }
}

/// Times calls of one kind with each implementation, and the proved form check beside them.
fn measure_row(board: &str, t: &[u8], calls: &[Call], number: u32) {
    let task = |perform, calls| Task(perform, t, calls, number);
    let all = [task(PROVED, calls), task(PLAIN, calls), task(INDEPENDENT, calls), task(PROVED, &[Call::FormCheck])];
    let [proved, plain, independent, check] = times(all);
    let moved = mean(t, calls);
    let mut cells = trials::cells(calls[0], number, board, t);
    cells.push(moved.map_or("".into(), |mean| ((10.0 * mean).round() / 10.0).to_string()));
    print_line(TABLE, &cells, &[proved, plain, independent, check * checks(calls, moved)]);
}

/// Measures each call on each board at each size.
pub fn measure() {
    trials::each(measure_row);
}

/// The figure of the form checks: one of the same board, for levelling one for each path.
const CHECKS: usize = 3;

/// The figures that the proved call's time is held against: the plain one's time, the independent one's, form checks.
const RATIOS: [usize; 3] = [1, 2, CHECKS];

fn print_times(rows: &[Row]) {
    head(
        "Each call, in µs. Moved: the jobs that change holder, the mean of the calls, or the paths that levelling turns. Read: the\n\
         records of a question for two benches, the mean of the questions.",
        "call | board | B | J | moved or read | proved | plain | independent",
    );
    for row in rows {
        row.print(&[0, 1, 2].map(|i| row.figure(i).cell(micros)));
    }
}

fn print_ratios(rows: &[Row]) {
    head(
        "Each call's ratios. Form checks: how many proved ones of the same board the proved call takes, levelling for each path.",
        "call | board | B | J | moved or read | proved / plain | proved / independent | form checks",
    );
    for row in rows {
        row.print(&RATIOS.map(|i| row.ratio(0, i).cell(two_places)));
    }
}

/// Tells whether a row is of a board of this size.
pub fn is_of(row: &Row, size: (usize, usize)) -> bool {
    (row.number(2), row.number(3)) == size
}

/// Writes the range of some numbers, from the lowest to the highest.
fn range(numbers: impl Iterator<Item = f64>) -> String {
    let (low, high) = numbers.fold((f64::MAX, 0.0), |(low, high): (f64, f64), n| (low.min(n), high.max(n)));
    format!("{low:.2} to {high:.2}")
}

/// Prints each call's ratios over all boards of the largest size.
fn print_ranges(rows: &[Row]) {
    head(
        "The ratios of each call over the boards of 500 benches and 4,000 jobs, lowest median to highest.",
        "call | boards | proved / plain | proved / independent | form checks",
    );
    let largest: Vec<_> = rows.iter().filter(|row| is_of(row, SIZES[2])).collect();
    let mut names: Vec<_> = largest.iter().map(|row| &row.cells[0]).collect();
    names.sort();
    names.dedup();
    for call in names {
        let its: Vec<_> = largest.iter().filter(|row| row.cells[0] == *call).collect();
        let ranges = RATIOS.map(|i| range(its.iter().map(|row| row.ratio(0, i).median)));
        println!("| {call} | {} | {} |", its.len(), ranges.join(" | "));
    }
}

/// Prints what share of a heaviest-load call the form check is, on each board that has such calls: large rooms make them all day.
fn print_shares(rows: &[Row]) {
    head(
        "The share of the form check in a heaviest-load call: the proved call and the form check of the same board, timed in turn,\n\
         in µs, and the second in per cent of the first.",
        "board | B | J | heaviest | form check | share in %",
    );
    for row in rows.iter().filter(|row| row.cells[0] == trials::name(Call::Heaviest)) {
        let [call, check] = [0, CHECKS].map(|i| row.figure(i).cell(micros));
        let share = row.ratio(CHECKS, 0).cell(|share| format!("{:.1}", 100.0 * share));
        println!("| {} | {call} | {check} | {share} |", row.cells[1..4].join(" | "));
    }
}

pub fn print(files: &[String]) {
    let rows = rows(TABLE, files);
    targets::print(&rows, &growth::same_benches(files), &lengths::both(files));
    print_times(&rows);
    print_ratios(&rows);
    print_ranges(&rows);
    print_shares(&rows);
}
