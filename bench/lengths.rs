//! What the length of a path costs by itself: arrivals and closings whose searches find the same benches, and whose paths are short or
//! long. Both are timed in turn, and with them the form check of the table with the long path.
use crate::boards;
use crate::calls::{Call, ACCEPTED};
use crate::figures::{head, micros, print_line, rows, two_places, Row};
use crate::timing::{times, Task};
use crate::trials::{self, SIZES};
use crate::PROVED;
use std::slice::from_ref;

const TABLE: &str = "length of the path";

/// Times a call on two tables, on which it moves a few jobs and many, and the form check of the latter.
fn measure_row(call: Call, tables: [Vec<u8>; 2], counts: [usize; 2]) {
    for (t, count) in tables.iter().zip(counts) {
        trials::hold_moved(call, t, count);
    }
    let [few, many] = &tables;
    let all = [(few, call), (many, call), (many, Call::FormCheck)];
    let times = times(all.each_ref().map(|(t, call)| Task(PROVED, t, from_ref(call), ACCEPTED)));
    let (benches, jobs) = boards::sizes(many);
    let numbers = [benches, jobs, counts[0], counts[1]].map(|n| n.to_string());
    print_line(TABLE, &[&[trials::name(call).into()], &numbers[..]].concat(), &times);
}

/// Measures an arrival and a closing at each size.
pub fn measure() {
    for (benches, jobs) in SIZES {
        let counts = [2, benches - 2];
        measure_row(trials::arrival(jobs, [1, 2]), counts.map(|count| boards::searched_out(benches, jobs, count)), counts);
        let tables = [false, true].map(|led| boards::searched_back(benches, jobs, led));
        measure_row(trials::closing(benches - 1), tables, [1, benches - 2]);
    }
}

/// Gives the rows: the time of the short path, that of the long one, and that of the form check.
pub fn both(files: &[String]) -> Vec<Row> {
    rows(TABLE, files)
}

pub fn print(files: &[String]) {
    head(
        "What a path's length costs, in µs: proved calls on two boards each, whose searches find the same benches; on one a few jobs are\n\
         moved, on the other a job of every bench but two. Form checks: how many of the latter board its call takes.",
        "call | B | J | few | many | few moved | many moved | many / few | form checks",
    );
    for row in both(files) {
        let [few, many] = [0, 1].map(|i| row.figure(i).cell(micros));
        let [by_few, by_check] = [0, 2].map(|i| row.ratio(1, i).cell(two_places));
        row.print(&[few, many, by_few, by_check]);
    }
}
