//! How the cost of proved calls grows with J and with the length of the path, and that of a question for two benches does not. What a
//! column compares, of these questions a row, is timed in turn.
use crate::boards::{self, Random};
use crate::calls::{Call, ACCEPTED};
use crate::figures::{head, micros, print_line, rows, two_places, Row, Spread};
use crate::timing::{times, Task};
use crate::trials::{self, PAIRS};
use crate::PROVED;
use std::array::from_fn;
use std::cmp::Reverse;
use std::slice::from_ref;

const WITH_JOBS: &str = "growth with J";
const WITH_PATH: &str = "growth with the path";
const OF_PAIRS: &str = "questions for two benches";

const JOBS: [usize; 4] = [500, 1000, 2000, 4000];
const MOVED: [usize; 6] = [0, 1, 10, 100, 250, 499];
pub const PAIR_JOBS: [usize; 3] = [60, 600, 4000];

/// What is timed at each of PAIR_JOBS.
const SAME: &str = "pairs of the same seven benches";
const ALL: &str = "pairs of all benches with 8 jobs";
const CHECK: &str = "form check";

/// Measures arrivals, closings and the form check on boards of so many benches.
fn measure_with_jobs(benches: usize, random: &mut Random) {
    let tables = JOBS.map(|jobs| trials::level(PAIRS, benches, jobs, random));
    let arrivals = tables.each_ref().map(|t| trials::arrivals(64, t, PAIRS, random));
    let closings = tables.each_ref().map(|t| trials::closings(64, t, random));
    let checks = from_fn(|_| vec![Call::FormCheck]);
    let columns = [arrivals, closings, checks].map(|calls| times(from_fn::<_, 4, _>(|i| Task(PROVED, &tables[i], &calls[i], ACCEPTED))));
    for (i, jobs) in JOBS.into_iter().enumerate() {
        print_line(WITH_JOBS, &[benches, jobs].map(|n| n.to_string()), &columns.map(|column| column[i]));
    }
}

fn print_with_jobs(files: &[String]) {
    head(
        "Growth with J: proved calls on level boards of random pairs, nearly full, in µs, and in ns by B + J.",
        "B | J | arrival | ns / (B + J) | closing | ns / (B + J) | form check | ns / (B + J)",
    );
    for row in rows(WITH_JOBS, files) {
        let words = (row.number(0) + row.number(1)) as f64;
        let cells = |time: Spread| [time.cell(micros), two_places(time.median * 1e3 / words)];
        row.print(&[0, 1, 2].map(|i| cells(row.figure(i))).concat());
    }
}

/// Times calls that move as many jobs as MOVED says.
fn moving(t: &[u8], calls: [Call; 6]) -> [f64; 6] {
    for (call, count) in calls.into_iter().zip(MOVED) {
        trials::hold_moved(call, t, count);
    }
    times(calls.each_ref().map(|call| Task(PROVED, t, from_ref(call), ACCEPTED)))
}

/// Measures arrivals and closings that move more and more jobs.
fn measure_with_path() {
    let (benches, jobs) = (500, 4000);
    let arrivals = moving(&boards::long_path(benches, jobs), MOVED.map(|count| trials::arrival_moving(count, benches, jobs)));
    let closings = moving(&boards::long_path_back(benches, jobs), MOVED.map(trials::closing_moving));
    for ((count, arrival), closing) in MOVED.into_iter().zip(arrivals).zip(closings) {
        print_line(WITH_PATH, &[count.to_string()], &[arrival, closing]);
    }
}

fn print_with_path(files: &[String]) {
    head(
        "Growth with the path: proved calls at B = 500, J = 4,000, in µs; 3,999 jobs stand before the arrival, 3,501 before the closing.",
        "jobs moved | arrival | closing",
    );
    for row in rows(WITH_PATH, files) {
        row.print(&[0, 1].map(|i| row.figure(i).cell(micros)));
    }
}

/// Gives each of the first benches so many jobs, of any numbers: as many benches as there are jobs for, but not the last ten. The other
/// bench of each job is one that holds none, so that no job stands between two that hold some; chains rise.
fn apart(benches: usize, load: usize, jobs: usize, random: &mut Random) -> Vec<u8> {
    let holding = (jobs / load).min(benches - 10);
    let mut numbers: Vec<_> = (1..=jobs).collect();
    random.shuffle(&mut numbers);
    let mut standing: Vec<boards::Job> = vec![];
    for (i, &j) in numbers[..load * holding].iter().enumerate() {
        let (x, y) = (1 + i / load, 1 + holding + random.below(benches - holding));
        let holder = 1 + random.below(2);
        standing.push((j, if holder == 1 { [x, y] } else { [y, x] }, holder));
    }
    standing.sort_by_key(|&(j, ..)| Reverse(j));
    boards::table(benches, jobs, &standing)
}

/// Holds questions against what they are timed for: two chains of 8 jobs read to their end, and no job found.
fn hold(t: &[u8], calls: &[Call]) {
    let t = &mut t.to_vec();
    for &call in calls {
        assert_eq!(PROVED(call, t, &mut []), Ok([0, 16, 0]), "{call:?}");
    }
}

/// Times calls on a table each, and gives last how many times the least the greatest time is.
fn compared(tables: &[Vec<u8>; 3], calls: [&[Call]; 3]) -> [f64; 4] {
    let [a, b, c] = times(from_fn::<_, 3, _>(|i| Task(PROVED, &tables[i], calls[i], ACCEPTED)));
    [a, b, c, a.max(b).max(c) / a.min(b).min(c)]
}

/// Measures questions for two benches of load 8 without a job between them, and the form check, on tables that differ in J. Those for the
/// same seven benches are the same questions on each; they read 56 records, wherever these lie.
fn measure_pairs(random: &mut Random) {
    let tables = PAIR_JOBS.map(|jobs| apart(500, 8, jobs, random));
    let pairs = tables.each_ref().map(|t| trials::heaviest_pairs(t, false));
    let all = pairs.each_ref().map(|pairs| trials::asked(pairs, random));
    for (i, t) in tables.iter().enumerate() {
        hold(t, &all[0]);
        hold(t, &all[i]);
    }
    let rows = [(SAME, [&all[0][..]; 3]), (ALL, all.each_ref().map(|calls| &calls[..])), (CHECK, [&[Call::FormCheck][..]; 3])];
    for (name, calls) in rows {
        print_line(OF_PAIRS, &[name.into()], &compared(&tables, calls));
    }
}

/// Gives the row of the same benches: its times, and their greatest by their least.
pub fn same_benches(files: &[String]) -> Row {
    rows(OF_PAIRS, files).into_iter().find(|row| row.cells[0] == SAME).unwrap()
}

fn print_pairs(files: &[String]) {
    head(
        "Questions for two benches, whatever J is, in µs: proved calls at B = 500, both benches with 8 jobs and none between them,\n\
         so that 16 records are read; the table stays in the caches from one question to the next. The same seven benches are asked\n\
         for at each J. All benches with 8 jobs are 7, 75 and 490; the records of the last take 31,360 bytes, as much as the nearest\n\
         cache of many processors holds. Beside them the form check of the same tables.",
        "asked | J = 60 | J = 600 | J = 4,000 | greatest / least",
    );
    for row in rows(OF_PAIRS, files) {
        let [a, b, c] = [0, 1, 2].map(|i| row.figure(i).cell(micros));
        row.print(&[a, b, c, row.figure(3).cell(two_places)]);
    }
}

pub fn measure() {
    let random = &mut Random(19);
    for benches in [100, 500] {
        measure_with_jobs(benches, random);
    }
    measure_with_path();
    measure_pairs(random);
}

pub fn print(files: &[String]) {
    print_with_jobs(files);
    print_with_path(files);
    print_pairs(files);
}
