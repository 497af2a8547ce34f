//! What was to be reached, and whether it was.
use crate::each::is_of;
use crate::figures::{head, Row, Spread};
use crate::growth::PAIR_JOBS;
use crate::trials::{HEAPED, NEARLY, NO_ORDER, ORDERING, REFUSED, SIZES};

/// Boards that a target is for: how they are called, and which they are.
struct Boards(&'static str, fn(&str) -> bool);

const EVERY: Boards = Boards("every", |_| true);
/// All but the board whose jobs are nearly all on one chain, which has rows of its own: a check in one pass waits there for what it wrote
/// at the same bench for the job before.
const RISING: Boards = Boards("chains rise", |board| board != NO_ORDER && board != NEARLY && board != HEAPED);
const DISORDERED: Boards = Boards(NO_ORDER, |board| board == NO_ORDER);
const ONE_DISORDERED: Boards = Boards(NEARLY, |board| board == NEARLY);
const NOT_RISING: Boards = Boards("chains do not all rise", |board| board == NO_ORDER || board == NEARLY);
const ONE_HEAVY: Boards = Boards(HEAPED, |board| board == HEAPED);

/// The sizes that a target is for: those of SIZES from here on.
type From = usize;

const ALL: From = 0;
const LARGEST: From = 2;

/// The figure that the proved call's time is held against (see each.rs).
type Against = usize;

const PLAIN: Against = 1;
const INDEPENDENT: Against = 2;
const CHECKS: Against = 3;
const NAMES: [&str; 4] = ["", "of the plain one's time", "of the independent one's time", "form checks"];

/// As long as the other, and a tenth for noise.
const NOISY: f64 = 1.1;

/// The form checks that an arrival or a closing may take, however many jobs it moves and lists.
const CHANGE: f64 = 4.0;

/// The calls whose name begins so, on which boards, at which sizes, against what, the most their ratio may be on any of these boards.
struct Target(&'static str, Boards, From, Against, f64);

const TARGETS: [Target; 35] = [
    Target("form check", RISING, ALL, INDEPENDENT, 1.0),
    Target("load", RISING, ALL, INDEPENDENT, 1.0),
    Target("heaviest", RISING, ALL, INDEPENDENT, 1.0),
    Target("form check", DISORDERED, ALL, INDEPENDENT, 1.1),
    Target("load", DISORDERED, ALL, INDEPENDENT, 1.0),
    Target("heaviest", DISORDERED, ALL, INDEPENDENT, 1.0),
    Target("form check", ONE_DISORDERED, ALL, INDEPENDENT, 1.1),
    Target("form check", ONE_HEAVY, ALL, INDEPENDENT, 1.0),
    Target("heaviest", ONE_HEAVY, ALL, INDEPENDENT, 1.0),
    Target("heaviest", ONE_HEAVY, ALL, CHECKS, 1.05),
    Target("blanking", EVERY, LARGEST, INDEPENDENT, 1.0),
    Target("level check", RISING, ALL, INDEPENDENT, NOISY),
    Target("arrival", RISING, ALL, INDEPENDENT, NOISY),
    Target("closing", RISING, ALL, INDEPENDENT, NOISY),
    Target("level check", NOT_RISING, ALL, INDEPENDENT, NOISY),
    Target("arrival", NOT_RISING, ALL, INDEPENDENT, NOISY),
    Target("closing", NOT_RISING, ALL, INDEPENDENT, NOISY),
    Target("tight set", EVERY, LARGEST, INDEPENDENT, 1.0),
    Target("levelling", EVERY, LARGEST, INDEPENDENT, 1.5),
    Target("blanking", EVERY, LARGEST, PLAIN, 1.0),
    Target("form check", EVERY, LARGEST, PLAIN, 1.3),
    Target("level check", EVERY, LARGEST, PLAIN, 1.0),
    Target("load", EVERY, LARGEST, PLAIN, 1.0),
    Target("heaviest", EVERY, LARGEST, PLAIN, 1.0),
    Target("tight set", EVERY, LARGEST, PLAIN, 1.0),
    Target("arrival", EVERY, LARGEST, PLAIN, 1.0),
    Target("closing", EVERY, LARGEST, PLAIN, 1.0),
    Target("levelling", EVERY, LARGEST, PLAIN, 1.0),
    Target("level check", EVERY, LARGEST, CHECKS, 3.0),
    Target("tight set", EVERY, LARGEST, CHECKS, 3.0),
    Target("arrival", EVERY, LARGEST, CHECKS, CHANGE),
    Target("closing", EVERY, LARGEST, CHECKS, CHANGE),
    Target("levelling", EVERY, LARGEST, CHECKS, 4.0),
    Target("sheet", EVERY, LARGEST, CHECKS, 5.0),
    Target("between, loads 8, 8", EVERY, LARGEST, CHECKS, 0.05),
];

/// The most that the greatest time of the same questions for two benches may be of the least, on tables that differ in J.
const WHATEVER_J: f64 = 1.2;

/// The most that a long path may take of a short one's time, after the same search.
const WHATEVER_LENGTH: f64 = 2.0;

/// What is hoped for beyond the targets.
const GOALS: [Target; 3] = [
    Target("form check", RISING, LARGEST, INDEPENDENT, 0.85),
    Target("load", RISING, LARGEST, INDEPENDENT, 0.85),
    Target("heaviest", RISING, LARGEST, INDEPENDENT, 0.85),
];

impl Target {
    /// Tells whether it is for a row's call and board; none is for refused calls, nor for levelling with allowance 0.
    fn is_for(&self, row: &Row) -> bool {
        let call = &row.cells[0];
        call.starts_with(self.0) && !call.ends_with(REFUSED) && call != ORDERING && self.1 .1(&row.cells[1])
    }

    /// Finds the ratio whose median is greatest at a size, and the board.
    fn worst<'a>(&self, size: (usize, usize), rows: &'a [Row]) -> (Spread, &'a str) {
        let its = rows.iter().filter(|row| is_of(row, size) && self.is_for(row));
        let ratios = its.map(|row| (row.ratio(0, self.3), row.cells[1].as_str()));
        ratios.max_by(|a, b| a.0.median.total_cmp(&b.0.median)).unwrap()
    }

    /// Writes, for each of its sizes, whether its median there is too great, and its row of the table.
    fn judged<'a>(&'a self, goal: &'a str, rows: &'a [Row]) -> impl Iterator<Item = (bool, String)> + 'a {
        let Target(call, boards, from, against, most) = self;
        SIZES[*from..].iter().map(move |&(benches, jobs)| {
            let (worst, board) = self.worst((benches, jobs), rows);
            let (missed, end) = verdict(&worst, *most, board);
            let at_most = format!("{goal}{most:?} {}", NAMES[*against]);
            (missed, format!("| {call} | {} | {benches} | {jobs} | {at_most} | {end}", boards.0))
        })
    }
}

/// Tells whether a median is too great, and writes the end of its row: what was reached, where, and the verdict.
fn verdict(reached: &Spread, most: f64, on: &str) -> (bool, String) {
    let missed = reached.median > most;
    let verdict = if missed { "missed" } else { "met" };
    (missed, format!("{} | {on} | {verdict} |", reached.cell(|ratio| format!("{ratio:.3}"))))
}

/// Writes whether the time of the same questions for two benches differs too much with J, and its row of the table.
fn judged_pairs(same: &Row) -> (bool, String) {
    let time = |i: &usize| same.figure(*i).median;
    let slowest = (0..PAIR_JOBS.len()).max_by(|i, j| time(i).total_cmp(&time(j))).unwrap();
    let (missed, end) = verdict(&same.figure(PAIR_JOBS.len()), WHATEVER_J, &format!("J = {}", PAIR_JOBS[slowest]));
    let jobs = PAIR_JOBS.map(|jobs| jobs.to_string()).join(", ");
    (missed, format!("| between, loads 8, 8 | the same benches | 500 | {jobs} | {WHATEVER_J:?} of the least time | {end}"))
}

/// Writes whether a path's length costs too much, and its row of the table.
fn judged_length(both: &Row) -> (bool, String) {
    let [call, benches, jobs, few, many] = &both.cells[..] else { unreachable!() };
    let (missed, end) = verdict(&both.ratio(1, 0), WHATEVER_LENGTH, &format!("{many} jobs moved, not {few}"));
    (missed, format!("| {call} | the same search | {benches} | {jobs} | {WHATEVER_LENGTH:?} of a short path's time | {end}"))
}

/// Writes whether the long path takes too many form checks, and its row of the table.
fn judged_long(both: &Row) -> (bool, String) {
    let [call, benches, jobs, _, many] = &both.cells[..] else { unreachable!() };
    let (missed, end) = verdict(&both.ratio(1, 2), CHANGE, &format!("{many} jobs moved and listed"));
    (missed, format!("| {call} | long path, whole search | {benches} | {jobs} | {CHANGE:?} {} | {end}", NAMES[CHECKS]))
}

/// Prints each target and each goal at each of its sizes, the missed ones first. `same` has the times of the same questions for two
/// benches, `lengths` those of short and long paths and of the form checks beside them.
pub fn print(rows: &[Row], same: &Row, lengths: &[Row]) {
    head(
        "What was to be reached, and the board where the median was greatest; missed ones first.",
        "call | boards | B | J | at most | reached | on | verdict",
    );
    let targets = TARGETS.iter().flat_map(|target| target.judged("", rows));
    let longest = lengths.iter().filter(|row| (row.number(1), row.number(2)) == SIZES[LARGEST]);
    let paths = lengths.iter().map(judged_length).chain(longest.map(judged_long));
    let goals = GOALS.iter().flat_map(|goal| goal.judged("goal: ", rows));
    let all = targets.chain([judged_pairs(same)]).chain(paths).chain(goals);
    let (missed, met): (Vec<_>, Vec<_>) = all.partition(|(missed, _)| *missed);
    for (_, row) in [missed, met].concat() {
        println!("{row}");
    }
}
