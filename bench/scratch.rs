//! One change on a level board, beside levelling the changed board's jobs from scratch.
use crate::boards::{self, Random};
use crate::calls::{outcome, Call, ACCEPTED};
use crate::figures::{head, micros, print_line, rows};
use crate::timing::{times, Task};
use crate::trials::{self, KINDS, SIZES};
use crate::{INDEPENDENT, PROVED};

const TABLE: &str = "from scratch";

/// Changes of each kind that are timed, each with the boards that it leads to.
const CHANGES: usize = 4;
const LEVEL: Call = Call::Levelling(u32::MAX);

/// Gives the table after a call, and the call's first value.
fn after(call: Call, t: &[u8]) -> (Vec<u8>, u32) {
    let (answer, after, _) = outcome(PROVED, call, t);
    (after, answer.unwrap()[0])
}

fn sorted_loads(t: &[u8]) -> Vec<usize> {
    let mut loads = boards::loads(t);
    loads.sort();
    loads
}

/// Times, in µs, the change and proved and independent levelling from scratch; last come the paths of the latter.
fn measured(t: &[u8], change: Call) -> [f64; 4] {
    let changed = after(change, t).0;
    let scratch = trials::first_named(&changed);
    let (levelled, paths) = after(LEVEL, &scratch);
    // Both are level: the same loads, though not of the same benches.
    assert_eq!(sorted_loads(&changed), sorted_loads(&levelled), "{change:?} on {t:?} and levelling from scratch differ");
    let levelling = |perform| Task(perform, &scratch, &[LEVEL], ACCEPTED);
    let [once, proved, independent] = times([Task(PROVED, t, &[change], ACCEPTED), levelling(PROVED), levelling(INDEPENDENT)]);
    [once, proved, independent, paths as f64]
}

/// Measures changes of one kind, the mean of each figure.
fn measure_row(board: &str, t: &[u8], changes: &[Call]) {
    let mut means = [0.0; 4];
    for &change in changes {
        for (mean, number) in means.iter_mut().zip(measured(t, change)) {
            *mean += number / changes.len() as f64;
        }
    }
    let [times @ .., paths] = means;
    let mut cells = trials::cells(changes[0], ACCEPTED, board, t);
    cells.push(format!("{paths:.0}"));
    print_line(TABLE, &cells, &times);
}

/// Measures arrivals and closings on level boards of each size.
pub fn measure() {
    let random = &mut Random(17);
    for (benches, jobs) in SIZES {
        for (board, names) in KINDS {
            let t = trials::level(names, benches, jobs, random);
            measure_row(board, &t, &trials::arrivals(CHANGES, &t, names, random));
            measure_row(board, &t, &trials::closings(CHANGES, &t, random));
        }
    }
}

pub fn print(files: &[String]) {
    head(
        "From scratch, in µs: a proved change of a level board, beside levelling the jobs that then stand, each given to its\n\
         first-named bench, by proved and by independent code; writing that board is not counted. Ratios to the change. Both ways\n\
         end with the same loads.",
        "change | board | B | J | paths | change | from scratch, proved | ratio | from scratch, independent | ratio",
    );
    for row in rows(TABLE, files) {
        let [once, proved, independent] = [0, 1, 2].map(|i| micros(row.figure(i).median));
        let [by_proved, by_independent] = [1, 2].map(|i| row.ratio(i, 0).cell(|ratio| format!("{ratio:.1}")));
        row.print(&[once, proved, by_proved, independent, by_independent]);
    }
}
