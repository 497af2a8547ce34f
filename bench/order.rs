//! The first change of a table in another order, which leaves every chain rising, beside the same change of the same board in order: what
//! a stored table in another order costs once.
use crate::boards;
use crate::calls::{outcome, Call};
use crate::figures::{head, micros, print_line, rows, two_places};
use crate::timing::{times, Task};
use crate::trials::{self, NO_ORDER};
use crate::PROVED;

const TABLE: &str = "first change";

/// Tells whether a call is one of those shown. Levelling to its end is not: the board is level, so that it does what allowance 0 does.
fn shown(call: Call) -> bool {
    matches!(call, Call::Arrival(..) | Call::Closing(..) | Call::Levelling(0))
}

/// Holds what a call does to a table in another order against what it does to the same board in order: the same answer, the same list and
/// the same bytes, chains rising, else the two times would not be of one change.
fn hold(call: Call, stored: &[u8], rising: &[u8]) {
    let [first, in_order] = [stored, rising].map(|t| outcome(PROVED, call, t));
    assert!(stored != rising, "the table is in order before {call:?}");
    assert!(first == in_order, "{call:?} gives another answer, table or list where chains are in no order");
    assert!(first.1 == trials::rising(&first.1), "{call:?} leaves a chain that does not rise");
}

/// Times calls of one kind on chains in no order, each the first change, and on the same board in order.
fn measure_row(board: &str, stored: &[u8], calls: &[Call], number: u32) {
    if board != NO_ORDER || !shown(calls[0]) {
        return;
    }
    let rising = trials::rising(stored);
    for &call in calls {
        hold(call, stored, &rising);
    }
    let both = times([stored, &rising].map(|t| Task(PROVED, t, calls, number)));
    let (benches, jobs) = boards::sizes(stored);
    print_line(TABLE, &[trials::name(calls[0]).into(), benches.to_string(), jobs.to_string()], &both);
}

/// Measures arrivals, closings and levelling with allowance 0 at each size.
pub fn measure() {
    trials::each(measure_row);
}

pub fn print(files: &[String]) {
    head(
        "First change of a table in another order, in µs: proved calls on chains in no order, beside the same calls on the same\n\
         board once it is in order, and the ratio of the two. Both leave the same bytes.",
        "call | B | J | first change | in order | first change / in order",
    );
    for row in rows(TABLE, files) {
        row.print(&[row.figure(0).cell(micros), row.figure(1).cell(micros), row.ratio(0, 1).cell(two_places)]);
    }
}
