//! The proved calls beside two other implementations: a plain one, which works as a straightforward program does, and an independent one,
//! written from document 01 alone, its sheet, its question for two benches, its lists of moved jobs and the end of its heaviest load's
//! count from 02. First that all answer alike, then how long they take, in several processes. See bench/run.
mod boards;
#[macro_use]
mod calls;
mod comparison;
mod each;
mod figures;
mod growth;
mod independent;
mod lengths;
mod order;
mod plain;
mod proved;
mod scratch;
mod targets;
mod timing;
mod trials;

use calls::{Perform, INDEPENDENT};

const PROVED: Perform = |c, t, room| answer!(proved, c, t, room);
const PLAIN: Perform = |c, t, room| answer!(plain, c, t, room);

/// Prints the figures of this process, which has a number, as lines.
fn measure(process: usize) {
    timing::shift(process);
    each::measure();
    order::measure();
    scratch::measure();
    growth::measure();
    lengths::measure();
}

/// Prints the tables of the processes whose lines are in these files.
fn report(files: &[String]) {
    each::print(files);
    order::print(files);
    scratch::print(files);
    growth::print(files);
    lengths::print(files);
}

fn main() {
    let arguments: Vec<_> = std::env::args().skip(1).collect();
    match arguments.first().map(String::as_str) {
        Some("compare") => comparison::print("Proved, plain and independent", [PROVED, PLAIN, INDEPENDENT], Some),
        Some("measure") => measure(arguments[1].parse().unwrap()),
        Some("report") => report(&arguments[1..]),
        _ => panic!("compare, or measure and the process's number, or report and files"),
    }
}
