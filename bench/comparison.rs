//! That implementations answer alike.
use crate::boards::{self, Random};
use crate::calls::{self, moved, Answer, Call, Perform};
use crate::independent;

const ROUNDS: usize = 200_000;

/// Picks sizes of a board to compare on: mostly small, now and then large, or with so many jobs that a bench takes several lines of the
/// sheet.
fn some_sizes(random: &mut Random) -> (usize, usize) {
    match random.below(400) {
        0 => (2 + random.below(499), 1 + random.below(600)),
        1 => (2 + random.below(499), 1 + random.below(4000)),
        2..=9 => (1, 1 + random.below(12)),
        10..=29 => (2 + random.below(3), 12 + random.below(60)),
        _ => (2 + random.below(8), 1 + random.below(14)),
    }
}

/// Gives a call as all implementations have it; None if one of them lacks it.
pub type Have = fn(Call) -> Option<Call>;

/// Counts of answers: accepted, then refused with 1 to 11; of the accepted questions for two benches those without a job, then those
/// with one; of arrivals and closings those accepted without a moved job, those accepted with some, and those refused with 8.
#[derive(Default)]
struct Counts {
    answers: [usize; 12],
    between: [usize; 2],
    changes: [usize; 3],
}

impl Counts {
    fn add(&mut self, call: Call, answer: Answer) {
        self.answers[answer.err().unwrap_or(calls::ACCEPTED) as usize] += 1;
        match (call, answer) {
            (Call::Between(..), Ok([job, ..])) => self.between[(job != 0) as usize] += 1,
            (Call::Arrival(..) | Call::Closing(..), Ok(values)) => self.changes[(moved(call, values) != Some(0)) as usize] += 1,
            (Call::Arrival(..) | Call::Closing(..), Err(8)) => self.changes[2] += 1,
            _ => {}
        }
    }
}

/// Makes calls on sound and damaged tables, four on each board, as all have them: the implementations must answer alike and leave the same
/// bytes. Counts the answers.
fn compare<const N: usize>(all: [Perform; N], have: Have) -> Counts {
    let mut random = Random(1);
    let mut counts = Counts::default();
    for _ in 0..ROUNDS / 4 {
        let (benches, jobs) = some_sizes(&mut random);
        let mut t = calls::random_table(benches, jobs, &mut random, |t| {
            independent::levelling(t, u32::MAX).unwrap();
        });
        for _ in 0..4 {
            let Some(call) = have(calls::random_call(&t, &mut random)) else {
                continue;
            };
            let mut tried = t.clone();
            let damaged = random.below(8) == 0;
            if damaged {
                boards::damage(&mut tried, &mut random);
            }
            let (after, answer) = calls::same(all, call, &tried, &mut random);
            counts.add(call, answer);
            if !damaged {
                t = after;
            }
        }
    }
    counts
}

/// Compares implementations, which are called by these names, by the calls that all of them have, and prints the outcome. No call is
/// refused with 9 or 10.
pub fn print<const N: usize>(names: &str, all: [Perform; N], have: Have) {
    let Counts { answers, between: [without, with], changes: [still, moving, short] } = compare(all, have);
    let [accepted, refused @ ..] = answers;
    let some = refused.iter().zip(1..).filter(|(count, _)| **count != 0);
    let refused: Vec<_> = some.map(|(count, number)| format!("{count} with {number}")).collect();
    println!("{names}, {} random calls: same answers, tables, lists and pages.", answers.iter().sum::<usize>());
    println!("{accepted} accepted; refused {}.", refused.join(", "));
    println!("Arrivals and closings: {moving} accepted with jobs moved, {still} without, {short} refused for too short a list.");
    if have(Call::Between(0, 0)).is_some() {
        println!("Accepted questions for two benches: {with} with a job between them, {without} without.");
    }
}
