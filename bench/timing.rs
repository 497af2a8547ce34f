//! Least times of calls, taken in turn.
use crate::calls::{outcome, Call, Perform, ACCEPTED};
use std::hint::black_box;
use std::time::{Duration, Instant};

/// A batch takes at least so long, there are so many of each, and together they take at most about so long.
const BATCH: Duration = Duration::from_micros(500);
const ROUNDS: usize = 100;
const WHOLE: Duration = Duration::from_millis(1000);

/// An implementation, a table, and calls, all of the same kind, each made on the table as it is here; last the number that each of them
/// is answered with: ACCEPTED or a refusal.
pub struct Task<'a>(pub Perform, pub &'a [u8], pub &'a [Call], pub u32);

/// A table, and what performs a task's calls as many times as it is told, on bytes that hold the table, and with room.
struct Run<'a>(&'a [u8], Box<dyn Fn(usize, &mut [u8], &mut [u8]) + 'a>);

/// The room that is enough for every call: that of the longest sheet, 833 lines, of 500 benches one of which holds 4,000 jobs.
pub const ROOM: usize = 69 * 833;

/// The bytes that all runs are lent, so that none is better off by where its table and its list or page lie.
struct Lent {
    table: Vec<u8>,
    room: Vec<u8>,
}

impl Run<'_> {
    /// Times a batch; writing the table before it is not counted.
    fn batch(&self, size: usize, lent: &mut Lent) -> Duration {
        let t = &mut lent.table[..self.0.len()];
        t.copy_from_slice(self.0);
        let start = Instant::now();
        self.1(size, t, &mut lent.room);
        start.elapsed()
    }

    /// Finds, by doubling, the first size whose batch is long enough.
    fn long_enough(&self, lent: &mut Lent) -> usize {
        let mut size = 1;
        while self.batch(size, lent) < BATCH {
            size *= 2;
        }
        size
    }
}

/// Times each run, in µs: batches in turn, and of each the least, so that what else the machine does counts little.
fn least(runs: &[Run]) -> Vec<f64> {
    let begin = Instant::now();
    let longest = runs.iter().map(|run| run.0.len()).max().unwrap();
    let mut lent = Lent { table: vec![0; longest], room: vec![0; ROOM] };
    let sizes: Vec<_> = runs.iter().map(|run| run.long_enough(&mut lent)).collect();
    let mut times = vec![f64::MAX; runs.len()];
    for round in 0..ROUNDS {
        for ((run, &size), time) in runs.iter().zip(&sizes).zip(&mut times) {
            *time = time.min(run.batch(size, &mut lent).as_secs_f64() * 1e6 / size as f64);
        }
        if round >= 1 && begin.elapsed() > WHOLE {
            break;
        }
    }
    times
}

impl<'a> Task<'a> {
    /// Tells whether the next call needs the table anew. Blanking writes, but does not look at what it writes over.
    fn changes(&self) -> bool {
        matches!(self.2[0], Call::Arrival(..) | Call::Closing(..) | Call::Levelling(..))
    }

    /// Makes whole rounds of the calls, so that every implementation performs each of them equally often.
    fn run(&self) -> Run<'a> {
        let (&Task(perform, table, calls, _), changes) = (self, self.changes());
        let performed = move |n, t: &mut [u8], room: &mut [u8]| {
            for _ in 0..n {
                for &call in calls {
                    if changes {
                        t.copy_from_slice(black_box(table));
                    }
                    let _ = black_box(perform(black_box(call), black_box(&mut *t), room));
                }
            }
        };
        Run(table, Box::new(performed))
    }
}

/// Makes fresh copies alone.
fn copying(table: &[u8]) -> Run<'_> {
    let performed = move |n, t: &mut [u8], _: &mut [u8]| {
        for _ in 0..n {
            t.copy_from_slice(black_box(table));
            black_box(&mut *t);
        }
    };
    Run(table, Box::new(performed))
}

/// Keeps some bytes, in each process another number of them, so that the tables that follow lie elsewhere in each, in a page and in a
/// line of 64 bytes.
pub fn shift(process: usize) {
    black_box(vec![0_u8; 1040 * process]).leak();
}

/// Times each task: µs a call, the mean over its calls. What copying a table of that length takes, timed in turn with
/// the tasks, is taken off those that change it.
pub fn times<const N: usize>(tasks: [Task; N]) -> [f64; N] {
    for Task(perform, table, calls, number) in &tasks {
        for &call in *calls {
            let (answer, ..) = outcome(*perform, call, table);
            assert_eq!(answer.err().unwrap_or(ACCEPTED), *number, "{call:?} is answered otherwise than expected");
        }
    }
    let mut copied = tasks.each_ref().map(|task| task.1).to_vec();
    copied.dedup_by_key(|table| table.len());
    let runs: Vec<_> = tasks.iter().map(Task::run).chain(copied.iter().map(|table| copying(table))).collect();
    let times = least(&runs);
    std::array::from_fn(|i| {
        let Task(_, table, calls, _) = tasks[i];
        let copy = copied.iter().position(|other| other.len() == table.len()).unwrap();
        times[i] / calls.len() as f64 - if tasks[i].changes() { times[N + copy] } else { 0.0 }
    })
}
