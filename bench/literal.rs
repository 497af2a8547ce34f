//! Holds the independent implementation against the documents read word for word: all paths are listed, and the rule's key chooses among
//! them. A program of its own, for small boards, which bench/run builds; it takes a number of rounds and a seed. It uses a part of what the
//! measurements share.
#![allow(dead_code)]
mod boards;
#[macro_use]
mod calls;
mod independent;
#[path = "literal_rules.rs"]
mod rules;

use boards::Random;
use calls::{kind, moved, Answer, Call, Perform, INDEPENDENT, NAMES};

/// Picks sizes of a board to compare on, now and then with so many jobs that a bench takes several lines of the sheet.
fn some_sizes(random: &mut Random) -> (usize, usize) {
    match random.below(30) {
        0 => (1, 1 + random.below(10)),
        1 => (2, 12 + random.below(40)),
        _ => (2 + random.below(5), 1 + random.below(10)),
    }
}

/// Tells whether a call hands jobs along, or finds one between two benches.
fn moves_or_finds(call: Call, answer: Answer) -> bool {
    answer.is_ok_and(|values| match call {
        Call::Between(..) => values[0] != 0,
        _ => moved(call, values).unwrap_or(0) != 0,
    })
}

/// Counts, for each call, those refused with 8, those refused otherwise, those accepted, and of these those that hand jobs along or find
/// one. Answers and bytes must be alike.
fn compare(rounds: usize, seed: u64) -> [[usize; 4]; NAMES.len()] {
    let mut random = Random(seed);
    let mut counts = [[0; 4]; NAMES.len()];
    let both: [Perform; 2] = [INDEPENDENT, |c, t, room| answer!(rules, c, t, room)];
    for _ in 0..rounds {
        let (benches, jobs) = some_sizes(&mut random);
        let mut t = calls::random_table(benches, jobs, &mut random, |t| {
            independent::levelling(t, u32::MAX).unwrap();
        });
        for _ in 0..4 {
            let call = calls::random_call(&t, &mut random);
            let mut damaged = t.clone();
            if random.below(10) == 0 {
                boards::damage(&mut damaged, &mut random);
            }
            let (after, answer) = calls::same(both, call, &damaged, &mut random);
            let count = &mut counts[kind(call)];
            match answer {
                Err(8) => count[0] += 1,
                Err(_) => count[1] += 1,
                Ok(_) => count[2] += 1,
            }
            count[3] += moves_or_finds(call, answer) as usize;
            if damaged == t {
                t = after;
            }
        }
    }
    counts
}

fn main() {
    let mut given = std::env::args().skip(1).map(|n| n.parse().unwrap());
    let (rounds, seed) = (given.next().unwrap_or(100_000), given.next().unwrap_or(3));
    println!("| call | list too short | refused otherwise | accepted | with jobs moved or found |");
    println!("|---|---|---|---|---|");
    for (name, counts) in NAMES.iter().zip(compare(rounds as usize, seed)) {
        println!("| {name} | {} |", counts.map(|count| count.to_string()).join(" | "));
    }
}
