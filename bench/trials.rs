//! The boards that are timed, and the calls on each.
use crate::boards::{self, Job, Random};
use crate::calls::{kind, moved, outcome, Call, ACCEPTED, LIST, NAMES};
use crate::timing::ROOM;
use crate::{independent, INDEPENDENT, PROVED};
use std::collections::HashSet;

/// The sizes that are timed, B and J.
pub const SIZES: [(usize, usize); 3] = [(10, 60), (100, 1000), (500, 4000)];

/// The boards whose chains do not all rise: a check in one pass gives up at once on the first, and near its end on the second.
pub const NO_ORDER: &str = "chains in no order";
pub const NEARLY: &str = "one chain out of order";

/// The board whose heaviest load is known when one bench is counted.
pub const HEAPED: &str = "nearly all jobs on bench 1";

/// The name of levelling with allowance 0, which moves no job and leaves every chain rising.
pub const ORDERING: &str = "levelling, allowance 0";

/// What stands after the name of a call that is refused.
pub const REFUSED: &str = ", refused";

/// The benches that a job names, by its number and B.
pub type Names = fn(usize, usize, &mut Random) -> [usize; 2];

pub const PAIRS: Names = |_, benches, random| boards::two_benches(benches, random);

/// Either neighbour first, so that a ring whose jobs are all with their first-named bench is not level.
const RING: Names = |j, benches, random| {
    let [x, y] = boards::neighbours(j, benches);
    [[x, y], [y, x]][random.below(2)]
};

pub const KINDS: [(&str, Names); 2] = [("random pairs", PAIRS), ("ring", RING)];

pub fn arrival(j: usize, [first, second]: [usize; 2]) -> Call {
    Call::Arrival(j as u32, first as u32, second as u32, LIST)
}

pub fn closing(j: usize) -> Call {
    Call::Closing(j as u32, LIST)
}

/// Makes a nearly full board, level, as arrivals in random order leave it: one job number in a hundred is free, and
/// at least one.
pub fn level(names: Names, benches: usize, jobs: usize, random: &mut Random) -> Vec<u8> {
    let mut numbers: Vec<_> = (1..=jobs).collect();
    random.shuffle(&mut numbers);
    let mut t = boards::blank(benches, jobs);
    for &j in &numbers[(jobs / 100).max(1)..] {
        INDEPENDENT(arrival(j, names(j, benches, random)), &mut t, &mut [0; LIST]).unwrap();
    }
    t
}

/// Lists the standing jobs of a sound table, falling.
pub fn standing(t: &[u8]) -> Vec<Job> {
    let (benches, jobs) = boards::sizes(t);
    let job = |j| {
        let [first, second, holder] = [0, 1, 2].map(|k| boards::get(t, benches + 4 * j + k));
        (j, [first, second], holder)
    };
    (1..=jobs).rev().filter(|&j| boards::stands(t, benches, j)).map(job).collect()
}

/// Gives each job to its first-named bench: what a solver that starts from scratch is given.
pub fn first_named(t: &[u8]) -> Vec<u8> {
    let (benches, jobs) = boards::sizes(t);
    let given: Vec<_> = standing(t).into_iter().map(|(j, names, _)| (j, names, 1)).collect();
    boards::table(benches, jobs, &given)
}

/// Makes the same board, its chains rising.
pub fn rising(t: &[u8]) -> Vec<u8> {
    let (benches, jobs) = boards::sizes(t);
    boards::table(benches, jobs, &standing(t))
}

/// Makes the same board, its chains in no order.
fn disordered(t: &[u8], random: &mut Random) -> Vec<u8> {
    let (benches, jobs) = boards::sizes(t);
    let mut standing = standing(t);
    random.shuffle(&mut standing);
    boards::table(benches, jobs, &standing)
}

/// Makes the same board, all chains rising but one, whose last two jobs are exchanged. Of the benches with two jobs or more it is the one
/// whose last job but one is highest.
fn nearly_rising(t: &[u8]) -> Vec<u8> {
    let (benches, jobs) = boards::sizes(t);
    let mut standing = standing(t);
    let holders: Vec<_> = standing.iter().map(|(_, names, holder)| names[holder - 1]).collect();
    let last_two = |i: usize| Some((holders[..i].iter().position(|x| *x == holders[i])?, i));
    let (last, before) = (1..standing.len()).find_map(last_two).unwrap();
    standing.swap(last, before);
    boards::table(benches, jobs, &standing)
}

/// Makes arrivals under free numbers, of jobs like the board's own.
pub fn arrivals(count: usize, t: &[u8], names: Names, random: &mut Random) -> Vec<Call> {
    let (benches, jobs) = boards::sizes(t);
    let free = (1..=jobs).filter(|&j| !boards::stands(t, benches, j)).cycle();
    free.take(count).map(|j| arrival(j, names(1 + random.below(jobs), benches, random))).collect()
}

/// Makes closings of jobs that stand.
pub fn closings(count: usize, t: &[u8], random: &mut Random) -> Vec<Call> {
    let standing = standing(t);
    (0..count).map(|_| closing(standing[random.below(standing.len())].0)).collect()
}

/// Makes the arrival that moves so many jobs on `boards::long_path`. It names no lighter bench than the one that is
/// so far from the last.
pub fn arrival_moving(count: usize, benches: usize, jobs: usize) -> Call {
    let first = benches - count;
    arrival(jobs, [first, if first == 1 { 2 } else { first - 1 }])
}

/// Makes the closing that moves so many jobs on `boards::long_path_back`.
pub fn closing_moving(count: usize) -> Call {
    closing(count + 1)
}

/// Holds a proved call against the independent one, which must come to the same answer, table and list, and against the number of jobs that
/// it is to move.
pub fn hold_moved(call: Call, t: &[u8], count: usize) {
    let proved = outcome(PROVED, call, t);
    assert!(proved == outcome(INDEPENDENT, call, t), "{call:?} gives another answer, table or list than the independent one");
    assert_eq!(moved(call, proved.0.unwrap()), Some(count as u32), "{call:?}");
}

fn tightest(t: &[u8]) -> Call {
    let [heaviest] = independent::heaviest(t).unwrap();
    Call::TightSet(heaviest, LIST)
}

/// Asks for the load of the last bench.
fn last_load(t: &[u8]) -> Call {
    Call::Load(boards::sizes(t).0 as u32)
}

fn questions(t: &[u8]) -> Vec<Vec<Call>> {
    let questions = [Call::FormCheck, Call::LevelCheck, last_load(t), Call::Heaviest, tightest(t), Call::TightSet(1, LIST)];
    questions.map(|question| vec![question]).into()
}

/// Lists arrivals, closings, and levelling to its end.
fn changes(t: &[u8], names: Names, random: &mut Random) -> Vec<Vec<Call>> {
    vec![arrivals(16, t, names, random), closings(16, t, random), vec![Call::Levelling(u32::MAX)]]
}

/// Two benches that a question is for.
pub type Pair = [usize; 2];

/// Lists the pairs of benches of the greatest load, in either order: those with a job between them, or those without.
pub fn heaviest_pairs(t: &[u8], joined: bool) -> Vec<Pair> {
    let loads = boards::loads(t);
    let most = loads.iter().max().unwrap();
    let heaviest: Vec<_> = (1..).zip(&loads).filter(|(_, load)| *load == most).map(|(x, _)| x).collect();
    let named: HashSet<Pair> = standing(t).into_iter().flat_map(|(_, [x, y], _)| [[x, y], [y, x]]).collect();
    let pairs = heaviest.iter().flat_map(|&x| heaviest.iter().map(move |&y| [x, y]));
    pairs.filter(|pair| pair[0] != pair[1] && named.contains(pair) == joined).collect()
}

/// The questions in a list: so many that the processor does not know their branches by heart. The plain code, which branches by the holder,
/// took half as long for each of 2,048 as for each of 8,192, at 500 benches and 4,000 jobs; more made no difference.
const QUESTIONS: usize = 16_384;

/// Asks for pairs drawn from these.
pub fn asked(pairs: &[Pair], random: &mut Random) -> Vec<Call> {
    let mut draw = || pairs[random.below(pairs.len())].map(|x| x as u32);
    (0..QUESTIONS).map(|_| draw()).map(|[first, second]| Call::Between(first, second)).collect()
}

/// A board to time calls on: its name, its table, lists of calls, each of one kind, and the number that the table's form check and these
/// calls are answered with.
struct Trial(String, Vec<u8>, Vec<Vec<Call>>, u32);

/// Makes the trial of a sound table with jobs, whose calls are accepted; last comes the sheet, on a page long enough for every one.
fn sound(board: impl Into<String>, t: Vec<u8>, lists: Vec<Vec<Call>>) -> Trial {
    Trial(board.into(), t, [lists, vec![vec![Call::Sheet(ROOM)]]].concat(), ACCEPTED)
}

/// Adds levelling with allowance 0 to the calls of a sound table, before the sheet.
fn with_ordering(Trial(board, t, mut lists, number): Trial) -> Trial {
    lists.insert(lists.len() - 1, vec![Call::Levelling(0)]);
    Trial(board, t, lists, number)
}

/// Adds questions for two benches of the greatest load to the calls of a sound table with rising chains, before the sheet: without a job
/// between them, so that both chains are read to their end, and with one.
fn with_pairs(Trial(board, t, mut lists, number): Trial) -> Trial {
    let random = &mut Random(23);
    let last = lists.len() - 1;
    lists.splice(last..last, [false, true].map(|joined| asked(&heaviest_pairs(&t, joined), random)));
    Trial(board, t, lists, number)
}

/// Makes the trial of the form check of a board whose word 2, the number of the standing jobs, is one too high: known only when
/// all records are counted.
fn miscounted(Trial(_, t, ..): &Trial) -> Trial {
    let mut t = t.clone();
    let standing = boards::get(&t, 2);
    boards::put(&mut t, 2, standing + 1);
    Trial("random pairs, level, word 2 one too high".into(), t, vec![vec![Call::FormCheck]], 2)
}

/// Makes nearly full boards with the same jobs, level and not.
fn nearly_full((kind, names): (&str, Names), benches: usize, jobs: usize, random: &mut Random) -> [Trial; 2] {
    let level = level(names, benches, jobs, random);
    let changes = changes(&level, names, random);
    let unlevel = first_named(&level);
    let all = [questions(&level), changes.clone()].concat();
    let some = [vec![vec![Call::LevelCheck], vec![tightest(&unlevel)]], changes].concat();
    [sound(format!("{kind}, level"), level, all), sound(format!("{kind}, not level"), unlevel, some)]
}

/// Makes boards whose chains do not all rise, of the same jobs: in no order, for all calls, and all but one rising, for those that the
/// form check takes most of.
fn out_of_order(benches: usize, jobs: usize, random: &mut Random) -> [Trial; 2] {
    let level = level(PAIRS, benches, jobs, random);
    let disordered = disordered(&level, random);
    let all = [questions(&disordered), changes(&disordered, PAIRS, random)].concat();
    let nearly = nearly_rising(&level);
    let [check, load, heaviest] = [Call::FormCheck, last_load(&nearly), Call::Heaviest].map(|question| vec![question]);
    let some = vec![check, load, heaviest, arrivals(16, &nearly, PAIRS, random), closings(16, &nearly, random)];
    [sound(NO_ORDER, disordered, all), sound(NEARLY, nearly, some)]
}

/// Makes boards for a few calls: a path through all benches, one bench with all jobs.
fn special(benches: usize, jobs: usize) -> [Trial; 3] {
    let path = boards::long_path(benches, jobs);
    let along = vec![vec![Call::LevelCheck], vec![tightest(&path)], vec![arrival_moving(benches - 1, benches, jobs)]];
    let back = boards::long_path_back(benches, jobs);
    let heap = boards::heap(benches, jobs, jobs);
    [
        sound("long path", path, along),
        sound("long path back", back, vec![vec![closing_moving(benches - 1)]]),
        sound("all jobs on bench 1", heap, vec![vec![Call::Levelling(u32::MAX)]]),
    ]
}

/// Makes the trial of the heaviest load and of the form check on the board where one bench, which stands first, holds nearly all jobs.
fn heaped(benches: usize, jobs: usize) -> Trial {
    let calls = [Call::FormCheck, Call::Heaviest].map(|question| vec![question]);
    Trial(HEAPED.into(), boards::nearly_heap(benches, jobs), calls.into(), ACCEPTED)
}

/// Makes all boards of a size.
fn trials(benches: usize, jobs: usize) -> Vec<Trial> {
    let random = &mut Random(11);
    let blanking = Call::Blank(benches as u32, jobs as u32);
    let any = Trial("any".into(), boards::blank(benches, jobs), vec![vec![blanking]], ACCEPTED);
    let [pairs, ring] = KINDS.map(|kind| nearly_full(kind, benches, jobs, random));
    let mut trials = vec![any, miscounted(&pairs[0])];
    let [level, unlevel] = pairs.map(with_ordering);
    trials.extend([with_pairs(level), unlevel]);
    trials.extend(ring);
    trials.extend(out_of_order(benches, jobs, random).map(with_ordering));
    trials.extend(special(benches, jobs));
    trials.push(heaped(benches, jobs));
    trials
}

/// Hands over each list of calls at each size, with its board's name and table before it, and after it the number that the calls are
/// answered with.
pub fn each(measure: fn(&str, &[u8], &[Call], u32)) {
    for (benches, jobs) in SIZES {
        for Trial(board, t, lists, number) in trials(benches, jobs) {
            for calls in lists {
                measure(&board, &t, &calls, number);
            }
        }
    }
}

/// Gives the name of a call in the tables.
pub fn name(call: Call) -> &'static str {
    match call {
        Call::Levelling(0) => ORDERING,
        Call::TightSet(1, _) => "tight set, height 1",
        Call::TightSet(..) => "tight set, heaviest",
        _ => NAMES[kind(call)],
    }
}

/// Writes the loads of the two benches that a question is for, and whether a job is between them; nothing for other calls.
fn pair(call: Call, t: &[u8]) -> String {
    let Call::Between(first, second) = call else {
        return "".into();
    };
    let [x, y] = [first, second].map(|bench| boards::loads(t)[bench as usize - 1]);
    let [job, ..] = outcome(INDEPENDENT, call, t).0.unwrap();
    format!(", loads {x}, {y}, {}", if job == 0 { "no job" } else { "a job" })
}

/// Gives the cells that tell what was timed: the call, the pair that it is for and whether it is refused, the board, B and J.
pub fn cells(call: Call, number: u32, board: &str, t: &[u8]) -> Vec<String> {
    let (benches, jobs) = boards::sizes(t);
    let refused = if number == ACCEPTED { "" } else { REFUSED };
    vec![[name(call), &pair(call, t), refused].concat(), board.into(), benches.to_string(), jobs.to_string()]
}
