//! Random calls, and a call's answer by an implementation: a module with one function for each call. Beside its table a call is lent
//! room: bytes for the list of an arrival, a closing or a tight set, or for the page of a sheet.
use crate::boards::{self, Random};
use crate::independent;

/// The length of a list that is long enough for the moves of every path and for every tight set: words for 500 benches.
pub const LIST: usize = 1000;

/// A call with its numbers; an arrival, a closing and a tight set also with the length of their list, a sheet with that of its page.
#[derive(Clone, Copy, Debug)]
pub enum Call {
    Blank(u32, u32),
    FormCheck,
    Arrival(u32, u32, u32, usize),
    Closing(u32, usize),
    Levelling(u32),
    LevelCheck,
    Load(u32),
    Heaviest,
    TightSet(u32, usize),
    Sheet(usize),
    Between(u32, u32),
}

pub const NAMES: [&str; 11] =
    ["blanking", "form check", "arrival", "closing", "levelling", "level check", "load", "heaviest", "tight set", "sheet", "between"];

/// Gives a call's place in NAMES.
pub fn kind(call: Call) -> usize {
    match call {
        Call::Blank(..) => 0,
        Call::FormCheck => 1,
        Call::Arrival(..) => 2,
        Call::Closing(..) => 3,
        Call::Levelling(..) => 4,
        Call::LevelCheck => 5,
        Call::Load(..) => 6,
        Call::Heaviest => 7,
        Call::TightSet(..) => 8,
        Call::Sheet(..) => 9,
        Call::Between(..) => 10,
    }
}

/// Gives the length of the list or the page that a call is lent.
fn room(call: Call) -> usize {
    match call {
        Call::Arrival(.., list) | Call::Closing(_, list) | Call::TightSet(_, list) => list,
        Call::Sheet(page) => page,
        _ => 0,
    }
}

/// Gives how many bytes an accepted call writes to its list or its page, by its values.
fn written(call: Call, values: [u32; 3]) -> usize {
    match call {
        Call::Arrival(..) | Call::Closing(..) => 2 * moved(call, values).unwrap_or(0) as usize,
        Call::TightSet(..) => 2 * values[0] as usize,
        Call::Sheet(..) => values[0] as usize,
        _ => 0,
    }
}

/// Gives the jobs that an arrival or a closing moved, or the paths that levelling turned, by the call's values. None
/// for other calls.
pub fn moved(call: Call, values: [u32; 3]) -> Option<u32> {
    match call {
        Call::Arrival(..) => Some(values[2]),
        Call::Closing(..) => Some(values[1]),
        Call::Levelling(..) => Some(values[0]),
        _ => None,
    }
}

/// The values of a call, zeros after them, or its refusal.
pub type Answer = Result<[u32; 3], u32>;

/// The number of an accepted call's answer; a refused one's is that of its refusal.
pub const ACCEPTED: u32 = 0;

/// Puts zeros after the values of a call.
pub fn padded<const N: usize>(values: [u32; N]) -> [u32; 3] {
    let mut three = [0; 3];
    three[..N].copy_from_slice(&values);
    three
}

/// Gives the answer of a call that has no values.
pub fn bare(number: u32) -> Answer {
    if number == ACCEPTED {
        Ok([0; 3])
    } else {
        Err(number)
    }
}

/// Gives the answer of a module's function for a call, on a table and as much of the room as the call is lent.
#[macro_export]
macro_rules! answer {
    ($module:ident, $call:expr, $table:expr, $room:expr) => {
        match $call {
            $crate::calls::Call::Blank(b, j) => $crate::calls::bare($module::blank($table, b, j)),
            $crate::calls::Call::FormCheck => $crate::calls::bare($module::form_check($table)),
            $crate::calls::Call::Arrival(j, x, y, len) => $module::arrival($table, j, x, y, &mut $room[..len]).map($crate::calls::padded),
            $crate::calls::Call::Closing(j, len) => $module::closing($table, j, &mut $room[..len]).map($crate::calls::padded),
            $crate::calls::Call::Levelling(n) => $module::levelling($table, n).map($crate::calls::padded),
            $crate::calls::Call::LevelCheck => $module::level_check($table).map($crate::calls::padded),
            $crate::calls::Call::Load(x) => $module::load($table, x).map($crate::calls::padded),
            $crate::calls::Call::Heaviest => $module::heaviest($table).map($crate::calls::padded),
            $crate::calls::Call::TightSet(h, len) => $module::tight_set($table, h, &mut $room[..len]).map($crate::calls::padded),
            $crate::calls::Call::Sheet(len) => $module::sheet($table, &mut $room[..len]).map($crate::calls::padded),
            $crate::calls::Call::Between(x, y) => $module::between($table, x, y).map($crate::calls::padded),
        }
    };
}

/// An implementation: the answer to a call on a table and with this room.
pub type Perform = fn(Call, &mut [u8], &mut [u8]) -> Answer;

/// The independent implementation, which also makes the boards and tells how many jobs a call moves.
pub const INDEPENDENT: Perform = |c, t, room| answer!(independent, c, t, room);

/// What a call comes to: its answer, and the bytes that it leaves in the table and in the room.
pub type Outcome = (Answer, Vec<u8>, Vec<u8>);

/// Performs a call on a copy of a table, with a copy of this room.
fn outcome_in(room: &[u8], perform: Perform, call: Call, t: &[u8]) -> Outcome {
    let (mut after, mut room) = (t.to_vec(), room.to_vec());
    let answer = perform(call, &mut after, &mut room);
    (answer, after, room)
}

/// Performs a call on a copy of a table, with zeros for its list or its page.
pub fn outcome(perform: Perform, call: Call, t: &[u8]) -> Outcome {
    outcome_in(&vec![0; room(call)], perform, call, t)
}

/// Bytes behind a list or a page, which no call is lent.
const BEHIND: usize = 8;

/// Performs a call with all implementations, which must answer alike and leave the same bytes in the table and in
/// the list or the page. Bytes behind what they write there stay, and all if they refuse. Gives the table that they
/// leave and their answer.
pub fn same<const N: usize>(all: [Perform; N], call: Call, t: &[u8], random: &mut Random) -> (Vec<u8>, Answer) {
    let room: Vec<u8> = (0..room(call) + BEHIND).map(|_| random.below(256) as u8).collect();
    let outcomes = all.map(|perform| outcome_in(&room, perform, call, t));
    assert!(outcomes.iter().all(|o| *o == outcomes[0]), "the implementations differ: {call:?} on {t:?} gives {outcomes:?}");
    let (answer, after, after_room) = outcomes.into_iter().next().unwrap();
    let end = answer.map_or(0, |values| written(call, values));
    assert!(after_room[end..] == room[end..], "{call:?} on {t:?} changes bytes behind its list or page");
    assert!(answer.is_ok() || after == t, "{call:?} on {t:?} is refused and changes bytes");
    (after, answer)
}

/// Picks a number: mostly 1 to `most`, else just outside, far outside, or outside by a multiple of a word.
fn number(most: usize, random: &mut Random) -> u32 {
    let within = 1 + random.below(most) as u32;
    match random.below(40) {
        0 => 0,
        1 => most as u32 + 1,
        2 => u32::MAX,
        3 => within + 65_536 * (1 + random.below(3) as u32),
        4 => random.below(1 << 32) as u32,
        _ => within,
    }
}

/// Picks a job number, mostly one that stands or, for arrivals, does not.
fn job(t: &[u8], standing: bool, random: &mut Random) -> u32 {
    let (benches, jobs) = boards::sizes(t);
    let start = random.below(jobs);
    let fitting = (0..jobs).map(|i| 1 + (start + i) % jobs).find(|&j| boards::stands(t, benches, j) == standing);
    match fitting {
        Some(j) if random.below(8) != 0 => j as u32,
        _ => number(jobs, random),
    }
}

/// Picks two benches, the same one twice more seldom than by chance.
fn benches_to_name(benches: usize, random: &mut Random) -> [u32; 2] {
    let (first, second) = (number(benches, random), number(benches, random));
    let next = if first == second && random.below(4) != 0 { first % benches as u32 + 1 } else { second };
    [first, next]
}

/// Picks two benches to ask for: often those of a job that stands, in either order.
fn benches_to_ask(t: &[u8], random: &mut Random) -> [u32; 2] {
    let (benches, jobs) = boards::sizes(t);
    let j = 1 + random.below(jobs);
    if !boards::stands(t, benches, j) || random.below(2) == 0 {
        return benches_to_name(benches, random);
    }
    let at = random.below(2);
    [at, 1 - at].map(|k| boards::get(t, benches + 4 * j + k) as u32)
}

/// Picks the length of a list or a page that so many bytes are to go into: as long, longer, by one byte or by more, one byte too short, 0,
/// or shorter.
fn length(needed: usize, random: &mut Random) -> usize {
    match random.below(9) {
        0 => 0,
        1 => needed.saturating_sub(1),
        2 => random.below(needed.max(1)),
        3..=5 => needed,
        6 => needed + 1,
        _ => needed + 1 + random.below(200),
    }
}

/// Picks the length of the list that a call is lent for the jobs it moves.
fn with_list(call: impl Fn(usize) -> Call, t: &[u8], random: &mut Random) -> Call {
    let (answer, ..) = outcome(INDEPENDENT, call(LIST), t);
    let needed = answer.map_or(0, |values| written(call(LIST), values));
    call(length(needed, random))
}

/// Makes a call for a sound table, with numbers in and out of range.
pub fn random_call(t: &[u8], random: &mut Random) -> Call {
    let (benches, jobs) = boards::sizes(t);
    match random.below(21) {
        0 if random.below(2) == 0 => Call::Blank(benches as u32, jobs as u32),
        0 => Call::Blank(number(benches, random), number(jobs, random)),
        1 => Call::FormCheck,
        2..=5 => {
            let ([first, second], job) = (benches_to_name(benches, random), job(t, false, random));
            with_list(|list| Call::Arrival(job, first, second, list), t, random)
        }
        6..=8 => {
            let job = job(t, true, random);
            with_list(|list| Call::Closing(job, list), t, random)
        }
        9 | 10 => Call::Levelling(*[0, 1, 2, 3, 5, u32::MAX].get(random.below(7)).unwrap_or(&number(jobs, random))),
        11 => Call::LevelCheck,
        12 => Call::Load(number(benches, random)),
        13 => Call::Heaviest,
        14 | 15 => Call::Sheet(length(boards::sheet_length(t), random)),
        16..=18 => {
            let [first, second] = benches_to_ask(t, random);
            Call::Between(first, second)
        }
        _ => {
            let most = if random.below(4) != 0 { 1 + jobs / benches } else { jobs };
            let list = if random.below(2) == 0 { 2 * benches + random.below(40) } else { random.below(2 * benches + 3) };
            Call::TightSet(number(most, random), list)
        }
    }
}

/// Makes a sound table: level or not, chains rising or not, now and then full, without jobs, or of one bench.
pub fn random_table(benches: usize, jobs: usize, random: &mut Random, level: fn(&mut Vec<u8>)) -> Vec<u8> {
    let mut t = match random.below(20) {
        _ if benches == 1 => boards::blank(benches, jobs),
        0 => boards::blank(benches, jobs),
        1 => boards::ring(benches, jobs),
        2 => boards::long_path(benches, jobs),
        3 => boards::long_path_back(benches, jobs),
        4 => boards::full(benches, jobs, random),
        5..=7 => boards::pairs(benches, jobs - random.below(jobs), jobs, random),
        8..=10 => boards::heap(benches, jobs - random.below(jobs), jobs),
        _ => boards::mixed(benches, jobs, random),
    };
    if random.below(3) == 0 {
        level(&mut t);
    }
    t
}
