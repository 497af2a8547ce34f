//! The calls of document 01, written from the document alone, and the sheet, the question for two benches, the lists of moved jobs and the
//! end of the heaviest load's count of 02, without bounds checks: what the proved ones are measured against.
//!
//! Each call but that question makes the form check first and then tests its refusals in rising order, so that the lowest number is
//! returned, and writes nothing before the last of them. It gives its values, or the number of the refusal.
mod chains;
mod count;
mod form;
mod level;
mod pair;
mod search;
mod sheet;
mod words;

use chains::Step;
use form::Board;
use pair::Chains;
use search::{Aim, Arriving, Back, Search};
use words::*;

/// Refuses with a number where a condition holds.
fn refuse_if(condition: bool, number: u32) -> Result<(), u32> {
    if condition {
        Err(number)
    } else {
        Ok(())
    }
}

/// Gives 0 for a sound table, else refusal 1 or 2.
pub fn form_check(t: &[u8]) -> u32 {
    match form::read(t, &mut Board::new()) {
        Ok(()) => 0,
        Err(number) => number,
    }
}

/// Writes a table without jobs.
pub fn blank(t: &mut [u8], benches: u32, jobs: u32) -> u32 {
    if !form::fits(t.len(), benches as usize, jobs as usize) {
        return 1;
    }
    t.fill(0);
    t[..2].copy_from_slice(&(benches as u16).to_le_bytes());
    t[2..4].copy_from_slice(&(jobs as u16).to_le_bytes());
    0
}

/// Tells whether a list may be too short for the moves: no path has more jobs than there are other benches.
fn may_be_short(list: &[u8], board: &Board) -> bool {
    list.len() < 2 * (board.benches - 1)
}

/// Makes a change of a table in another order on a copy in order, which takes its place unless the change is refused. For lists that may be
/// too short: that is known with the path, which is found along rising chains. Stays out of line, so that the copy is no part of every
/// change's frame.
///
/// # Safety
/// The table is sound and `board` what it holds.
#[cold]
#[inline(never)]
unsafe fn in_order<const N: usize>(
    t: &mut [u8],
    board: &Board,
    change: impl FnOnce(&mut [u8]) -> Result<[u32; N], u32>,
) -> Result<[u32; N], u32> {
    let mut copy = [0; MOST_BYTES];
    let copy = &mut copy[..t.len()];
    copy.copy_from_slice(t);
    chains::rebuild_chains(copy, board);
    let values = change(copy)?;
    t.copy_from_slice(copy);
    Ok(values)
}

/// Takes in a job. Gives the bench that holds it in the end, the bench whose load rose, the number of other jobs that
/// changed holder; these go into the list.
pub fn arrival(t: &mut [u8], job: u32, first: u32, second: u32, list: &mut [u8]) -> Result<[u32; 3], u32> {
    let mut board = Board::new();
    form::read_apart(t, &mut board)?;
    refuse_if(!board.numbered(job), 3)?;
    refuse_if(!board.named(first) || !board.named(second) || first == second, 4)?;
    let (j, x, y) = (job as usize, first as usize, second as usize);
    // SAFETY: the table is sound and the numbers are in range.
    unsafe {
        refuse_if(!record(t, board.benches, j).empty(), 5)?;
        if !board.rising && may_be_short(list, &board) {
            return in_order(t, &board, |t| arrival(t, job, first, second, list));
        }
        chains::rebuild_chains(t, &board);
        let (bench, other) = if board.load.at(x) <= board.load.at(y) { (x, y) } else { (y, x) };
        board.add(bench, 1);
        let [held, rose, moved] = hand_on(t, &board, Arriving { job: j, bench, other }, list)?;
        let at = board.benches + 4 * j;
        put(t, at, x);
        put(t, at + 1, y);
        put(t, at + 2, 1 + (held == y) as usize);
        chains::insert(t, board.benches, held, j);
        put(t, 2, board.standing + 1);
        Ok([held, rose, moved].map(|n| n as u32))
    }
}

/// Hands jobs on along the path that the arrival's order chooses from the bench that gets a job, and lists them; refuses with 8 before it.
/// Gives the bench that is to hold the arriving job, the path's last bench, and the number of jobs handed on.
///
/// # Safety
/// The table is sound, its chains rise, and `board` is what it holds and the arriving job.
unsafe fn hand_on(t: &mut [u8], board: &Board, new: Arriving, list: &mut [u8]) -> Result<[usize; 3], u32> {
    let least = board.loads().iter().fold(i16::MAX, |least, &load| least.min(load));
    if board.load.at(new.bench) - least < 2 {
        return Ok([new.bench, new.bench, 0]);
    }
    let mut search = Search::new(board.benches);
    let last = search.lowest_with(t, board, new, Aim::first(board.loads(), least));
    if last == 0 {
        return Ok([new.bench, new.bench, 0]);
    }
    // The arriving job is on no chain yet, and can only be the first of the path.
    let (held, path) = match search.way(new.bench, last) {
        [path @ .., step] if step.job as usize == new.job => (new.other, path),
        path => (new.bench, path),
    };
    refuse_if(list.len() < 2 * path.len(), 8)?;
    chains::flip(t, board.benches, path);
    write_jobs(list, path.iter().rev());
    Ok([held, last, path.len()])
}

/// Writes the jobs of a path into a list.
///
/// # Safety
/// The list is long enough.
unsafe fn write_jobs<'a>(list: &mut [u8], path: impl Iterator<Item = &'a Step>) {
    for (i, step) in path.enumerate() {
        put(list, i, step.job as usize);
    }
}

/// Closes a job. Gives the bench whose load fell and the number of jobs that changed holder; these go into the list.
pub fn closing(t: &mut [u8], job: u32, list: &mut [u8]) -> Result<[u32; 2], u32> {
    let mut board = Board::new();
    form::read_apart(t, &mut board)?;
    refuse_if(!board.numbered(job), 3)?;
    let j = job as usize;
    // SAFETY: the table is sound and the job's number in range.
    unsafe {
        let closed = record(t, board.benches, j);
        refuse_if(closed.empty(), 6)?;
        if !board.rising && may_be_short(list, &board) {
            return in_order(t, &board, |t| closing(t, job, list));
        }
        chains::rebuild_chains(t, &board);
        let bench = closed.bench();
        board.add(bench, -1);
        let [fell, moved] = hand_back(t, &board, bench, list)?;
        let before = chains::before(t, board.benches, bench, j) as u16;
        chains::take(t, board.benches, Step { bench: bench as u16, job: j as u16, before });
        for i in 0..4 {
            put(t, board.benches + 4 * j + i, 0);
        }
        put(t, 2, board.standing - 1);
        Ok([fell, moved].map(|n| n as u32))
    }
}

/// Hands jobs on along the path that the closing's order chooses to the bench that loses one, and lists them; refuses with 8 before it.
/// Gives the path's first bench and the number of jobs handed on. The job that is closed is on its chain still, and on no path to it.
///
/// # Safety
/// The table is sound, its chains rise, `board` is what it holds without the closed job, and `last` the bench that holds that one.
unsafe fn hand_back(t: &mut [u8], board: &Board, last: usize, list: &mut [u8]) -> Result<[usize; 2], u32> {
    let greatest = most(board);
    if greatest - board.load.at(last) < 2 {
        return Ok([last, 0]);
    }
    let mut back = Back::new(t, board);
    let first = back.greatest(t, board, last, Aim::first(board.loads(), greatest));
    if first == 0 {
        return Ok([last, 0]);
    }
    let path = back.way(t, board.benches, first);
    refuse_if(list.len() < 2 * path.len(), 8)?;
    chains::flip(t, board.benches, path);
    write_jobs(list, path.iter());
    Ok([first, path.len()])
}

/// Levels within an allowance. Gives the paths flipped, and 1 if the table is level in the end.
pub fn levelling(t: &mut [u8], allowance: u32) -> Result<[u32; 2], u32> {
    let mut board = Board::new();
    form::read(t, &mut board)?;
    // SAFETY: the table is sound, and its chains rise once they are rebuilt.
    let (paths, level) = unsafe {
        chains::rebuild_chains(t, &board);
        level::levelled(t, &mut board, allowance)
    };
    Ok([paths, level as u32])
}

/// Gives 1 for a level table, else 0.
pub fn level_check(t: &[u8]) -> Result<[u32; 1], u32> {
    let mut board = Board::new();
    form::read(t, &mut board)?;
    // SAFETY: the table is sound.
    Ok([unsafe { level::level(t, &board) } as u32])
}

/// Gives the load of a bench.
pub fn load(t: &[u8], bench: u32) -> Result<[u32; 1], u32> {
    let mut board = Board::new();
    form::read(t, &mut board)?;
    refuse_if(!board.named(bench), 4)?;
    Ok([board.loads()[bench as usize - 1] as u32])
}

/// Gives the heaviest load.
pub fn heaviest(t: &[u8]) -> Result<[u32; 1], u32> {
    let mut board = Board::new();
    form::read(t, &mut board)?;
    Ok([count::heaviest(board.loads(), board.standing) as u32])
}

/// Finds the greatest load of all benches, for a closing and for a tight set: only the heaviest load's count is to end sooner.
fn most(board: &Board) -> i16 {
    board.loads().iter().fold(0, |most, &load| most.max(load))
}

/// Gives the number of benches in the tight set and of jobs inside it; the benches go into the list.
pub fn tight_set(t: &[u8], height: u32, list: &mut [u8]) -> Result<[u32; 2], u32> {
    let mut board = Board::new();
    form::read(t, &mut board)?;
    refuse_if(height == 0 || height > most(&board) as u32, 7)?;
    let mut search = Search::new(board.benches);
    // SAFETY: the table is sound.
    unsafe { search.reach(t, &board, height as i16) };
    let benches = search.met().len();
    refuse_if(list.len() < 2 * benches, 8)?;
    let (mut inside, mut words) = (0, list.chunks_exact_mut(2));
    for x in 1..board.benches + 1 {
        // SAFETY: x is 1 to B.
        if unsafe { search.has_met(x) } {
            // A bench in the set has its whole chain inside, and a job inside is on such a chain.
            inside += board.loads()[x - 1] as u32;
            if let Some(word) = words.next() {
                word.copy_from_slice(&(x as u16).to_le_bytes());
            }
        }
    }
    Ok([benches as u32, inside])
}

/// Writes the sheet on the page and gives its length.
pub fn sheet(t: &[u8], page: &mut [u8]) -> Result<[u32; 1], u32> {
    let mut board = Board::new();
    form::read(t, &mut board)?;
    let length = sheet::length(&board);
    refuse_if(page.len() < length, 11)?;
    // SAFETY: the table is sound and this part of the page as long as the sheet.
    unsafe { sheet::write(t, &board, page.get_unchecked_mut(..length)) };
    Ok([length as u32])
}

/// Gives the lowest job between two benches, 0 for none, and the number of records read. Refusal 2 comes after 4.
pub fn between(t: &[u8], first: u32, second: u32) -> Result<[u32; 2], u32> {
    let (benches, jobs) = form::sizes(t).ok_or(1u32)?;
    let (x, y) = (first as usize, second as usize);
    let named = |x: usize| x.wrapping_sub(1) < benches;
    refuse_if(!named(x) || !named(y) || x == y, 4)?;
    // SAFETY: the sizes fit and are these, and the benches are two of 1 to B.
    unsafe { Chains::new(t, benches, jobs).between(x, y) }
}
