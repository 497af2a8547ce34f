//! The calls of document 01, and the sheet, the question for two benches, the lists of moved jobs and the end of the heaviest load's count
//! of 02, as a straightforward program makes them, without bounds checks: passes over the records, lists in arrays, searches of all that is
//! reached, and chains made anew. Chains are read by the form check, by load, by heaviest and by the question for two benches alone.
//!
//! Each call but that question makes the form check first and then tests its refusals in rising order. It gives its values, or the number
//! of the refusal.
mod between;
mod form;
mod rows;
mod search;
mod sheet;
mod work;

pub use form::form_check;
use form::word;
use rows::*;
use work::{bench, rebuild_chains, Sizes, Work};

/// Refuses with a number where a condition holds.
fn refuse_if(condition: bool, number: u32) -> Result<(), u32> {
    if condition {
        Err(number)
    } else {
        Ok(())
    }
}

/// Gives the sizes of a sound table, or refusal 1 or 2.
fn sound(t: &[u8]) -> Result<Sizes, u32> {
    let number = form_check(t);
    refuse_if(number != 0, number)?;
    let (benches, jobs) = form::sizes(t).ok_or(1u32)?;
    Ok(Sizes { benches, jobs })
}

/// Tells whether a number is 1 to `most`.
fn within(number: u32, most: usize) -> bool {
    1 <= number && number as usize <= most
}

/// Writes a table without jobs.
pub fn blank(t: &mut [u8], benches: u32, jobs: u32) -> u32 {
    let fit = within(benches, MOST_BENCHES) && within(jobs, MOST_JOBS);
    if !fit || t.len() != 2 * (4 + benches as usize + 4 * jobs as usize) {
        return 1;
    }
    t.fill(0);
    t[..2].copy_from_slice(&(benches as u16).to_le_bytes());
    t[2..4].copy_from_slice(&(jobs as u16).to_le_bytes());
    0
}

/// Takes in a job. Gives the bench that holds it in the end, the bench whose load rose, the number of other jobs that
/// changed holder; these go into the list.
pub fn arrival(t: &mut [u8], job: u32, first: u32, second: u32, list: &mut [u8]) -> Result<[u32; 3], u32> {
    let s = sound(t)?;
    refuse_if(!within(job, s.jobs), 3)?;
    refuse_if(!within(first, s.benches) || !within(second, s.benches) || first == second, 4)?;
    let (j, first, second) = (job as usize, first as usize, second as usize);
    // SAFETY: the table is sound and the numbers are in range; the chains are not read again before they are rebuilt.
    unsafe {
        refuse_if(bench(t, s, j) != 0, 5)?;
        let mut work = Work::new(s);
        work.read_loads(t);
        work.read_arcs(t);
        let holder = if work.load.at(first) <= work.load.at(second) { 1 } else { 2 };
        let (getter, other) = if holder == 1 { (first, second) } else { (second, first) };
        work.add(j, getter, other);
        work.list_out();
        let rose = work.path_from(getter);
        let moved = work.moved(j);
        refuse_if(list.len() < 2 * moved, 8)?;
        put(t, s.record(j), first);
        put(t, s.record(j) + 1, second);
        put(t, s.record(j) + 2, holder);
        work.flip(t);
        work.write_moved(j, list);
        rebuild_chains(t, s);
        Ok([bench(t, s, j) as u32, rose as u32, moved as u32])
    }
}

/// Closes a job. Gives the bench whose load fell and the number of jobs that changed holder; these go into the list.
pub fn closing(t: &mut [u8], job: u32, list: &mut [u8]) -> Result<[u32; 2], u32> {
    let s = sound(t)?;
    refuse_if(!within(job, s.jobs), 3)?;
    let j = job as usize;
    // SAFETY: as in `arrival`.
    unsafe {
        let giver = bench(t, s, j);
        refuse_if(giver == 0, 6)?;
        let mut work = Work::new(s);
        work.read_loads(t);
        work.read_arcs(t);
        work.remove(j, giver);
        let fell = work.path_to(giver);
        let moved = work.moved(j);
        refuse_if(list.len() < 2 * moved, 8)?;
        for i in 0..4 {
            put(t, s.record(j) + i, 0);
        }
        work.flip(t);
        work.write_moved(j, list);
        rebuild_chains(t, s);
        Ok([fell as u32, moved as u32])
    }
}

/// Levels within an allowance. Gives the paths flipped, and 1 if the table is level in the end.
pub fn levelling(t: &mut [u8], allowance: u32) -> Result<[u32; 2], u32> {
    let s = sound(t)?;
    let mut work = Work::new(s);
    let mut paths = 0;
    // SAFETY: as in `arrival`.
    unsafe {
        let mut first = start(t, &mut work);
        while first != 0 && paths < allowance {
            work.path_from(first);
            work.flip(t);
            paths += 1;
            first = start(t, &mut work);
        }
        rebuild_chains(t, s);
        Ok([paths, (first == 0) as u32])
    }
}

/// Finds the first bench of the path that levelling flips next; 0 if no improving path is left.
///
/// # Safety
/// The table is one of the work's sizes and sound but for its chains.
unsafe fn start(t: &[u8], work: &mut Work) -> usize {
    work.read_loads(t);
    work.read_arcs(t);
    work.list_out();
    work.first_start()
}

/// Gives 1 for a level table, else 0.
pub fn level_check(t: &[u8]) -> Result<[u32; 1], u32> {
    let s = sound(t)?;
    // SAFETY: the table is sound.
    let first = unsafe { start(t, &mut Work::new(s)) };
    Ok([(first == 0) as u32])
}

/// Counts the jobs on the chain of bench `x`.
///
/// # Safety
/// The table is sound, `s` its sizes, and `x` 1 to B.
unsafe fn chain_length(t: &[u8], s: Sizes, x: usize) -> u32 {
    let (mut count, mut j) = (0, word(t, 3 + x));
    while j != 0 {
        count += 1;
        j = word(t, s.record(j) + 3);
    }
    count
}

/// Gives the load of a bench.
pub fn load(t: &[u8], bench: u32) -> Result<[u32; 1], u32> {
    let s = sound(t)?;
    refuse_if(!within(bench, s.benches), 4)?;
    // SAFETY: the table is sound and the bench's number in range.
    Ok([unsafe { chain_length(t, s, bench as usize) }])
}

/// Gives the heaviest load. Counts the benches' jobs from bench 1 up, and ends when no more are left than the best load.
pub fn heaviest(t: &[u8]) -> Result<[u32; 1], u32> {
    let s = sound(t)?;
    // SAFETY: a sound table has its number of standing jobs in word 2.
    let mut left = unsafe { word(t, 2) } as u32;
    let mut most = 0;
    for x in 1..s.benches + 1 {
        if left <= most {
            break;
        }
        // SAFETY: the table is sound and `x` is 1 to B.
        let load = unsafe { chain_length(t, s, x) };
        most = most.max(load);
        left -= load;
    }
    Ok([most])
}

/// Marks bench `x`, which has no mark, and what its jobs lead to, and so on.
///
/// # Safety
/// The work's arcs were read and listed; `x` is 1 to B, and a mark is set or cleared for each bench.
unsafe fn visit(work: &Work, marks: &mut Benches, x: usize) {
    marks.set(x, 1);
    let mut j = work.out.head.at(x);
    while j != 0 {
        let y = work.to.at(j);
        if marks.at(y) == 0 {
            visit(work, marks, y);
        }
        j = work.out.next.at(j);
    }
}

/// Marks the tight set of a height. Gives the number of its benches and of the jobs inside: a bench in the set has
/// its whole chain inside, and a job inside is on such a chain, so that the loads are added up.
///
/// # Safety
/// The table is sound and `s` its sizes.
unsafe fn mark(t: &[u8], s: Sizes, height: u32, marks: &mut Benches) -> (usize, usize) {
    let mut work = Work::new(s);
    work.read_loads(t);
    work.read_arcs(t);
    work.list_out();
    marks.clear(s.benches + 1);
    for x in 1..s.benches + 1 {
        if height <= work.load.at(x) as u32 && marks.at(x) == 0 {
            visit(&work, marks, x);
        }
    }
    let (mut benches, mut inside) = (0, 0);
    for x in 1..s.benches + 1 {
        if marks.at(x) != 0 {
            benches += 1;
            inside += work.load.at(x);
        }
    }
    (benches, inside)
}

/// Gives the number of benches in the tight set and of jobs inside it; the benches go into the list.
pub fn tight_set(t: &[u8], height: u32, list: &mut [u8]) -> Result<[u32; 2], u32> {
    let s = sound(t)?;
    refuse_if(height == 0, 7)?;
    let mut marks = Benches::new();
    // SAFETY: the table is sound; the list has room for the benches once their number is tested.
    unsafe {
        let (benches, inside) = mark(t, s, height, &mut marks);
        // Without benches the height is above the heaviest load.
        refuse_if(benches == 0, 7)?;
        refuse_if(list.len() < 2 * benches, 8)?;
        let mut written = 0;
        for x in 1..s.benches + 1 {
            if marks.at(x) != 0 {
                put(list, written, x);
                written += 1;
            }
        }
        Ok([benches as u32, inside as u32])
    }
}

/// Writes the sheet on the page and gives its length.
pub fn sheet(t: &[u8], page: &mut [u8]) -> Result<[u32; 1], u32> {
    let s = sound(t)?;
    let mut work = Work::new(s);
    // SAFETY: the table is sound; the page has room for the sheet once its length is tested.
    unsafe {
        work.read_loads(t);
        let length = sheet::length(s, &work);
        refuse_if(page.len() < length, 11)?;
        work.read_arcs(t);
        work.list_out();
        sheet::write(s, &work, page);
        Ok([length as u32])
    }
}

/// Gives the lowest job between two benches, 0 for none, and the number of records read.
pub fn between(t: &[u8], first: u32, second: u32) -> Result<[u32; 2], u32> {
    let (benches, jobs) = form::sizes(t).ok_or(1u32)?;
    refuse_if(!within(first, benches) || !within(second, benches) || first == second, 4)?;
    let (s, x, y) = (Sizes { benches, jobs }, first as usize, second as usize);
    // SAFETY: the sizes fit and both are numbers of benches.
    unsafe {
        let of_first = between::walk(t, s, x, y, usize::MAX)?;
        let limit = if of_first.job == 0 { usize::MAX } else { of_first.job };
        let of_second = between::walk(t, s, y, x, limit)?;
        // A match on the second chain is not above one on the first.
        let job = if of_second.job == 0 { of_first.job } else { of_second.job };
        Ok([job as u32, (of_first.records + of_second.records) as u32])
    }
}
