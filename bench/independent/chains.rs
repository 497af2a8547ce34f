//! Changes of chains and holders on a sound table.
use super::form::Board;
use super::words::*;

/// A step of a path: the bench it leaves, its job, and the job before that on the bench's chain (0 if it is the first).
#[derive(Clone, Copy)]
pub struct Step {
    pub bench: u16,
    pub job: u16,
    pub before: u16,
}

/// Puts every chain in rising order, unless they are.
///
/// # Safety
/// The table is sound and `board` what the form check found.
pub unsafe fn rebuild_chains(t: &mut [u8], board: &Board) {
    if board.rising {
        return;
    }
    for x in 1..board.benches + 1 {
        put(t, 3 + x, 0);
    }
    for j in (1..board.jobs + 1).rev() {
        let r = record(t, board.benches, j);
        if !r.empty() {
            put(t, board.benches + 4 * j + 3, word(t, 3 + r.bench()));
            put(t, 3 + r.bench(), j);
        }
    }
}

/// Finds the word that leads to the job after `before` on the chain of bench `x`.
fn link(benches: usize, x: usize, before: usize) -> usize {
    if before == 0 {
        3 + x
    } else {
        benches + 4 * before + 3
    }
}

/// Takes a step's job off its bench's chain.
///
/// # Safety
/// The table's sizes fit and the step is of its chains.
pub unsafe fn take(t: &mut [u8], benches: usize, step: Step) {
    let next = record(t, benches, step.job as usize).next();
    put(t, link(benches, step.bench as usize, step.before as usize), next);
}

/// Finds the last job below `j` on the rising chain of bench `x`, 0 for none.
///
/// # Safety
/// The table's sizes fit and the numbers on the chain are 1 to J and rise.
pub unsafe fn before(t: &[u8], benches: usize, x: usize, j: usize) -> usize {
    let (mut before, mut next) = (0, word(t, 3 + x));
    while next.wrapping_sub(1) < j - 1 {
        before = next;
        next = record(t, benches, next).next();
    }
    before
}

/// Puts job `j`, which is on no chain, into the rising chain of bench `x`.
///
/// # Safety
/// As for `before`; `j` is 1 to J.
pub unsafe fn insert(t: &mut [u8], benches: usize, x: usize, j: usize) {
    let at = link(benches, x, before(t, benches, x, j));
    put(t, benches + 4 * j + 3, word(t, at));
    put(t, at, j);
}

/// Hands each job of a path to its other bench. All jobs are taken before the first is put back, so that the steps'
/// places stay true.
///
/// # Safety
/// The table is sound, its chains rise, and the steps are a path on it.
pub unsafe fn flip(t: &mut [u8], benches: usize, path: &[Step]) {
    for &step in path {
        take(t, benches, step);
    }
    for step in path {
        let j = step.job as usize;
        let r = record(t, benches, j);
        put(t, benches + 4 * j + 2, 3 - r.holder());
        insert(t, benches, r.other(step.bench as usize), j);
    }
}
