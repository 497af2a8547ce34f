//! Levelling and the level check. A bench from which no improving path leaves is finished, with all that it reaches:
//! paths flipped later start no higher than it and so end below all of these, which therefore never lie on one.
use super::chains;
use super::form::Board;
use super::search::{Aim, Search};
use super::words::*;

/// The benches that are not finished.
struct Open {
    /// The load of each bench that is open, else -1; bench 1 first.
    loads: Slots<i16, MOST_BENCHES>,
    benches: usize,
    /// Open benches of greatest load are taken from `next` up.
    greatest: i16,
    next: usize,
    aim: Aim,
}

impl Open {
    fn new(board: &Board) -> Self {
        let mut loads = Slots::new();
        for (i, &load) in board.loads().iter().enumerate() {
            // SAFETY: there are at most 500 benches.
            unsafe { loads.set(i, load) };
        }
        Open { loads, benches: board.benches, greatest: 0, next: board.benches, aim: Aim { load: 0, bench: 0 } }
    }

    fn loads(&self) -> &[i16] {
        // SAFETY: `new` set the slots of all benches.
        unsafe { self.loads.first(self.benches) }
    }

    /// Finds the least load of an open bench. Finished ones count as 65,535.
    fn least(&self) -> i16 {
        self.loads().iter().fold(u16::MAX, |least, &load| least.min(load as u16)) as i16
    }

    /// Takes the open bench that comes next by the rule: greatest load, then lowest number. None if no open bench can
    /// start an improving path.
    ///
    /// Benches of the greatest load below `next` are finished or have given a job away, and no bench comes to that
    /// load again, so that the loads are looked through once for each load that a bench has.
    fn take(&mut self) -> Option<usize> {
        loop {
            if let Some(i) = self.loads()[self.next..].iter().position(|&load| load == self.greatest) {
                self.next += i + 1;
                return Some(self.next);
            }
            self.greatest = self.loads().iter().fold(-1, |most, &load| most.max(load));
            let least = self.least();
            if self.greatest - least < 2 {
                return None;
            }
            self.next = 0;
            self.aim = Aim::first(self.loads(), least);
        }
    }

    /// # Safety
    /// These are numbers of benches.
    unsafe fn finish(&mut self, benches: &[u16]) {
        for &x in benches {
            self.loads.set(x as usize - 1, -1);
        }
    }

    /// Notes a path flipped from `first` to `last`. If `last` was the aim, the next bench of its load is, or there is
    /// a new least load.
    ///
    /// # Safety
    /// These are numbers of open benches.
    unsafe fn flipped(&mut self, first: usize, last: usize) {
        self.loads.set(first - 1, self.loads.at(first - 1) - 1);
        self.loads.set(last - 1, self.loads.at(last - 1) + 1);
        if last == self.aim.bench {
            match self.loads()[last..].iter().position(|&load| load == self.aim.load) {
                Some(i) => self.aim.bench = last + 1 + i,
                None => self.aim = Aim::first(self.loads(), self.least()),
            }
        }
    }
}

/// Tells whether no improving path is left.
///
/// # Safety
/// The table is sound and `board` what it holds.
pub unsafe fn level(t: &[u8], board: &Board) -> bool {
    let mut open = Open::new(board);
    let mut search = Search::new(board.benches);
    while let Some(first) = open.take() {
        if search.improves(t, board, first) {
            return false;
        }
        open.finish(search.met());
    }
    true
}

/// Flips improving paths while there are any, up to the allowance. Gives their number and whether none is left.
///
/// # Safety
/// The table is sound, its chains rise, and `board` is what it holds.
pub unsafe fn levelled(t: &mut [u8], board: &mut Board, allowance: u32) -> (u32, bool) {
    let mut open = Open::new(board);
    let mut search = Search::new(board.benches);
    let mut paths = 0;
    while let Some(first) = open.take() {
        let last = search.lowest(t, board, first, open.aim);
        if last == 0 {
            open.finish(search.met());
            continue;
        }
        if paths == allowance {
            return (paths, false);
        }
        chains::flip(t, board.benches, search.way(first, last));
        search.forget();
        board.add(first, -1);
        board.add(last, 1);
        open.flipped(first, last);
        paths += 1;
    }
    (paths, true)
}
