//! Breadth-first searches for the path that the rules choose.
use super::chains::Step;
use super::form::Board;
use super::words::*;

/// A search ends as soon as nothing that it has not visited can change its answer. Without this it always visits all that it can reach.
const STOP_EARLY: bool = true;

/// The lowest (or, for closings, greatest) load, and the lowest bench that has it: no search can choose better.
#[derive(Clone, Copy)]
pub struct Aim {
    pub load: i16,
    pub bench: usize,
}

impl Aim {
    /// Finds the first bench with this load, bench 1 being the first of `loads`.
    pub fn first(loads: &[i16], load: i16) -> Aim {
        Aim { load, bench: 1 + loads.iter().position(|&l| l == load).unwrap_or(0) }
    }
}

/// The best bench met so far, 0 for none. Benches are offered level by level.
struct Choice {
    bench: usize,
    load: i16,
    /// It was met in the level that is being met.
    fresh: bool,
    aim: Aim,
}

impl Choice {
    /// Begins with none. Loads below this one may be chosen.
    fn below(load: i16, aim: Aim) -> Self {
        Choice { bench: 0, load, fresh: false, aim }
    }

    /// Prefers the lower load, then the earlier level, then the lower number. Tells whether no better one can come.
    #[inline(always)]
    fn offer(&mut self, bench: usize, load: i16) -> bool {
        if load < self.load || load == self.load && self.fresh && bench < self.bench {
            (self.bench, self.load, self.fresh) = (bench, load, true);
        }
        STOP_EARLY && bench == self.aim.bench && self.bench == bench
    }

    /// Tells whether no better one can come in later levels.
    fn settled(&self) -> bool {
        STOP_EARLY && self.bench != 0 && self.load == self.aim.load
    }
}

/// A job that arrives: its number, the bench that gets it, and the other that it names.
#[derive(Clone, Copy)]
pub struct Arriving {
    pub job: usize,
    pub bench: usize,
    pub other: usize,
}

/// A place on a chain: a job, 0 behind the last, and the one before it, 0 for none.
type Place = (usize, u16);

/// The benches that a search has met, in its order, and how it came to each.
pub struct Search {
    seen: Slots<bool, { MOST_BENCHES + 1 }>,
    queue: Slots<u16, MOST_BENCHES>,
    met: usize,
    /// How many benches are not seen.
    unseen: usize,
    came: Slots<Step, { MOST_BENCHES + 1 }>,
    path: Slots<Step, MOST_BENCHES>,
}

impl Search {
    pub fn new(benches: usize) -> Self {
        let mut seen = Slots::new();
        seen.fill(benches + 1, false);
        Search { seen, queue: Slots::new(), met: 0, unseen: benches, came: Slots::new(), path: Slots::new() }
    }

    /// Gives the benches met since the last start.
    pub fn met(&self) -> &[u16] {
        // SAFETY: `meet` sets the slots below `met`, each for another bench.
        unsafe { self.queue.first(self.met) }
    }

    /// Lets the benches met be met again.
    pub fn forget(&mut self) {
        for i in 0..self.met {
            // SAFETY: benches in the queue are 1 to B.
            unsafe { self.seen.set(self.queue.at(i) as usize, false) };
        }
        self.unseen += self.met;
        self.met = 0;
    }

    /// # Safety
    /// `x` is a bench, 1 to B, that was not seen.
    #[inline(always)]
    pub unsafe fn meet(&mut self, x: usize) {
        self.seen.set(x, true);
        self.queue.set(self.met, x as u16);
        self.met += 1;
        self.unseen -= 1;
    }

    /// Starts with no bench met; those seen before stay seen.
    pub fn start(&mut self) {
        self.met = 0;
    }

    /// Meets and offers a bench, if it is unseen, that a step leads to. Gives true when `offer` does or all are seen.
    ///
    /// # Safety
    /// `y` is 1 to B.
    #[inline(always)]
    unsafe fn come(&mut self, step: Step, y: usize, offer: &mut impl FnMut(usize) -> bool) -> bool {
        if self.seen.at(y) {
            return false;
        }
        self.came.set(y, step);
        self.meet(y);
        offer(y) || STOP_EARLY && self.unseen == 0
    }

    /// Meets and offers each unseen bench that a job leads to from bench `x`, from a place on its chain as long as it `goes_on`, which ends
    /// with the chain. Gives the place behind; None, and ends, when `offer` gives true or all are seen.
    ///
    /// # Safety
    /// The table is sound, `benches` its B, `x` 1 to B, and the place is on its chain.
    #[inline(always)]
    unsafe fn follow(
        &mut self,
        t: &[u8],
        benches: usize,
        x: usize,
        (mut j, mut before): Place,
        goes_on: impl Fn(usize) -> bool,
        offer: &mut impl FnMut(usize) -> bool,
    ) -> Option<Place> {
        while goes_on(j) {
            let r = record(t, benches, j);
            if self.come(Step { bench: x as u16, job: j as u16, before }, r.other(x), offer) {
                return None;
            }
            (j, before) = (r.next(), j as u16);
        }
        Some((j, before))
    }

    /// Meets and offers each unseen bench that a job leads to from bench `x`. Gives true, and ends, when `offer` does
    /// or all are seen.
    ///
    /// # Safety
    /// The table is sound, `benches` its B, and `x` 1 to B.
    #[inline(always)]
    unsafe fn leave(&mut self, t: &[u8], benches: usize, x: usize, mut offer: impl FnMut(usize) -> bool) -> bool {
        self.follow(t, benches, x, (word(t, 3 + x), 0), |j| j != 0, &mut offer).is_none()
    }

    /// Does the same at the bench that gets an arriving job, as if the job were in its place on the chain.
    ///
    /// # Safety
    /// As for `leave`, and the job does not stand.
    unsafe fn leave_with(&mut self, t: &[u8], benches: usize, new: Arriving, mut offer: impl FnMut(usize) -> bool) -> bool {
        let x = new.bench;
        let Some(place) = self.follow(t, benches, x, (word(t, 3 + x), 0), |j| j != 0 && j < new.job, &mut offer) else {
            return true;
        };
        let step = Step { bench: x as u16, job: new.job as u16, before: place.1 };
        self.come(step, new.other, &mut offer) || self.follow(t, benches, x, place, |j| j != 0, &mut offer).is_none()
    }

    /// Finds the last bench of the path that the arrival's order chooses among the improving paths from `first`, 0 if
    /// there is none. Chains that rise make the first way to a bench the one whose jobs come first in dictionary
    /// order: benches are left in that order of their ways.
    ///
    /// # Safety
    /// The table is sound, `board` what it holds, `first` is an unseen bench, no bench that is unseen has a load below `aim.load`, and only
    /// seen benches of that load have a number below `aim.bench`. Benches seen before lead to no bench that could be chosen.
    pub unsafe fn lowest(&mut self, t: &[u8], board: &Board, first: usize, aim: Aim) -> usize {
        self.start();
        self.meet(first);
        self.lowest_from(t, board, Choice::below(board.load.at(first) - 1, aim), 0)
    }

    /// Finds the same from the bench that gets an arriving job, as if the job were in its place on the chain: it is in the loads, not yet
    /// in the table.
    ///
    /// # Safety
    /// As for `lowest`, and the job does not stand.
    pub unsafe fn lowest_with(&mut self, t: &[u8], board: &Board, new: Arriving, aim: Aim) -> usize {
        self.start();
        self.meet(new.bench);
        let mut best = Choice::below(board.load.at(new.bench) - 1, aim);
        if self.leave_with(t, board.benches, new, |y| best.offer(y, board.load.at(y))) {
            return best.bench;
        }
        self.lowest_from(t, board, best, 1)
    }

    /// Goes on, level by level, from the bench that is `next` in the queue, the first of its level.
    ///
    /// # Safety
    /// As for `lowest`.
    #[inline(always)]
    unsafe fn lowest_from(&mut self, t: &[u8], board: &Board, mut best: Choice, mut next: usize) -> usize {
        while next < self.met && !best.settled() {
            best.fresh = false;
            for _ in next..self.met {
                let x = self.queue.at(next) as usize;
                next += 1;
                if self.leave(t, board.benches, x, |y| best.offer(y, board.load.at(y))) {
                    return best.bench;
                }
            }
        }
        best.bench
    }

    /// Tells whether an improving path leaves `first`.
    ///
    /// # Safety
    /// The table is sound, `board` what it holds, `first` is an unseen bench, and benches seen before lead to none with a load at least two
    /// below its own.
    pub unsafe fn improves(&mut self, t: &[u8], board: &Board, first: usize) -> bool {
        let limit = board.load.at(first) - 2;
        self.start();
        self.meet(first);
        let (mut next, mut found) = (0, false);
        while next < self.met {
            let x = self.queue.at(next) as usize;
            next += 1;
            let ends = self.leave(t, board.benches, x, |y| {
                found = board.load.at(y) <= limit;
                found
            });
            if ends {
                break;
            }
        }
        found
    }

    /// Meets all benches with this load or more, and all that a job leads to from a bench that is met.
    ///
    /// # Safety
    /// The table is sound, `board` what it holds, and no bench was seen.
    pub unsafe fn reach(&mut self, t: &[u8], board: &Board, height: i16) {
        for x in 1..board.benches + 1 {
            if board.load.at(x) >= height {
                self.meet(x);
            }
        }
        let mut next = 0;
        while next < self.met && self.unseen != 0 {
            let x = self.queue.at(next) as usize;
            next += 1;
            self.leave(t, board.benches, x, |_| false);
        }
    }

    /// Tells whether bench `x` was met.
    ///
    /// # Safety
    /// `x` is 1 to B.
    pub unsafe fn has_met(&self, x: usize) -> bool {
        self.seen.at(x)
    }

    /// Gives the steps from `first` to `last` as `lowest` went, the last step first.
    ///
    /// # Safety
    /// `lowest` has met `last` since it started at `first`.
    pub unsafe fn way(&mut self, first: usize, last: usize) -> &[Step] {
        let (mut steps, mut x) = (0, last);
        while x != first {
            let step = self.came.at(x);
            self.path.set(steps, step);
            steps += 1;
            x = step.bench as usize;
        }
        self.path.first(steps)
    }
}

/// How many steps each bench is from the one at which the paths end.
pub struct Back {
    away: Slots<u16, { MOST_BENCHES + 1 }>,
    queue: Slots<u16, MOST_BENCHES>,
    /// Jobs that lead into a bench: the first of them, and after each job the next.
    into: Slots<u16, { MOST_BENCHES + 1 }>,
    after: Slots<u16, { MOST_JOBS + 1 }>,
    path: Slots<Step, MOST_BENCHES>,
}

const FAR: u16 = u16::MAX;

impl Back {
    /// Lists the jobs that lead into each bench.
    ///
    /// # Safety
    /// The table is sound and `board` what it holds.
    pub unsafe fn new(t: &[u8], board: &Board) -> Self {
        let mut back = Back { away: Slots::new(), queue: Slots::new(), into: Slots::new(), after: Slots::new(), path: Slots::new() };
        back.away.fill(board.benches + 1, FAR);
        back.into.fill(board.benches + 1, 0);
        for j in 1..board.jobs + 1 {
            let r = record(t, board.benches, j);
            // An empty record goes to slot 0, where no bench looks.
            let y = r.other(r.bench());
            back.after.set(j, back.into.at(y));
            back.into.set(y, j as u16);
        }
        back
    }

    /// Finds the first bench of the path that the closing's order chooses among the improving paths to `last`, 0 if
    /// there is none.
    ///
    /// # Safety
    /// As for `new`, of which this is the first search; `aim` is the first bench of greatest load.
    pub unsafe fn greatest(&mut self, t: &[u8], board: &Board, last: usize, aim: Aim) -> usize {
        self.away.set(last, 0);
        self.queue.set(0, last as u16);
        // Loads count downward here, so that the greatest is chosen.
        let mut best = Choice::below(-(board.load.at(last) + 1), Aim { load: -aim.load, bench: aim.bench });
        let (mut next, mut met, mut steps) = (0, 1, 0);
        while next < met && !best.settled() {
            best.fresh = false;
            steps += 1;
            for _ in next..met {
                let mut j = self.into.at(self.queue.at(next) as usize) as usize;
                next += 1;
                while j != 0 {
                    let x = record(t, board.benches, j).bench();
                    if self.away.at(x) == FAR {
                        self.away.set(x, steps);
                        self.queue.set(met, x as u16);
                        met += 1;
                        if best.offer(x, -board.load.at(x)) || STOP_EARLY && met == board.benches {
                            return best.bench;
                        }
                    }
                    j = self.after.at(j) as usize;
                }
            }
        }
        best.bench
    }

    /// Gives the steps from `first`: at each bench the lowest job that comes one nearer to the end.
    ///
    /// # Safety
    /// The chains rise and `greatest` has met `first`.
    pub unsafe fn way(&mut self, t: &[u8], benches: usize, first: usize) -> &[Step] {
        let (mut steps, mut x) = (0, first);
        let mut away = self.away.at(first);
        while away != 0 {
            away -= 1;
            let (mut before, mut j) = (0, word(t, 3 + x));
            let mut r = record(t, benches, j);
            while self.away.at(r.other(x)) != away {
                (before, j) = (j, r.next());
                r = record(t, benches, j);
            }
            self.path.set(steps, Step { bench: x as u16, job: j as u16, before: before as u16 });
            steps += 1;
            x = r.other(x);
        }
        self.path.first(steps)
    }
}
