//! The jobs of a sound table as arcs, the path that a rule chooses among them, and the chains made anew.
use super::form::word;
use super::rows::*;
use super::search::{ByBench, ByLoad, Found};

/// The benches and jobs of a table.
#[derive(Clone, Copy)]
pub struct Sizes {
    pub benches: usize,
    pub jobs: usize,
}

impl Sizes {
    /// Tells where the record of job `j` begins.
    #[inline(always)]
    pub fn record(self, j: usize) -> usize {
        self.benches + 4 * j
    }
}

/// Reads the bench that holds job `j`; 0 if it does not stand.
///
/// # Safety
/// The sizes are the table's, `j` is 1 to J, and its record is empty or a standing job's.
#[inline(always)]
pub unsafe fn bench(t: &[u8], s: Sizes, j: usize) -> usize {
    match word(t, s.record(j) + 2) {
        0 => 0,
        holder => word(t, s.record(j) + holder - 1),
    }
}

/// Rebuilds all chains, in rising order, and counts the standing jobs.
///
/// # Safety
/// The sizes are the table's, and each record is empty or a standing job's.
pub unsafe fn rebuild_chains(t: &mut [u8], s: Sizes) {
    for x in 1..s.benches + 1 {
        put(t, 3 + x, 0);
    }
    let mut standing = 0;
    for j in (1..s.jobs + 1).rev() {
        let x = bench(t, s, j);
        if x != 0 {
            put(t, s.record(j) + 3, word(t, 3 + x));
            put(t, 3 + x, j);
            standing += 1;
        }
    }
    put(t, 2, standing);
}

/// What a call works with. Its functions need a table of these sizes whose records are empty or standing jobs'.
pub struct Work {
    s: Sizes,
    /// The load of each bench.
    pub load: Benches,
    /// Each job leads from the bench that holds it to the other bench it names; 0 and 0 if it does not stand.
    from: Jobs,
    pub to: Jobs,
    /// The jobs by the bench they lead from, and by the bench they lead to.
    pub out: ByBench,
    into: ByBench,
    heavy: ByLoad,
    /// Distances from the path's first bench, and to its last.
    away: Found,
    near: Found,
    /// The path's jobs in its order, and their number.
    path: Benches,
    jobs: usize,
}

impl Work {
    pub fn new(s: Sizes) -> Self {
        let (load, from, to) = (Row::new(), Row::new(), Row::new());
        let (out, into, heavy) = (ByBench::new(), ByBench::new(), ByLoad::new());
        let (away, near, path) = (Found::new(), Found::new(), Row::new());
        Work { s, load, from, to, out, into, heavy, away, near, path, jobs: 0 }
    }

    /// Counts the loads of all benches.
    ///
    /// # Safety
    /// The table is one of these sizes; see above.
    pub unsafe fn read_loads(&mut self, t: &[u8]) {
        self.load.clear(self.s.benches + 1);
        for j in 1..self.s.jobs + 1 {
            let x = bench(t, self.s, j);
            self.load.set(x, self.load.at(x) + 1);
        }
    }

    /// Reads the arcs.
    ///
    /// # Safety
    /// As for `read_loads`.
    pub unsafe fn read_arcs(&mut self, t: &[u8]) {
        for j in 1..self.s.jobs + 1 {
            let at = self.s.record(j);
            let (from, to) = match word(t, at + 2) {
                0 => (0, 0),
                holder => (word(t, at + holder - 1), word(t, at + 2 - holder)),
            };
            self.from.set(j, from);
            self.to.set(j, to);
        }
    }

    /// Adds a job that is not in the table.
    ///
    /// # Safety
    /// Loads and arcs were read, `j` is 1 to J and does not stand, and the benches are 1 to B.
    pub unsafe fn add(&mut self, j: usize, from: usize, to: usize) {
        self.from.set(j, from);
        self.to.set(j, to);
        self.load.set(from, self.load.at(from) + 1);
    }

    /// Removes a job that is in the table.
    ///
    /// # Safety
    /// Loads and arcs were read, and job `j` leads from bench `from`.
    pub unsafe fn remove(&mut self, j: usize, from: usize) {
        self.from.set(j, 0);
        self.to.set(j, 0);
        self.load.set(from, self.load.at(from) - 1);
    }

    /// Lists the jobs by the bench they lead from.
    ///
    /// # Safety
    /// The arcs were read.
    pub unsafe fn list_out(&mut self) {
        self.out.list(self.s.jobs, &self.from, self.s.benches);
    }

    /// Finds the distances to `last`.
    ///
    /// # Safety
    /// The arcs were read and `last` is 1 to B.
    unsafe fn search_back(&mut self, last: usize) {
        self.into.list(self.s.jobs, &self.to, self.s.benches);
        self.near.clear(self.s.benches);
        self.near.breadth_first(&self.into, &self.from, last);
    }

    /// Finds, of the improving paths from `first`, the one that the arrival's order chooses. Gives its last bench, `first` if there is
    /// none.
    ///
    /// # Safety
    /// Loads and arcs were read, `out` was listed, `first` is 1 to B.
    pub unsafe fn path_from(&mut self, first: usize) -> usize {
        self.away.clear(self.s.benches);
        self.away.breadth_first(&self.out, &self.to, first);
        let last = self.away.choose(self.s.benches, first, |y| self.load.at(y));
        self.jobs = 0;
        if last == 0 {
            return first;
        }
        self.search_back(last);
        self.list_path(first);
        last
    }

    /// Finds, of the improving paths to `last`, the one that the closing's order chooses. Gives its first bench, `last` if there is none.
    ///
    /// # Safety
    /// Loads and arcs were read, `last` is 1 to B.
    pub unsafe fn path_to(&mut self, last: usize) -> usize {
        self.search_back(last);
        let first = self.near.choose(self.s.benches, last, |y| MOST_JOBS - self.load.at(y));
        self.jobs = 0;
        if first == 0 {
            return last;
        }
        self.list_out();
        self.list_path(first);
        first
    }

    /// Lists, from `first` to the bench that was searched from, at each bench the lowest job that leads one nearer.
    ///
    /// # Safety
    /// `out` was listed, `search_back` has found `first`, and the path is empty.
    unsafe fn list_path(&mut self, first: usize) {
        let mut x = first;
        while self.near.dist.at(x) > 1 {
            let near = self.near.dist.at(x) - 1;
            let mut j = self.out.head.at(x);
            while self.near.dist.at(self.to.at(j)) != near {
                j = self.out.next.at(j);
            }
            self.path.set(self.jobs, j);
            self.jobs += 1;
            x = self.to.at(j);
        }
    }

    /// Hands each job of the path to its other bench.
    ///
    /// # Safety
    /// The table is one of these sizes and holds the path's jobs.
    pub unsafe fn flip(&self, t: &mut [u8]) {
        for i in 0..self.jobs {
            let at = self.s.record(self.path.at(i)) + 2;
            put(t, at, 3 - word(t, at));
        }
    }

    /// Tells where the path's jobs other than `new` begin: it can only be the first.
    ///
    /// # Safety
    /// A path was found, or none.
    unsafe fn other_jobs(&self, new: usize) -> usize {
        (self.jobs != 0 && self.path.at(0) == new) as usize
    }

    /// Counts the path's jobs other than `new`.
    ///
    /// # Safety
    /// As for `other_jobs`.
    pub unsafe fn moved(&self, new: usize) -> usize {
        self.jobs - self.other_jobs(new)
    }

    /// Writes the path's jobs other than `new` into the list.
    ///
    /// # Safety
    /// As for `other_jobs`; the list is long enough.
    pub unsafe fn write_moved(&self, new: usize, list: &mut [u8]) {
        let begin = self.other_jobs(new);
        for i in begin..self.jobs {
            put(list, i - begin, self.path.at(i));
        }
    }

    /// Finds the bench of greatest load, then lowest number, that starts an improving path; 0 if none does. What a
    /// bench has found is not searched again for a lighter one.
    ///
    /// # Safety
    /// Loads and arcs were read and `out` listed.
    pub unsafe fn first_start(&mut self) -> usize {
        self.heavy.list(self.s.benches, &self.load, self.s.jobs);
        self.away.clear(self.s.benches);
        for load in (2..self.s.jobs + 1).rev() {
            let mut x = self.heavy.head.at(load);
            while x != 0 {
                let before = self.away.count;
                self.away.breadth_first(&self.out, &self.to, x);
                if (before..self.away.count).any(|i| self.load.at(self.away.queue.at(i)) + 2 <= load) {
                    return x;
                }
                x = self.heavy.next.at(x);
            }
        }
        0
    }
}
