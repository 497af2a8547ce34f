//! Lists of numbers by a key, searches along them, and the choice among what they find.
use super::rows::*;

/// The numbers 1 to n listed by their keys, rising: the first with each key, and after each number the next with the same key.
pub struct Lists<const K: usize, const N: usize> {
    pub head: Row<K>,
    pub next: Row<N>,
}

/// Jobs by one of their benches.
pub type ByBench = Lists<{ MOST_BENCHES + 1 }, { MOST_JOBS + 1 }>;
/// Benches by their load.
pub type ByLoad = Lists<{ MOST_JOBS + 1 }, { MOST_BENCHES + 1 }>;

impl<const K: usize, const N: usize> Lists<K, N> {
    pub fn new() -> Self {
        Lists { head: Row::new(), next: Row::new() }
    }

    /// # Safety
    /// The keys of 1 to `n` are set and at most `most`, which is below K; `n` is below N.
    pub unsafe fn list(&mut self, n: usize, key: &Row<N>, most: usize) {
        self.head.clear(most + 1);
        for i in (1..n + 1).rev() {
            let k = key.at(i);
            self.next.set(i, self.head.at(k));
            self.head.set(k, i);
        }
    }
}

/// The benches that searches have found, in the order of finding, and for each one more than its distance; 0 for a bench not found.
pub struct Found {
    pub queue: Benches,
    pub dist: Benches,
    pub count: usize,
}

impl Found {
    pub fn new() -> Self {
        Found { queue: Row::new(), dist: Row::new(), count: 0 }
    }

    /// Forgets what was found.
    pub fn clear(&mut self, benches: usize) {
        self.dist.clear(benches + 1);
        self.count = 0;
    }

    /// # Safety
    /// `clear` was called with B, and `y` is 1 to B.
    #[inline(always)]
    unsafe fn discover(&mut self, y: usize, dist: usize) {
        if self.dist.at(y) == 0 {
            self.dist.set(y, dist);
            self.queue.set(self.count, y);
            self.count += 1;
        }
    }

    /// Finds all that `x` reaches other than through benches found before. The jobs that can be taken at a bench are
    /// listed, and `end` tells where each leads.
    ///
    /// # Safety
    /// `clear` was called with B, `x` is 1 to B, and the lists and `end` are those of the table's jobs.
    pub unsafe fn breadth_first(&mut self, lists: &ByBench, end: &Jobs, x: usize) {
        let mut done = self.count;
        self.discover(x, 1);
        while done < self.count {
            let y = self.queue.at(done);
            let dist = self.dist.at(y) + 1;
            let mut j = lists.head.at(y);
            while j != 0 {
                self.discover(end.at(j), dist);
                j = lists.next.at(j);
            }
            done += 1;
        }
    }

    /// Chooses among the benches found whose weight is lower than that of `x` by two or more: lowest weight, then
    /// nearest, then lowest number; 0 if there is none.
    ///
    /// # Safety
    /// `clear` was called with B, and `x` is 1 to B.
    pub unsafe fn choose(&self, benches: usize, x: usize, weight: impl Fn(usize) -> usize) -> usize {
        let own = weight(x);
        let (mut best, mut least, mut nearest) = (0, usize::MAX, 0);
        for y in 1..benches + 1 {
            let (weight, dist) = (weight(y), self.dist.at(y));
            if dist != 0 && weight + 2 <= own && (weight < least || weight == least && dist < nearest) {
                (best, least, nearest) = (y, weight, dist);
            }
        }
        best
    }
}
