//! The question for two benches, on a table that nobody checked. Both chains are read in step, so that neither waits for the other's
//! records; from a match, an end or a record that may not be read they are read on one after the other, as the request says.
use super::words::*;

/// How far the chain of a bench has been read: up to job `before` (0 if it is yet to begin), then comes `next`.
#[derive(Clone, Copy)]
struct Walk {
    bench: usize,
    before: usize,
    next: usize,
    records: u32,
}

impl Walk {
    /// Goes on behind the record that comes next.
    #[inline(always)]
    fn pass(&mut self, r: Record) {
        (self.before, self.next) = (self.next, r.next());
        self.records += 1;
    }
}

/// The chains of a table whose sizes fit.
pub struct Chains<'a> {
    t: &'a [u8],
    benches: usize,
    jobs: usize,
    limits: u64,
}

impl<'a> Chains<'a> {
    /// # Safety
    /// The table's sizes fit and are these.
    pub unsafe fn new(t: &'a [u8], benches: usize, jobs: usize) -> Self {
        Chains { t, benches, jobs, limits: Record::limits(benches) }
    }

    /// # Safety
    /// `bench` is 1 to B.
    unsafe fn begin(&self, bench: usize) -> Walk {
        Walk { bench, before: 0, next: word(self.t, 3 + bench), records: 0 }
    }

    /// Tells whether the number that comes next is of 1 to J and above the one before.
    #[inline(always)]
    fn goes_on(&self, walk: &Walk) -> bool {
        walk.next.wrapping_sub(walk.before + 1) < self.jobs - walk.before
    }

    /// Reads the record that comes next, and tells whether it may be read.
    ///
    /// # Safety
    /// The chain goes on.
    #[inline(always)]
    unsafe fn read(&self, walk: &Walk) -> (Record, bool) {
        let r = record(self.t, self.benches, walk.next);
        (r, r.stands(self.limits) & (r.bench() == walk.bench))
    }

    /// Reads two chains on in step, as long as both go on with records that may be read and are no match.
    ///
    /// # Safety
    /// The walks are of this table.
    unsafe fn in_step(&self, a: &mut Walk, b: &mut Walk) {
        while self.goes_on(a) & self.goes_on(b) {
            let ((r, one), (s, other)) = (self.read(a), self.read(b));
            let matching = (r.other(a.bench) == b.bench) | (s.other(b.bench) == a.bench);
            if !(one & other) | matching {
                return;
            }
            a.pass(r);
            b.pass(s);
        }
    }

    /// Reads a chain on up to a match with bench `y`, a number above `limit` or its end. Gives the match, 0 for none.
    ///
    /// # Safety
    /// The walk is of this table.
    unsafe fn alone(&self, walk: &mut Walk, y: usize, limit: usize) -> Result<usize, u32> {
        while walk.next.wrapping_sub(1) < limit {
            if !self.goes_on(walk) {
                return Err(2);
            }
            let (r, fine) = self.read(walk);
            if !fine {
                return Err(2);
            }
            walk.pass(r);
            if r.other(walk.bench) == y {
                return Ok(walk.before);
            }
        }
        Ok(0)
    }

    /// Gives the lowest job between two benches, 0 for none, and the number of records read, or refuses with 2.
    ///
    /// # Safety
    /// `x` and `y` are 1 to B and different.
    pub unsafe fn between(&self, x: usize, y: usize) -> Result<[u32; 2], u32> {
        let (mut a, mut b) = (self.begin(x), self.begin(y));
        self.in_step(&mut a, &mut b);
        let first = self.alone(&mut a, y, usize::MAX)?;
        let limit = if first == 0 { usize::MAX } else { first };
        if limit < b.before {
            // Read too far.
            b = self.begin(y);
        }
        let second = self.alone(&mut b, x, limit)?;
        let lowest = if second == 0 { first } else { second };
        Ok([lowest as u32, a.records + b.records])
    }
}
