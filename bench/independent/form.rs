//! The form check. In one pass over the records it also finds the loads and whether all chains rise.
use super::words::*;

/// What the form check of a sound table finds out.
pub struct Board {
    pub benches: usize,
    pub jobs: usize,
    pub standing: usize,
    /// Every chain is in rising job order.
    pub rising: bool,
    /// The load of each bench of 1 to B; slot 0 has no bench and holds 0.
    pub load: Slots<i16, { MOST_BENCHES + 1 }>,
}

impl Board {
    pub fn new() -> Self {
        let mut board = Board { benches: 0, jobs: 0, standing: 0, rising: false, load: Slots::new() };
        board.load.fill(1, 0);
        board
    }

    /// Gives the loads of benches 1 to B, bench 1 first.
    pub fn loads(&self) -> &[i16] {
        // SAFETY: B is 0 and slot 0 set at first; `read` sets B, at most 500, and slots 0 to B.
        unsafe { self.load.first(self.benches + 1).get_unchecked(1..) }
    }

    /// Adds to the load of bench `x`.
    ///
    /// # Safety
    /// `x` is 1 to B.
    pub unsafe fn add(&mut self, x: usize, by: i16) {
        self.load.set(x, self.load.at(x) + by);
    }

    /// Tells whether this is the number of a bench.
    pub fn named(&self, bench: u32) -> bool {
        1 <= bench && bench as usize <= self.benches
    }

    /// Tells whether this is the number of a job.
    pub fn numbered(&self, job: u32) -> bool {
        1 <= job && job as usize <= self.jobs
    }
}

/// Reads B and J of a table whose sizes fit.
pub fn sizes(t: &[u8]) -> Option<(usize, usize)> {
    if t.len() % 2 != 0 || t.len() < 8 {
        return None;
    }
    // SAFETY: the table has at least four words.
    let (benches, jobs) = unsafe { (word(t, 0), word(t, 1)) };
    fits(t.len(), benches, jobs).then_some((benches, jobs))
}

/// Tells whether a table of `len` bytes can be one of B benches and J jobs.
pub fn fits(len: usize, benches: usize, jobs: usize) -> bool {
    let within = (1..=MOST_BENCHES).contains(&benches) && (1..=MOST_JOBS).contains(&jobs);
    within && len == 2 * (4 + benches + 4 * jobs)
}

/// For each bench the next job on its chain in the low half, the jobs met so far in the high half.
type Walks = Slots<u32, { MOST_BENCHES + 1 }>;

/// Meets the standing jobs in rising order, as long as each is the next on its holder's chain. Gives the first record
/// that is not such a job's, J + 1 if there is none, and the number of empty records before it.
///
/// # Safety
/// The sizes fit and slots 0 to B of `walks` are set.
unsafe fn meet(t: &[u8], benches: usize, jobs: usize, walks: &mut Walks) -> (usize, usize) {
    let limits = Record::limits(benches);
    let mut empty = 0;
    // Here and below half-open ranges, which make a shorter loop.
    for j in 1..jobs + 1 {
        let r = record(t, benches, j);
        if r.empty() {
            empty += 1;
            continue;
        }
        if !r.stands(limits) {
            return (j, empty);
        }
        let walk = walks.at(r.bench());
        if walk as u16 != j as u16 {
            return (j, empty);
        }
        // One more, and the next job in the place of j.
        walks.set(r.bench(), walk.wrapping_add((0x1_0000 + r.next() - j) as u32));
    }
    (jobs + 1, empty)
}

/// Counts the empty records from job `from` on, if all others are standing jobs'.
///
/// # Safety
/// The sizes fit and `from` is at least 1.
unsafe fn empty_from(t: &[u8], benches: usize, jobs: usize, from: usize) -> Option<usize> {
    let limits = Record::limits(benches);
    let (mut empty, mut fine) = (0, true);
    for j in from..jobs + 1 {
        let r = record(t, benches, j);
        empty += r.empty() as usize;
        fine &= r.empty() | r.stands(limits);
    }
    fine.then_some(empty)
}

/// Tells whether the chains hold each standing job once, on its holder's chain, in any order; notes the loads. A job
/// is met on no other chain than its holder's, so that only a chain that returns to itself meets one twice, and that
/// one never ends: counting finds it.
///
/// # Safety
/// The sizes fit and every record is empty or a standing job's.
unsafe fn chained(t: &[u8], benches: usize, jobs: usize, standing: usize, walks: &mut Walks) -> bool {
    let mut left = standing;
    for x in 1..benches + 1 {
        let mut j = word(t, 3 + x);
        let before = left;
        while j != 0 {
            if jobs < j || left == 0 {
                return false;
            }
            let r = record(t, benches, j);
            if r.bench() != x {
                return false;
            }
            left -= 1;
            j = r.next();
        }
        walks.set(x, ((before - left) as u32) << 16);
    }
    left == 0
}

/// Reads what a sound table holds, or refuses with 1 or 2.
#[inline(always)]
pub fn read(t: &[u8], board: &mut Board) -> Result<(), u32> {
    let (benches, jobs) = sizes(t).ok_or(1u32)?;
    // SAFETY: the sizes fit, so words 0 to 3 + B + 4 J are there and B is at most 500; a record's holder is tested before it is used
    // as a slot, and `chained` tests a job against J before it follows it.
    unsafe {
        let mut walks = Walks::new();
        walks.set(0, 0);
        for x in 1..benches + 1 {
            walks.set(x, word(t, 3 + x) as u32);
        }
        let (stop, empty) = meet(t, benches, jobs, &mut walks);
        let standing = jobs - empty - empty_from(t, benches, jobs, stop).ok_or(2u32)?;
        if standing != word(t, 2) || word(t, 3) != 0 {
            return Err(2);
        }
        // Each job was the next one and no chain has a rest: then all is in place, and every chain rises.
        let rising = stop > jobs && walks.first(benches + 1).iter().fold(0, |rest, &walk| rest | walk as u16) == 0;
        if !rising && !chained(t, benches, jobs, standing, &mut walks) {
            return Err(2);
        }
        for (x, walk) in walks.first(benches + 1).iter().enumerate() {
            board.load.set(x, (walk >> 16) as i16);
        }
        (board.benches, board.jobs, board.standing, board.rising) = (benches, jobs, standing, rising);
    }
    Ok(())
}

/// Does the same out of line, for calls that go on with much else: built into them, the pass over the records had to share their registers
/// and took up to a tenth longer.
#[inline(never)]
pub fn read_apart(t: &[u8], board: &mut Board) -> Result<(), u32> {
    read(t, board)
}
