//! Words and records of a table, and room for numbers, all without bounds checks.
use std::mem::MaybeUninit;

pub const MOST_BENCHES: usize = 500;
pub const MOST_JOBS: usize = 4000;

/// The length of the largest table.
pub const MOST_BYTES: usize = 2 * (4 + MOST_BENCHES + 4 * MOST_JOBS);

/// Reads word `i` of a table.
///
/// # Safety
/// `t` holds more than `2 * i + 1` bytes.
#[inline(always)]
pub unsafe fn word(t: &[u8], i: usize) -> usize {
    debug_assert!(2 * i + 2 <= t.len());
    u16::from_le(t.as_ptr().add(2 * i).cast::<u16>().read_unaligned()) as usize
}

/// Writes word `i` of a table.
///
/// # Safety
/// `t` holds more than `2 * i + 1` bytes.
#[inline(always)]
pub unsafe fn put(t: &mut [u8], i: usize, w: usize) {
    debug_assert!(2 * i + 2 <= t.len());
    t.as_mut_ptr().add(2 * i).cast::<u16>().write_unaligned((w as u16).to_le());
}

/// The top bits of a record's first three words.
const TOPS: u64 = 0x8000_8000_8000;

/// The four words of a job, read as one number.
#[derive(Clone, Copy)]
pub struct Record(u64);

/// Reads the record of job `j`.
///
/// # Safety
/// `t` is as long as its `benches` and its J say, and `j` is 1 to J.
#[inline(always)]
pub unsafe fn record(t: &[u8], benches: usize, j: usize) -> Record {
    debug_assert!(1 <= j && 2 * (benches + 4 * j) + 8 <= t.len());
    Record(u64::from_le(t.as_ptr().add(2 * (benches + 4 * j)).cast::<u64>().read_unaligned()))
}

impl Record {
    pub fn empty(self) -> bool {
        self.0 == 0
    }

    pub fn first(self) -> usize {
        self.0 as u16 as usize
    }

    pub fn second(self) -> usize {
        (self.0 >> 16) as u16 as usize
    }

    pub fn holder(self) -> usize {
        (self.0 >> 32) as u16 as usize
    }

    pub fn next(self) -> usize {
        (self.0 >> 48) as usize
    }

    /// Gives the bench that holds the job; 0 for an empty record. Of the holders 1 and 2 only the latter has bit 1,
    /// here bit 33, set, which gives the 16 bits to pass over.
    #[inline(always)]
    pub fn bench(self) -> usize {
        (self.0 >> (self.0 >> 29 & 16)) as u16 as usize
    }

    /// Gives what `stands` compares with: B, B and 2, each with the top bit of its word set.
    pub fn limits(benches: usize) -> u64 {
        TOPS | benches as u64 | (benches as u64) << 16 | 2 << 32
    }

    /// Tells whether this is a standing job's record: two different benches of 1 to B, holder 1 or 2. All three words
    /// are compared at once: a word keeps its top bit in `low` if it is at least 1, in `high` if it is at most its
    /// limit. Nothing is carried out of a word that is within, so that the lowest of those outside lacks one of its
    /// two bits, whatever goes on above it.
    #[inline(always)]
    pub fn stands(self, limits: u64) -> bool {
        let low = self.0.wrapping_add(TOPS - 0x0001_0001_0001);
        let high = limits.wrapping_sub(self.0);
        (low & high & TOPS == TOPS) & ((self.0 ^ self.0 >> 16) as u16 != 0)
    }

    /// Gives the named bench that is not `x`.
    #[inline(always)]
    pub fn other(self, x: usize) -> usize {
        self.first() ^ self.second() ^ x
    }
}

/// Room for N values, unset until written, so that a small board does not pay for what a large one needs.
pub struct Slots<T: Copy, const N: usize>([MaybeUninit<T>; N]);

impl<T: Copy, const N: usize> Slots<T, N> {
    pub fn new() -> Self {
        Slots([const { MaybeUninit::uninit() }; N])
    }

    /// Sets the first `n` slots.
    pub fn fill(&mut self, n: usize, value: T) {
        self.0[..n].fill(MaybeUninit::new(value));
    }

    /// # Safety
    /// `i` is below N and slot `i` was set.
    #[inline(always)]
    pub unsafe fn at(&self, i: usize) -> T {
        self.0.get_unchecked(i).assume_init()
    }

    /// # Safety
    /// `i` is below N.
    #[inline(always)]
    pub unsafe fn set(&mut self, i: usize, value: T) {
        *self.0.get_unchecked_mut(i) = MaybeUninit::new(value);
    }

    /// Gives the first `n` slots.
    ///
    /// # Safety
    /// `n` is at most N and these slots were set.
    #[inline(always)]
    pub unsafe fn first(&self, n: usize) -> &[T] {
        debug_assert!(n <= N);
        std::slice::from_raw_parts(self.0.as_ptr().cast(), n)
    }
}
