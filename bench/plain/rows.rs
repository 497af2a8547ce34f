//! Rows of numbers of fixed length, and writing a table's words, all without bounds checks.
use std::mem::MaybeUninit;

pub const MOST_BENCHES: usize = 500;
pub const MOST_JOBS: usize = 4000;

/// A number for each bench, or for each job, and one at 0.
pub type Benches = Row<{ MOST_BENCHES + 1 }>;
pub type Jobs = Row<{ MOST_JOBS + 1 }>;

/// N numbers of 16 bits, unset until written: a small board needs only the first of them.
pub struct Row<const N: usize>([MaybeUninit<u16>; N]);

impl<const N: usize> Row<N> {
    pub fn new() -> Self {
        Row([MaybeUninit::uninit(); N])
    }

    /// Sets the first `n` numbers to 0.
    pub fn clear(&mut self, n: usize) {
        self.0[..n].fill(MaybeUninit::new(0));
    }

    /// # Safety
    /// `i` is below N and its number was set.
    #[inline(always)]
    pub unsafe fn at(&self, i: usize) -> usize {
        self.0.get_unchecked(i).assume_init() as usize
    }

    /// # Safety
    /// `i` is below N.
    #[inline(always)]
    pub unsafe fn set(&mut self, i: usize, number: usize) {
        self.0.get_unchecked_mut(i).write(number as u16);
    }
}

/// Writes word `i` of a table.
///
/// # Safety
/// `t` holds more than `2 * i + 1` bytes.
#[inline(always)]
pub unsafe fn put(t: &mut [u8], i: usize, w: usize) {
    let [low, high] = (w as u16).to_le_bytes();
    *t.get_unchecked_mut(2 * i) = low;
    *t.get_unchecked_mut(2 * i + 1) = high;
}
