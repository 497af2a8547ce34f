//! The heaviest load as document 02 has it: benches are counted from bench 1 up, until the jobs not counted are no more than the best load.

/// The benches that are counted at once as long as the end is not among them. One at a time 500 benches took 340 ns, so many at a time 60;
/// the code for more, or for two sizes of block, made the whole call no faster.
const BLOCK: usize = 16;

/// What the benches counted so far show: the best of their loads, 0 at the start, and how many standing jobs they do not hold.
#[derive(Clone, Copy)]
struct Counted {
    best: i16,
    left: i16,
}

impl Counted {
    /// Counts benches with these loads, too.
    fn and(self, loads: &[i16]) -> Counted {
        let best = loads.iter().fold(self.best, |best, &load| best.max(load));
        Counted { best, left: self.left - loads.iter().sum::<i16>() }
    }

    /// Tells whether no bench that is left can have more than the best load. Once it is so it stays so, however many more are counted.
    fn ended(self) -> bool {
        self.left <= self.best
    }
}

/// Counts whole blocks up to the one with the end. Gives what they show, and the loads of that block, or of those after the last one.
fn whole_blocks(mut counted: Counted, loads: &[i16]) -> (Counted, &[i16]) {
    let (blocks, rest) = loads.as_chunks::<BLOCK>();
    for block in blocks {
        let with = counted.and(block);
        if with.ended() {
            return (counted, block);
        }
        counted = with;
    }
    (counted, rest)
}

/// Gives the heaviest load, by the loads of all benches, bench 1 first, and the number of standing jobs.
#[inline(always)]
pub fn heaviest(loads: &[i16], standing: usize) -> i16 {
    let (mut counted, rest) = whole_blocks(Counted { best: 0, left: standing as i16 }, loads);
    for &load in rest {
        if counted.ended() {
            break;
        }
        counted = counted.and(&[load]);
    }
    counted.best
}
