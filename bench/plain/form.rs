//! The form check: one pass over the records, then one walk along the chains with a mark for each job.

/// Reads word `i` of a table.
///
/// # Safety
/// `t` holds more than `2 * i + 1` bytes.
#[inline(always)]
pub unsafe fn word(t: &[u8], i: usize) -> usize {
    u16::from_le_bytes([*t.get_unchecked(2 * i), *t.get_unchecked(2 * i + 1)]) as usize
}

/// Reads B and J of a table whose sizes fit.
pub fn sizes(t: &[u8]) -> Option<(usize, usize)> {
    if t.len() % 2 != 0 || t.len() < 8 {
        return None;
    }
    // SAFETY: the table has at least four words.
    let (benches, jobs) = unsafe { (word(t, 0), word(t, 1)) };
    let fit = (1..=500).contains(&benches) && (1..=4000).contains(&jobs);
    (fit && t.len() == 2 * (4 + benches + 4 * jobs)).then_some((benches, jobs))
}

/// Counts the standing jobs' records, if each names two different benches of 1 to B and has holder 1 or 2.
unsafe fn standing(t: &[u8], benches: usize, jobs: usize) -> Option<usize> {
    let mut count = 0;
    for j in 1..=jobs {
        let at = benches + 4 * j;
        let (first, second) = (word(t, at), word(t, at + 1));
        let (holder, next) = (word(t, at + 2), word(t, at + 3));
        if first | second | holder | next == 0 {
            continue;
        }
        let named = |x: usize| 1 <= x && x <= benches;
        if !named(first) || !named(second) || first == second || holder < 1 || 2 < holder {
            return None;
        }
        count += 1;
    }
    Some(count)
}

/// Counts the jobs on all chains, if each is met once, on its holder's chain.
unsafe fn chained(t: &[u8], benches: usize, jobs: usize) -> Option<usize> {
    let mut marks = [std::mem::MaybeUninit::<bool>::uninit(); 4001];
    let met = &mut marks[..=jobs];
    met.fill(std::mem::MaybeUninit::new(false));
    let mut count = 0;
    for x in 1..=benches {
        let mut j = word(t, 3 + x);
        while j != 0 {
            if jobs < j || met.get_unchecked(j).assume_init() {
                return None;
            }
            met.get_unchecked_mut(j).write(true);
            let at = benches + 4 * j;
            let holder = word(t, at + 2);
            if holder == 0 || word(t, at + holder - 1) != x {
                return None;
            }
            count += 1;
            j = word(t, at + 3);
        }
    }
    Some(count)
}

/// Gives 0 for a sound table, else refusal 1 or 2.
pub fn form_check(t: &[u8]) -> u32 {
    let Some((benches, jobs)) = sizes(t) else {
        return 1;
    };
    // SAFETY: the sizes fit, so words 0 to 3 + B + 4 J are there; a chain's job is tested against J before it is followed, and the
    // records' holders are 1 or 2 before a chain is walked.
    unsafe {
        if word(t, 3) != 0 {
            return 2;
        }
        match standing(t, benches, jobs) {
            Some(count) if count == word(t, 2) && chained(t, benches, jobs) == Some(count) => 0,
            _ => 2,
        }
    }
}
