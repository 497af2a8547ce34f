//! The walk along one chain of a table that nobody checked: every word is tested before it is used.
use super::form::word;
use super::refuse_if;
use super::work::Sizes;

/// What a walk came to: the job that names both benches, 0 for none, and the number of records read.
pub struct Walk {
    pub job: usize,
    pub records: usize,
}

/// Reads the chain of bench `x` up to a job that names bench `y` too, up to a number above `limit`, whose record is not read, or to its
/// end. Refuses with 2 at a record that may not be read.
///
/// # Safety
/// The sizes are the table's, and `x` is 1 to B.
pub unsafe fn walk(t: &[u8], s: Sizes, x: usize, y: usize, limit: usize) -> Result<Walk, u32> {
    let (mut before, mut j, mut records) = (0, word(t, 3 + x), 0);
    while j != 0 && j <= limit {
        refuse_if(j <= before || s.jobs < j, 2)?;
        records += 1;
        let other = other_named(t, s, x, j).ok_or(2u32)?;
        if other == y {
            return Ok(Walk { job: j, records });
        }
        (before, j) = (j, word(t, s.record(j) + 3));
    }
    Ok(Walk { job: 0, records })
}

/// Reads the other bench that job `j` names, if it names two different benches of 1 to B and bench `x` holds it.
///
/// # Safety
/// The sizes are the table's, and `j` is 1 to J.
unsafe fn other_named(t: &[u8], s: Sizes, x: usize, j: usize) -> Option<usize> {
    let at = s.record(j);
    let (held_by, other) = match word(t, at + 2) {
        1 => (word(t, at), word(t, at + 1)),
        2 => (word(t, at + 1), word(t, at)),
        _ => return None,
    };
    (held_by == x && other != x && 1 <= other && other <= s.benches).then_some(other)
}
