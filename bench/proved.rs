//! The proved calls, from the archive of crates/jobboard_c.

extern "C" {
    fn jobboard_blank(table: *mut u8, len: usize, benches: u32, jobs: u32) -> u32;
    fn jobboard_check(table: *const u8, len: usize) -> u32;
    fn jobboard_arrival(
        table: *mut u8,
        len: usize,
        job: u32,
        first: u32,
        second: u32,
        list: *mut u8,
        list_len: usize,
        holder: *mut u32,
        rose: *mut u32,
        moved: *mut u32,
    ) -> u32;
    fn jobboard_closing(table: *mut u8, len: usize, job: u32, list: *mut u8, list_len: usize, fell: *mut u32, moved: *mut u32) -> u32;
    fn jobboard_levelling(table: *mut u8, len: usize, allowance: u32, paths: *mut u32, level: *mut u32) -> u32;
    fn jobboard_level_check(table: *const u8, len: usize, level: *mut u32) -> u32;
    fn jobboard_load(table: *const u8, len: usize, bench: u32, load: *mut u32) -> u32;
    fn jobboard_heaviest(table: *const u8, len: usize, load: *mut u32) -> u32;
    fn jobboard_tight_set(
        table: *const u8,
        len: usize,
        height: u32,
        list: *mut u8,
        list_len: usize,
        benches: *mut u32,
        jobs: *mut u32,
    ) -> u32;
    fn jobboard_sheet(table: *const u8, len: usize, page: *mut u8, page_len: usize, length: *mut u32) -> u32;
    fn jobboard_between(table: *const u8, len: usize, first: u32, second: u32, job: *mut u32, records: *mut u32) -> u32;
}

/// What the results hold before a call: no call gives it, and a refused one leaves it.
const UNSET: u32 = 0xa5a5_a5a5;

fn values<const N: usize>(number: u32, results: [u32; N]) -> Result<[u32; N], u32> {
    if number == 0 {
        return Ok(results);
    }
    assert_eq!(results, [UNSET; N], "a call refused with {number} wrote a result");
    Err(number)
}

pub fn blank(t: &mut [u8], benches: u32, jobs: u32) -> u32 {
    // SAFETY: here and below, any bytes of the given length and any numbers are allowed, and results are written to numbers lent for it.
    unsafe { jobboard_blank(t.as_mut_ptr(), t.len(), benches, jobs) }
}

pub fn form_check(t: &[u8]) -> u32 {
    // SAFETY: as above.
    unsafe { jobboard_check(t.as_ptr(), t.len()) }
}

pub fn arrival(t: &mut [u8], job: u32, first: u32, second: u32, list: &mut [u8]) -> Result<[u32; 3], u32> {
    let [mut holder, mut rose, mut moved] = [UNSET; 3];
    // SAFETY: as above; the list is lent with its own length.
    let number = unsafe {
        jobboard_arrival(t.as_mut_ptr(), t.len(), job, first, second, list.as_mut_ptr(), list.len(), &mut holder, &mut rose, &mut moved)
    };
    values(number, [holder, rose, moved])
}

pub fn closing(t: &mut [u8], job: u32, list: &mut [u8]) -> Result<[u32; 2], u32> {
    let [mut fell, mut moved] = [UNSET; 2];
    // SAFETY: as above; the list is lent with its own length.
    let number = unsafe { jobboard_closing(t.as_mut_ptr(), t.len(), job, list.as_mut_ptr(), list.len(), &mut fell, &mut moved) };
    values(number, [fell, moved])
}

pub fn levelling(t: &mut [u8], allowance: u32) -> Result<[u32; 2], u32> {
    let [mut paths, mut level] = [UNSET; 2];
    // SAFETY: as above.
    let number = unsafe { jobboard_levelling(t.as_mut_ptr(), t.len(), allowance, &mut paths, &mut level) };
    values(number, [paths, level])
}

pub fn level_check(t: &[u8]) -> Result<[u32; 1], u32> {
    let mut level = UNSET;
    // SAFETY: as above.
    let number = unsafe { jobboard_level_check(t.as_ptr(), t.len(), &mut level) };
    values(number, [level])
}

pub fn load(t: &[u8], bench: u32) -> Result<[u32; 1], u32> {
    let mut load = UNSET;
    // SAFETY: as above.
    let number = unsafe { jobboard_load(t.as_ptr(), t.len(), bench, &mut load) };
    values(number, [load])
}

pub fn heaviest(t: &[u8]) -> Result<[u32; 1], u32> {
    let mut load = UNSET;
    // SAFETY: as above.
    let number = unsafe { jobboard_heaviest(t.as_ptr(), t.len(), &mut load) };
    values(number, [load])
}

pub fn tight_set(t: &[u8], height: u32, list: &mut [u8]) -> Result<[u32; 2], u32> {
    let [mut benches, mut jobs] = [UNSET; 2];
    // SAFETY: as above; the list is lent with its own length.
    let number = unsafe { jobboard_tight_set(t.as_ptr(), t.len(), height, list.as_mut_ptr(), list.len(), &mut benches, &mut jobs) };
    values(number, [benches, jobs])
}

pub fn sheet(t: &[u8], page: &mut [u8]) -> Result<[u32; 1], u32> {
    let mut length = UNSET;
    // SAFETY: as above; the page is lent with its own length.
    let number = unsafe { jobboard_sheet(t.as_ptr(), t.len(), page.as_mut_ptr(), page.len(), &mut length) };
    values(number, [length])
}

pub fn between(t: &[u8], first: u32, second: u32) -> Result<[u32; 2], u32> {
    let [mut job, mut records] = [UNSET; 2];
    // SAFETY: as above.
    let number = unsafe { jobboard_between(t.as_ptr(), t.len(), first, second, &mut job, &mut records) };
    values(number, [job, records])
}
