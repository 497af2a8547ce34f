//! The wall sheet. The form check knows the loads, and these tell where each bench's lines begin: one pass over the records puts every
//! job in its place, whatever the order of the chains is.
use super::form::Board;
use super::words::*;

/// The bytes of a line: bench number and load, twelve jobs, a line feed.
const LINE: usize = HEAD + JOBS * FIELD + 1;
const HEAD: usize = 8;
const JOBS: usize = 12;
const FIELD: usize = 5;

/// A number in four columns, right-aligned, the first column in the lowest byte.
type Text = u32;

/// The texts of all loads and jobs.
static TEXTS: [Text; MOST_JOBS + 1] = texts();

const fn texts() -> [Text; MOST_JOBS + 1] {
    let mut texts = [u32::from_le_bytes(*b"   0"); MOST_JOBS + 1];
    let mut n = 1;
    while n <= MOST_JOBS {
        let (mut columns, mut rest, mut at) = (*b"    ", n, 4);
        while rest != 0 {
            at -= 1;
            columns[at] = b'0' + (rest % 10) as u8;
            rest /= 10;
        }
        texts[n] = u32::from_le_bytes(columns);
        n += 1;
    }
    texts
}

/// Counts the lines of a bench with this load.
fn lines(load: i16) -> usize {
    (load.max(1) as usize).div_ceil(JOBS)
}

/// Computes the length of a sheet.
pub fn length(board: &Board) -> usize {
    LINE * board.loads().iter().map(|&load| lines(load)).sum::<usize>()
}

/// For each bench where the digits of its next job go, in the low half, and how many more jobs that line takes, in the high half. A sheet
/// is no longer than 57,477 bytes.
type Places = Slots<u32, { MOST_BENCHES + 1 }>;

/// The place of the first job on the line that begins at 0.
const FIRST: u32 = (JOBS << 16 | HEAD + FIELD - 4) as u32;

/// What leads from behind the last job on a line to the first on the next.
const NEXT_LINE: u32 = (JOBS << 16 | LINE - JOBS * FIELD) as u32;

/// Gives the place after one that is taken.
#[inline(always)]
fn after(place: u32) -> u32 {
    let next = place - 0x1_0000 + FIELD as u32;
    if next < 0x1_0000 {
        next + NEXT_LINE
    } else {
        next
    }
}

/// Writes bench numbers, loads and line feeds on a page of blanks. Notes where the jobs go.
///
/// # Safety
/// `board` is a sound table's, and the page as long as its sheet.
unsafe fn write_heads(board: &Board, page: *mut u8, places: &mut Places) {
    let mut begin = 0;
    for x in 1..board.benches + 1 {
        let load = board.load.at(x);
        // Three columns of the bench's text, a blank, and the load's text.
        let bench = *TEXTS.get_unchecked(x) >> 8 | (b' ' as u32) << 24;
        let head = (*TEXTS.get_unchecked(load as usize) as u64) << 32 | bench as u64;
        page.add(begin).cast::<u64>().write_unaligned(head.to_le());
        places.set(x, begin as u32 + FIRST);
        for _ in 0..lines(load) {
            begin += LINE;
            *page.add(begin - 1) = b'\n';
        }
    }
}

/// Writes the sheet.
///
/// # Safety
/// The table is sound, `board` what it holds, and the page as long as the sheet.
pub unsafe fn write(t: &[u8], board: &Board, page: &mut [u8]) {
    page.fill(b' ');
    let mut places = Places::new();
    let page = page.as_mut_ptr();
    write_heads(board, page, &mut places);
    for j in 1..board.jobs + 1 {
        let r = record(t, board.benches, j);
        if r.empty() {
            continue;
        }
        let place = places.at(r.bench());
        page.add(place as u16 as usize).cast::<u32>().write_unaligned(TEXTS.get_unchecked(j).to_le());
        places.set(r.bench(), after(place));
    }
}
