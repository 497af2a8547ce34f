//! The wall sheet, line after line.
use super::work::{Sizes, Work};

/// The bytes of a line: bench number and load, twelve jobs, a line feed.
const LINE: usize = HEAD + JOBS * FIELD + 1;
const HEAD: usize = 8;
const JOBS: usize = 12;
const FIELD: usize = 5;

/// Computes the length of the sheet.
///
/// # Safety
/// The sizes are the table's, whose loads the work has read.
pub unsafe fn length(s: Sizes, work: &Work) -> usize {
    let mut lines = 0;
    for x in 1..s.benches + 1 {
        lines += work.load.at(x).div_ceil(JOBS).max(1);
    }
    LINE * lines
}

/// Writes a number, right-aligned in blank columns that it fits into.
fn write_number(columns: &mut [u8], number: usize) {
    let mut rest = number;
    for column in columns.iter_mut().rev() {
        *column = b'0' + (rest % 10) as u8;
        rest /= 10;
        if rest == 0 {
            break;
        }
    }
}

/// Writes a line without bench number and load: up to twelve jobs, from `first` on. Gives the job after them, 0 for none.
///
/// # Safety
/// The work has listed the jobs, and `first` is one of them or 0.
unsafe fn write_line(line: &mut [u8; LINE], work: &Work, first: usize) -> usize {
    let mut j = first;
    line.fill(b' ');
    for columns in line[HEAD..LINE - 1].chunks_exact_mut(FIELD) {
        if j == 0 {
            break;
        }
        write_number(columns, j);
        j = work.out.next.at(j);
    }
    line[LINE - 1] = b'\n';
    j
}

/// Writes the sheet.
///
/// # Safety
/// The sizes are the table's, the work has read its loads and listed its jobs, and the page is at least as long as the sheet.
pub unsafe fn write(s: Sizes, work: &Work, page: &mut [u8]) {
    let mut lines = page.as_chunks_mut::<LINE>().0.iter_mut();
    for x in 1..s.benches + 1 {
        let line = lines.next().unwrap_unchecked();
        let mut j = write_line(line, work, work.out.head.at(x));
        write_number(&mut line[..3], x);
        write_number(&mut line[4..HEAD], work.load.at(x));
        while j != 0 {
            j = write_line(lines.next().unwrap_unchecked(), work, j);
        }
    }
}
