//! Figures of several processes: each process prints its own as lines, and the lines of all are read together.
use std::fs::read_to_string;

/// A row of a table: its first cells, the same in every process, and the figures that each process measured.
pub struct Row {
    pub cells: Vec<String>,
    processes: Vec<Vec<f64>>,
}

/// The median of the processes' figures, the lowest and the highest.
pub struct Spread {
    pub median: f64,
    low: f64,
    high: f64,
}

impl Spread {
    fn of(mut figures: Vec<f64>) -> Spread {
        figures.sort_by(f64::total_cmp);
        let last = figures.len() - 1;
        let median = (figures[last / 2] + figures[figures.len() / 2]) / 2.0;
        Spread { median, low: figures[0], high: figures[last] }
    }

    /// Writes the median and, in brackets, the lowest and the highest.
    pub fn cell(&self, write: impl Fn(f64) -> String) -> String {
        format!("{} ({} to {})", write(self.median), write(self.low), write(self.high))
    }
}

impl Row {
    /// Gives the spread of a figure.
    pub fn figure(&self, i: usize) -> Spread {
        Spread::of(self.processes.iter().map(|figures| figures[i]).collect())
    }

    /// Gives the spread of the ratio of two figures, which is taken in each process. It must be a positive number: another one would
    /// be below what is allowed, or not above it.
    pub fn ratio(&self, over: usize, under: usize) -> Spread {
        let ratios: Vec<_> = self.processes.iter().map(|figures| figures[over] / figures[under]).collect();
        assert!(ratios.iter().all(|ratio| ratio.is_finite() && *ratio > 0.0), "{:?} has ratios {ratios:?}", self.cells);
        Spread::of(ratios)
    }

    /// Reads the whole number in a cell.
    pub fn number(&self, cell: usize) -> usize {
        self.cells[cell].parse().unwrap()
    }

    /// Prints the row, other cells after its own.
    pub fn print(&self, more: &[String]) {
        println!("| {} |", [&self.cells, more].concat().join(" | "));
    }
}

/// Prints a row's figures as a line: the table, the cells, the figures, tabs between them.
pub fn print_line(table: &str, cells: &[String], figures: &[f64]) {
    let figures = figures.iter().map(|figure| format!("\t{figure}"));
    println!("{table}\t{}{}", cells.join(" | "), figures.collect::<String>());
}

/// Reads a line of a table: its cells and its figures. None for the line of another table.
fn line(table: &str, line: &str) -> Option<(Vec<String>, Vec<f64>)> {
    let mut fields = line.strip_prefix(table)?.strip_prefix('\t')?.split('\t');
    let cells = fields.next()?.split(" | ").map(String::from).collect();
    Some((cells, fields.map(|figure| figure.parse().unwrap()).collect()))
}

/// Reads a table from the lines of all processes, a file of each. They must have the same rows.
pub fn rows(table: &str, files: &[String]) -> Vec<Row> {
    let mut rows: Vec<Row> = vec![];
    for file in files {
        for (cells, figures) in read_to_string(file).unwrap().lines().filter_map(|text| line(table, text)) {
            match rows.iter_mut().find(|row| row.cells == cells) {
                Some(row) => row.processes.push(figures),
                None => rows.push(Row { cells, processes: vec![figures] }),
            }
        }
    }
    assert!(rows.iter().all(|row| row.processes.len() == files.len()), "the processes' rows of {table:?} differ");
    rows
}

/// Prints what a table shows, and its head.
pub fn head(shows: &str, columns: &str) {
    println!("\n{shows}\n\n| {columns} |");
    println!("|{}", "---|".repeat(columns.split(" | ").count()));
}

/// Writes a time in three digits or more, a short one to a tenth of a nanosecond.
pub fn micros(time: f64) -> String {
    let places = match time {
        _ if time < 0.1 => 4,
        _ if time < 1.0 => 3,
        _ if time < 100.0 => 2,
        _ => 0,
    };
    format!("{time:.places$}")
}

/// Writes a ratio with two places.
pub fn two_places(ratio: f64) -> String {
    format!("{ratio:.2}")
}
