//! Document 01 and the requests of 02, read word for word, however slow.
use std::cmp::Reverse;

/// A standing job: the two benches it names, and its holder, 0 for the first-named or 1.
type Job = ([usize; 2], usize);

/// The standing jobs by number, and B.
struct Board {
    benches: usize,
    jobs: Vec<Option<Job>>,
}

/// A path: its benches and, one fewer, its jobs.
type Path = (Vec<usize>, Vec<usize>);

impl Board {
    fn load(&self, bench: usize) -> usize {
        self.chain(bench).count()
    }

    fn heaviest(&self) -> usize {
        self.best(self.benches)
    }

    /// Gives the best load of the first benches, 0 for none of them.
    fn best(&self, counted: usize) -> usize {
        (1..=counted).map(|x| self.load(x)).max().unwrap_or(0)
    }

    /// Counts the standing jobs that the first benches do not hold.
    fn not_counted(&self, counted: usize) -> usize {
        self.jobs.iter().flatten().filter(|(names, holder)| counted < names[*holder]).count()
    }

    /// Lists the jobs that a bench holds, rising, and the other bench of each.
    fn chain(&self, bench: usize) -> impl Iterator<Item = (usize, usize)> + '_ {
        self.jobs.iter().enumerate().filter_map(move |(i, job)| match job {
            Some((names, holder)) if names[*holder] == bench => Some((i + 1, names[1 - holder])),
            _ => None,
        })
    }

    /// Adds every path that goes on from this one.
    fn go_on(&self, path: Path, paths: &mut Vec<Path>) {
        for (j, y) in self.chain(*path.0.last().unwrap()) {
            if !path.0.contains(&y) {
                let mut longer = path.clone();
                longer.0.push(y);
                longer.1.push(j);
                self.go_on(longer, paths);
            }
        }
        paths.push(path);
    }

    /// Lists all improving paths.
    fn improving(&self) -> Vec<Path> {
        let mut paths = vec![];
        for x in 1..=self.benches {
            self.go_on((vec![x], vec![]), &mut paths);
        }
        paths.retain(|p| self.load(first(p)) >= self.load(last(p)) + 2);
        paths
    }

    fn turn(&mut self, path: &Path) {
        for &j in &path.1 {
            let job = self.jobs[j - 1].as_mut().unwrap();
            job.1 = 1 - job.1;
        }
    }

    /// Orders by lowest last load, fewest jobs, lowest last bench, first list.
    fn arrival_order(&self, path: &Path) -> (usize, usize, usize, Vec<usize>) {
        (self.load(last(path)), path.1.len(), last(path), path.1.clone())
    }

    /// Writes the table of this board, its chains rising.
    fn table(&self) -> Vec<u8> {
        let standing = self.jobs.iter().flatten().count();
        let mut words = vec![self.benches, self.jobs.len(), standing, 0];
        words.extend((1..=self.benches).map(|x| self.chain(x).next().map_or(0, |(j, _)| j)));
        for (i, job) in self.jobs.iter().enumerate() {
            match job {
                None => words.extend([0; 4]),
                Some((names, holder)) => {
                    let next = self.chain(names[*holder]).map(|(j, _)| j).find(|&j| j > i + 1);
                    words.extend([names[0], names[1], holder + 1, next.unwrap_or(0)]);
                }
            }
        }
        words.into_iter().flat_map(|w| (w as u16).to_le_bytes()).collect()
    }
}

fn first(path: &Path) -> usize {
    path.0[0]
}

fn last(path: &Path) -> usize {
    *path.0.last().unwrap()
}

fn fits(len: usize, benches: u32, jobs: u32) -> bool {
    let within = (1..=500).contains(&benches) && (1..=4000).contains(&jobs);
    len % 2 == 0 && len >= 8 && within && len == 2 * (4 + benches as usize + 4 * jobs as usize)
}

/// Lists the jobs on a chain; None if it meets an empty record, a number above J or a job twice.
fn follow(words: &[usize], benches: usize, jobs: usize, x: usize) -> Option<Vec<usize>> {
    let mut met = vec![];
    let mut j = words[3 + x];
    while j != 0 {
        if j > jobs || met.contains(&j) || words[benches + 4 * j..][..4] == [0; 4] {
            return None;
        }
        met.push(j);
        j = words[benches + 4 * j + 3];
    }
    Some(met)
}

/// Reads the words of a table, or refuses with 1.
fn words(t: &[u8]) -> Result<Vec<usize>, u32> {
    let words: Vec<usize> = t.chunks(2).map(|w| w.iter().rev().fold(0, |n, &b| 256 * n + b as usize)).collect();
    if t.len() < 8 || !fits(t.len(), words[0] as u32, words[1] as u32) {
        return Err(1);
    }
    Ok(words)
}

/// Reads the board that a table holds, or refuses with 1 or 2.
fn read(t: &[u8]) -> Result<Board, u32> {
    let words = words(t)?;
    let (benches, jobs) = (words[0], words[1]);
    let mut board = Board { benches, jobs: vec![None; jobs] };
    for j in 1..=jobs {
        let record = &words[benches + 4 * j..][..4];
        if record == [0; 4] {
            continue;
        }
        let [x, y, holder] = [record[0], record[1], record[2]];
        if x < 1 || benches < x || y < 1 || benches < y || x == y || holder < 1 || 2 < holder {
            return Err(2);
        }
        board.jobs[j - 1] = Some(([x, y], holder - 1));
    }
    if words[2] != board.jobs.iter().flatten().count() || words[3] != 0 {
        return Err(2);
    }
    for x in 1..=benches {
        let mut met = follow(&words, benches, jobs, x).ok_or(2u32)?;
        met.sort();
        if met != board.chain(x).map(|(j, _)| j).collect::<Vec<_>>() {
            return Err(2);
        }
    }
    Ok(board)
}

pub fn form_check(t: &[u8]) -> u32 {
    read(t).err().unwrap_or(0)
}

pub fn blank(t: &mut [u8], benches: u32, jobs: u32) -> u32 {
    if !fits(t.len(), benches, jobs) {
        return 1;
    }
    t.copy_from_slice(&Board { benches: benches as usize, jobs: vec![None; jobs as usize] }.table());
    0
}

/// Refuses with the first number whose condition holds.
fn refusal(conditions: &[(u32, bool)]) -> Result<(), u32> {
    conditions.iter().find(|c| c.1).map_or(Ok(()), |c| Err(c.0))
}

/// Writes numbers as words into a list, or refuses with 8.
fn write_words(list: &mut [u8], numbers: &[usize]) -> Result<(), u32> {
    refusal(&[(8, list.len() < 2 * numbers.len())])?;
    for (i, &n) in numbers.iter().enumerate() {
        list[2 * i..2 * i + 2].copy_from_slice(&(n as u16).to_le_bytes());
    }
    Ok(())
}

pub fn arrival(t: &mut [u8], job: u32, x: u32, y: u32, list: &mut [u8]) -> Result<[u32; 3], u32> {
    let mut board = read(t)?;
    let (j, names) = (job as usize, [x as usize, y as usize]);
    let numbered = 1 <= j && j <= board.jobs.len();
    let named = names.iter().all(|&x| 1 <= x && x <= board.benches) && x != y;
    refusal(&[(3, !numbered), (4, !named), (5, numbered && board.jobs[j - 1].is_some())])?;
    let holder = (board.load(names[1]) < board.load(names[0])) as usize;
    board.jobs[j - 1] = Some((names, holder));
    let (mut rose, mut moved) = (names[holder], vec![]);
    let paths = board.improving().into_iter().filter(|p| first(p) == names[holder]);
    if let Some(path) = paths.min_by_key(|p| board.arrival_order(p)) {
        board.turn(&path);
        rose = last(&path);
        moved = path.1.into_iter().filter(|&k| k != j).collect();
    }
    write_words(list, &moved)?;
    t.copy_from_slice(&board.table());
    let holds = names[board.jobs[j - 1].unwrap().1];
    Ok([holds as u32, rose as u32, moved.len() as u32])
}

pub fn closing(t: &mut [u8], job: u32, list: &mut [u8]) -> Result<[u32; 2], u32> {
    let mut board = read(t)?;
    let j = job as usize;
    let numbered = 1 <= j && j <= board.jobs.len();
    refusal(&[(3, !numbered), (6, numbered && board.jobs[j - 1].is_none())])?;
    let (names, holder) = board.jobs[j - 1].take().unwrap();
    let (mut fell, mut moved) = (names[holder], vec![]);
    let paths = board.improving().into_iter().filter(|p| last(p) == names[holder]);
    if let Some(path) = paths.min_by_key(|p| (Reverse(board.load(first(p))), p.1.len(), first(p), p.1.clone())) {
        board.turn(&path);
        fell = first(&path);
        moved = path.1;
    }
    write_words(list, &moved)?;
    t.copy_from_slice(&board.table());
    Ok([fell as u32, moved.len() as u32])
}

pub fn levelling(t: &mut [u8], allowance: u32) -> Result<[u32; 2], u32> {
    let mut board = read(t)?;
    let mut turned = 0;
    let level = loop {
        let paths = board.improving();
        let chosen = paths.iter().min_by_key(|p| (Reverse(board.load(first(p))), first(p), board.arrival_order(p)));
        match chosen {
            None => break 1,
            Some(_) if turned == allowance => break 0,
            Some(path) => board.turn(path),
        }
        turned += 1;
    };
    t.copy_from_slice(&board.table());
    Ok([turned, level])
}

pub fn level_check(t: &[u8]) -> Result<[u32; 1], u32> {
    Ok([read(t)?.improving().is_empty() as u32])
}

pub fn load(t: &[u8], bench: u32) -> Result<[u32; 1], u32> {
    let board = read(t)?;
    refusal(&[(4, bench < 1 || (board.benches as u32) < bench)])?;
    Ok([board.load(bench as usize) as u32])
}

/// Counts benches from bench 1 up, and ends as soon as the standing jobs not yet counted are no more than the best load so far.
pub fn heaviest(t: &[u8]) -> Result<[u32; 1], u32> {
    let board = read(t)?;
    let mut counted = 0;
    while board.not_counted(counted) > board.best(counted) {
        counted += 1;
    }
    let best = board.best(counted);
    assert_eq!(best, board.heaviest(), "not the greatest load of all benches after {counted} of them");
    Ok([best as u32])
}

pub fn tight_set(t: &[u8], height: u32, list: &mut [u8]) -> Result<[u32; 2], u32> {
    let board = read(t)?;
    refusal(&[(7, height == 0 || (board.heaviest() as u32) < height)])?;
    let mut set: Vec<usize> = (1..=board.benches).filter(|&x| board.load(x) >= height as usize).collect();
    while let Some(y) = set.iter().flat_map(|&x| board.chain(x)).map(|(_, y)| y).find(|y| !set.contains(y)) {
        set.push(y);
    }
    set.sort();
    write_words(list, &set)?;
    let inside = board.jobs.iter().flatten().filter(|(names, _)| names.iter().all(|x| set.contains(x)));
    Ok([set.len() as u32, inside.count() as u32])
}

pub fn sheet(t: &[u8], page: &mut [u8]) -> Result<[u32; 1], u32> {
    let board = read(t)?;
    let mut sheet = String::new();
    for x in 1..=board.benches {
        let mut line = format!("{x:3} {:4}", board.load(x));
        for (i, (j, _)) in board.chain(x).enumerate() {
            if i > 0 && i % 12 == 0 {
                sheet += &format!("{line:68}\n");
                line = " ".repeat(8);
            }
            line += &format!("{j:5}");
        }
        sheet += &format!("{line:68}\n");
    }
    refusal(&[(11, page.len() < sheet.len())])?;
    page[..sheet.len()].copy_from_slice(sheet.as_bytes());
    Ok([sheet.len() as u32])
}

/// A match, and the number of records read.
type Read = (Option<usize>, usize);

/// Reads the chain of bench x up to a match with bench y, a number above the first match, or its end.
fn up_to_a_match(words: &[usize], x: usize, y: usize, first_match: Option<usize>) -> Result<Read, u32> {
    let (benches, jobs) = (words[0], words[1]);
    let mut read = vec![];
    let mut j = words[3 + x];
    while j != 0 && first_match.is_none_or(|m| j <= m) {
        let above = read.last().is_none_or(|&before| before < j);
        refusal(&[(2, j > jobs || !above)])?;
        read.push(j);
        let record = &words[benches + 4 * j..][..4];
        let (names, holder) = (&record[..2], record[2]);
        let named = names.iter().all(|z| (1..=benches).contains(z)) && names[0] != names[1];
        refusal(&[(2, !named || !(1..=2).contains(&holder) || names[holder - 1] != x)])?;
        if names.contains(&y) {
            return Ok((Some(j), read.len()));
        }
        j = record[3];
    }
    Ok((None, read.len()))
}

/// Reads the first bench's chain, then the second's.
fn both_chains(words: &[usize], x: usize, y: usize) -> Result<Read, u32> {
    let (first, read_first) = up_to_a_match(words, x, y, None)?;
    let (second, read_second) = up_to_a_match(words, y, x, first)?;
    Ok((first.into_iter().chain(second).min(), read_first + read_second))
}

/// Holds an answer on a sound table with rising chains against that of reading everything, and the records read against the two loads.
fn hold(board: &Board, x: usize, y: usize, answer: Result<Read, u32>) {
    let (lowest, read) = answer.expect("refused on a sound table with rising chains");
    let both = |job: &Option<Job>| job.is_some_and(|(names, _)| names.contains(&x) && names.contains(&y));
    assert_eq!(lowest, board.jobs.iter().position(both).map(|i| i + 1), "not the lowest job between {x} and {y}");
    assert!(read <= board.load(x) + board.load(y), "more records read than {x} and {y} hold");
}

pub fn between(t: &[u8], x: u32, y: u32) -> Result<[u32; 2], u32> {
    let words = words(t)?;
    let named = [x, y].iter().all(|&x| 1 <= x && x <= words[0] as u32);
    refusal(&[(4, !named || x == y)])?;
    let [x, y] = [x as usize, y as usize];
    let answer = both_chains(&words, x, y);
    if let Some(board) = read(t).ok().filter(|board| board.table() == t) {
        hold(&board, x, y, answer);
    }
    let (lowest, read) = answer?;
    Ok([lowest.unwrap_or(0) as u32, read as u32])
}
