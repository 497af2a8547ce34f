//! Tables to measure with and to compare on.

/// Xorshift: the same tables in every run.
pub struct Random(pub u64);

impl Random {
    pub fn below(&mut self, n: usize) -> usize {
        self.0 ^= self.0 << 13;
        self.0 ^= self.0 >> 7;
        self.0 ^= self.0 << 17;
        (self.0 % n as u64) as usize
    }

    pub fn shuffle<T>(&mut self, items: &mut [T]) {
        for i in (1..items.len()).rev() {
            items.swap(i, self.below(i + 1));
        }
    }
}

/// Writes word i of a table.
pub fn put(t: &mut [u8], i: usize, w: usize) {
    t[2 * i..2 * i + 2].copy_from_slice(&(w as u16).to_le_bytes());
}

/// Reads word i of a table.
pub fn get(t: &[u8], i: usize) -> usize {
    u16::from_le_bytes([t[2 * i], t[2 * i + 1]]) as usize
}

/// Reads B and J of a table that fits.
pub fn sizes(t: &[u8]) -> (usize, usize) {
    (get(t, 0), get(t, 1))
}

/// Tells whether job j stands.
pub fn stands(t: &[u8], benches: usize, j: usize) -> bool {
    (0..4).any(|k| get(t, benches + 4 * j + k) != 0)
}

/// Counts the jobs that each bench of a sound table holds, bench 1 first.
pub fn loads(t: &[u8]) -> Vec<usize> {
    let (benches, jobs) = sizes(t);
    let mut loads = vec![0; benches];
    for j in (1..=jobs).filter(|&j| stands(t, benches, j)) {
        let holder = get(t, benches + 4 * j + 2);
        loads[get(t, benches + 4 * j + holder - 1) - 1] += 1;
    }
    loads
}

/// Gives the length of a sound table's sheet: lines of 69 bytes, twelve jobs on each, and for each bench at least one.
pub fn sheet_length(t: &[u8]) -> usize {
    loads(t).iter().map(|load| 69 * load.div_ceil(12).max(1)).sum()
}

/// A job number, the two benches it names, and which of them holds it (1 or 2).
pub type Job = (usize, [usize; 2], usize);

/// Makes the sound table of these jobs, pushed onto the chains one after the other.
pub fn table(benches: usize, jobs: usize, standing: &[Job]) -> Vec<u8> {
    let mut t = vec![0; 2 * (4 + benches + 4 * jobs)];
    put(&mut t, 0, benches);
    put(&mut t, 1, jobs);
    put(&mut t, 2, standing.len());
    for &(j, [first, second], holder) in standing {
        let head = 3 + [first, second][holder - 1];
        let behind = get(&t, head);
        for (k, w) in [first, second, holder, behind].into_iter().enumerate() {
            put(&mut t, benches + 4 * j + k, w);
        }
        put(&mut t, head, j);
    }
    t
}

/// Picks two random benches.
pub fn two_benches(benches: usize, random: &mut Random) -> [usize; 2] {
    let first = random.below(benches);
    let second = (first + 1 + random.below(benches - 1)) % benches;
    [first + 1, second + 1]
}

/// Picks two random benches for job j, held by either.
fn random_job(j: usize, benches: usize, random: &mut Random) -> Job {
    (j, two_benches(benches, random), 1 + random.below(2))
}

/// Makes a table without jobs.
pub fn blank(benches: usize, jobs: usize) -> Vec<u8> {
    table(benches, jobs, &[])
}

/// Makes every job stand, with two random benches; chains rise.
pub fn full(benches: usize, jobs: usize, random: &mut Random) -> Vec<u8> {
    pairs(benches, jobs, jobs, random)
}

/// Makes the first jobs stand, with two random benches; chains rise.
pub fn pairs(benches: usize, standing: usize, jobs: usize, random: &mut Random) -> Vec<u8> {
    let standing: Vec<_> = (1..=standing).rev().map(|j| random_job(j, benches, random)).collect();
    table(benches, jobs, &standing)
}

/// Makes two of three jobs stand, with random benches; chains are in no order.
pub fn mixed(benches: usize, jobs: usize, random: &mut Random) -> Vec<u8> {
    let mut numbers: Vec<_> = (1..=jobs).filter(|_| random.below(3) != 0).collect();
    random.shuffle(&mut numbers);
    let standing: Vec<_> = numbers.into_iter().map(|j| random_job(j, benches, random)).collect();
    table(benches, jobs, &standing)
}

/// Gives the benches that job j of a ring names: bench j and the next one, round and round.
pub fn neighbours(j: usize, benches: usize) -> [usize; 2] {
    [(j - 1) % benches + 1, j % benches + 1]
}

/// Makes a ring, each job held by the first of its benches.
pub fn ring(benches: usize, jobs: usize) -> Vec<u8> {
    let standing: Vec<_> = (1..=jobs).rev().map(|j| (j, neighbours(j, benches), 1)).collect();
    table(benches, jobs, &standing)
}

/// Gives the benches that job j of a heap names: bench 1 and one of the others, these in turn.
fn first_and_other(j: usize, benches: usize) -> [usize; 2] {
    [1, 2 + (j - 1) % (benches - 1)]
}

/// Gives bench 1 the first jobs, which name the others in turn.
pub fn heap(benches: usize, standing: usize, jobs: usize) -> Vec<u8> {
    let standing: Vec<_> = (1..=standing).rev().map(|j| (j, first_and_other(j, benches), 1)).collect();
    table(benches, jobs, &standing)
}

/// Gives bench 1 nine jobs in ten, and each tenth job to one of the others, these in turn. Every job stands; chains rise.
pub fn nearly_heap(benches: usize, jobs: usize) -> Vec<u8> {
    let job = |j: usize| match j % 10 {
        0 => (j, first_and_other(j / 10, benches), 2),
        _ => (j, first_and_other(j, benches), 1),
    };
    let standing: Vec<_> = (1..=jobs).rev().map(job).collect();
    table(benches, jobs, &standing)
}

/// Gives the benches of job k of a layer of the path boards: it leads from bench k to the next one, and from the last
/// bench back to the one before. A layer gives each bench one job.
fn layer_job(k: usize, benches: usize) -> [usize; 2] {
    if k < benches {
        [k, k + 1]
    } else {
        [benches, benches - 1]
    }
}

/// Makes all jobs but one stand, every bench but the last with the same load, the last with one less. All ways to the
/// last bench go through every bench between: an arrival that another bench gets moves as many jobs as it is benches
/// away. J is a multiple of B.
pub fn long_path(benches: usize, jobs: usize) -> Vec<u8> {
    let place = |j: usize| if j < benches { j } else { (j - benches) % benches + 1 };
    let standing: Vec<_> = (1..jobs).rev().map(|j| (j, layer_job(place(j), benches), 1)).collect();
    table(benches, jobs, &standing)
}

/// Gives every bench the same load, and bench 1 one job more, number J: closing job k, which bench k holds, moves
/// k - 1 jobs. All loads but the first must be equal for that, so that at 500 benches 3,501 of the 4,000 jobs stand.
pub fn long_path_back(benches: usize, jobs: usize) -> Vec<u8> {
    let layered = (jobs - 1) / benches * benches;
    let mut standing = vec![(jobs, [1, 2], 1)];
    standing.extend((1..=layered).rev().map(|j| (j, layer_job((j - 1) % benches + 1, benches), 1)));
    table(benches, jobs, &standing)
}

/// Gives each bench as many jobs as `load` says, which lead to the bench that `next` gives: numbered layer by layer, one
/// job of every bench in each.
fn in_layers(benches: usize, jobs: usize, load: impl Fn(usize) -> usize, next: impl Fn(usize) -> usize) -> Vec<u8> {
    let mut standing: Vec<Job> = vec![];
    for layer in 0..jobs {
        for x in (1..=benches).filter(|&x| layer < load(x)) {
            standing.push((standing.len() + 1, [x, next(x)], 1));
        }
    }
    standing.reverse();
    table(benches, jobs, &standing)
}

/// Leads from bench 1 to the next and so on. The last bench has no job and none leads to it, so that an arrival at benches
/// 1 and 2 searches all others for it; it moves so many jobs, 2 to B - 2, since the bench that they lead to has one less
/// than its like.
pub fn searched_out(benches: usize, jobs: usize, moved: usize) -> Vec<u8> {
    let like = (jobs - 1) / benches;
    let load = |x| match x {
        _ if x == benches => 0,
        _ if x == 1 + moved => like - 1,
        _ => like,
    };
    in_layers(benches, jobs, load, |x| if x + 1 < benches { x + 1 } else { x - 1 })
}

/// Leads from bench 1, the heaviest, to the next and so on. A closing of job B - 1, which the last bench but one holds,
/// searches all benches from there. If they lead to that bench it moves B - 2 jobs, else one job of the last bench, which
/// leads there and is the next heaviest.
pub fn searched_back(benches: usize, jobs: usize, led: bool) -> Vec<u8> {
    let like = (jobs - 3) / benches;
    let load = |x| match x {
        1 => like + 2,
        _ if x == benches => like + 1,
        _ => like,
    };
    let next = |x| match benches - x {
        0 | 1 => x - 1,
        2 if !led => x - 1,
        _ => x + 1,
    };
    in_layers(benches, jobs, load, next)
}

/// Changes the length, empties a record, or writes one or two words anew: small, copied from elsewhere, or any.
pub fn damage(t: &mut Vec<u8>, random: &mut Random) {
    let words = t.len() / 2;
    match random.below(12) {
        0 => t.truncate(random.below(t.len() + 1)),
        1 => t.extend(std::iter::repeat(0).take(1 + random.below(9))),
        2 => {
            let at = 4 + get(t, 0) + 4 * random.below(get(t, 1));
            t[2 * at..2 * at + 8].fill(0);
        }
        _ => {
            for _ in 0..1 + random.below(2) {
                let w = match random.below(3) {
                    0 => random.below(8),
                    1 => get(t, random.below(words)),
                    _ => random.below(65536),
                };
                put(t, random.below(words), w);
            }
        }
    }
}
