//! Plain code that nobody verified, to compare a cell with. Of a random walk it keeps what a cell keeps: a core with two doors,
//! the sorted content of its records, and a list of entries. `run.py` compiles it.
//!
//! The words are WHAT COUNT. `takes` takes so many values. `posts` takes them too, and after each one writes the count and the
//! held point for readers without a lock. `nothing` takes memory for the lists and no value. `device` writes so many values to
//! the file `historian.d/cell`: batches of 64, with two writes and two syncs each. It prints the nanoseconds of that work, and
//! the number of records (of `nothing` 1, of `device` 0).
use std::fs::OpenOptions;
use std::os::unix::fs::FileExt;
use std::sync::atomic::{AtomicU64, Ordering::SeqCst};
use std::time::Instant;

// How many slots the lane on the file has.
const LANE: u64 = 512;

#[derive(Clone, Copy)]
struct Point {
    t: u64,
    v: i64,
}

#[allow(dead_code)]
enum Query {
    At { t: u64 },
    Points { from: u64, to: u64 },
    Window { measure: u8, from: u64, to: u64 },
}

#[allow(dead_code)]
enum Reply {
    Exact(i64),
    Line { num: i128, den: u64 },
    Points { list: Vec<Point>, more: bool },
    Window(Option<i128>),
}

#[allow(dead_code)]
enum Entry {
    Take { collector: u32, row: u64, point: Point, held: Point, records: u32 },
    Ask { reader: u32, row: u64, query: Query, reply: Reply },
    Pull { group: u32, from: u32, upto: u32 },
    Commit { moment: u64, acked: u64 },
}

const EXC_DEV: u64 = 5;
const EXC_MAX: u64 = 600_000;
const COMP_DEV: i128 = 10;
const COMP_MAX: u64 = 28_800_000;

#[derive(Default)]
struct Core {
    records: Vec<(bool, Point)>,
    hinge: Option<Point>,
    held: Option<Point>,
    pending: Option<Point>,
    doors: Option<(Point, Point)>,
}

/// Whether the slope from `a` to `x` raised by `dx` is at most that to `y` raised by `dy`.
fn not_steeper(a: Point, x: Point, dx: i128, y: Point, dy: i128) -> bool {
    (x.v as i128 + dx - a.v as i128) * (y.t - a.t) as i128 <= (y.v as i128 + dy - a.v as i128) * (x.t - a.t) as i128
}

impl Core {
    /// The compression of a value that was sent in order.
    fn in_order(&mut self, p: Point) {
        let held = self.held.replace(p);
        let (Some(a), Some(q)) = (self.hinge, held) else {
            self.records.push((true, p));
            self.hinge = Some(p);
            return;
        };
        let Some((upper, lower)) = self.doors else {
            self.doors = Some((p, p));
            return;
        };
        let short = p.t - a.t <= COMP_MAX;
        if short && not_steeper(a, p, 0, upper, COMP_DEV) && not_steeper(a, lower, -COMP_DEV, p, 0) {
            let upper = if not_steeper(a, upper, COMP_DEV, p, COMP_DEV) { upper } else { p };
            let lower = if not_steeper(a, p, -COMP_DEV, lower, -COMP_DEV) { lower } else { p };
            self.doors = Some((upper, lower));
            return;
        }
        self.records.push((true, q));
        self.hinge = Some(q);
        self.doors = Some((p, p));
    }

    /// The exception test, and then the compression of what it sends.
    fn take(&mut self, p: Point) {
        let Some(last) = self.held else {
            return self.in_order(p);
        };
        let newest = self.pending.unwrap_or(last);
        if p.t <= newest.t {
            if let Some(q) = self.pending.take() {
                self.in_order(q);
            }
            self.records.push((false, p));
        } else if p.v.abs_diff(last.v) > EXC_DEV || p.t - last.t >= EXC_MAX {
            if let Some(q) = self.pending.take() {
                self.in_order(q);
            }
            self.in_order(p);
        } else {
            self.pending = Some(p);
        }
    }
}

/// Puts a point into a sorted list, in place of one at the same time.
fn put(content: &mut Vec<Point>, p: Point) {
    match content.binary_search_by_key(&p.t, |q| q.t) {
        Ok(i) => content[i] = p,
        Err(i) => content.insert(i, p),
    }
}

/// Four words with a version that is odd while they are written, as the board has them for each tag.
#[derive(Default)]
struct Shown {
    version: AtomicU64,
    words: [AtomicU64; 4],
}

impl Shown {
    fn post(&self, words: [u64; 4]) {
        let version = self.version.load(SeqCst);
        while self.version.compare_exchange(version, version + 1, SeqCst, SeqCst).is_err() {
            std::hint::spin_loop();
        }
        for (place, word) in self.words.iter().zip(words) {
            place.store(word, SeqCst);
        }
        self.version.store(version + 2, SeqCst);
    }
}

/// Takes a random walk of `count` values, with room for `room` values in the lists. Returns the nanoseconds and the records.
fn takes<const POSTS: bool>(count: u32, room: usize) -> (u128, usize) {
    let shown = Box::new(Shown::default());
    let mut core = Core { records: Vec::with_capacity(2 * room), ..Core::default() };
    let mut content: Vec<Point> = Vec::with_capacity(2 * room);
    let mut entries: Vec<Entry> = Vec::with_capacity(room);
    let start = Instant::now();
    let (mut state, mut p) = (1u64, Point { t: 0, v: 0 });
    for row in 0..count {
        state = state.wrapping_mul(6_364_136_223_846_793_005).wrapping_add(1_442_695_040_888_963_407);
        p.t += 1000;
        p.v += (state >> 33) as i64 % 7 - 3;
        let before = core.records.len();
        core.take(p);
        for i in before..core.records.len() {
            put(&mut content, core.records[i].1);
        }
        let held = core.held.expect("a held point");
        if POSTS {
            std::hint::black_box(&shown).post([row as u64 + 1, 1, held.t, held.v as u64]);
        }
        entries.push(Entry::Take { collector: 0, row: row as u64, point: p, held, records: core.records.len() as u32 });
    }
    (start.elapsed().as_nanos(), core.records.len().max(content.len()).max(usize::from(entries.is_empty())))
}

/// Writes `count` values in batches of 64 to the file. Returns the nanoseconds.
fn device(count: u32) -> std::io::Result<u128> {
    std::fs::create_dir_all("historian.d")?;
    let file = OpenOptions::new().create(true).truncate(true).read(true).write(true).open("historian.d/cell")?;
    file.write_all_at(&vec![0; (400 + LANE + LANE * 1034) as usize], 0)?;
    file.sync_all()?;
    let slot = vec![7u8; 1034];
    let start = Instant::now();
    for batch in 0..count as u64 / 64 {
        file.write_all_at(&slot, 400 + LANE + 1034 * (batch % LANE))?;
        file.sync_data()?;
        file.write_all_at(&[0xa5], 400 + batch % LANE)?;
        file.sync_data()?;
    }
    Ok(start.elapsed().as_nanos())
}

fn main() {
    let words: Vec<String> = std::env::args().skip(1).collect();
    let count: u32 = words[1].parse().expect("a number");
    let (took, records) = match words[0].as_str() {
        "takes" => takes::<false>(count, count as usize),
        "posts" => takes::<true>(count, count as usize),
        "nothing" => takes::<false>(0, count as usize),
        _ => (device(count).expect("a file"), 0),
    };
    println!("{took} {records}");
}
