//! A plain packer with two doors that nobody verified, to compare `historian pack` with. It takes the same words and prints the
//! same lines. It reads all of the input first. `run.py` compiles it.
use std::io::{Read, Write};

#[derive(Clone, Copy)]
struct Point {
    t: u64,
    v: i64,
}

struct Tuning {
    exc_dev: u64,
    exc_max: u64,
    comp_dev: i128,
    comp_min: u64,
    comp_max: u64,
}

#[derive(Default)]
struct Archive {
    records: Vec<(bool, Point)>,
    hinge: Option<Point>,
    held: Option<Point>,
    doors: Option<(Point, Point)>,
}

/// Whether the slope from `a` to `x` raised by `dx` is at most that to `y` raised by `dy`.
fn not_steeper(a: Point, x: Point, dx: i128, y: Point, dy: i128) -> bool {
    (x.v as i128 + dx - a.v as i128) * (y.t - a.t) as i128 <= (y.v as i128 + dy - a.v as i128) * (x.t - a.t) as i128
}

impl Archive {
    /// The compression of a value that was sent in order.
    fn take_in_order(&mut self, tuning: &Tuning, p: Point) {
        let held = self.held.replace(p);
        let (Some(a), Some(q)) = (self.hinge, held) else {
            self.records.push((true, p));
            self.hinge = Some(p);
            return;
        };
        let Some((upper, lower)) = self.doors else {
            self.doors = Some((p, p));
            return;
        };
        let d = tuning.comp_dev;
        let short = p.t - a.t <= tuning.comp_max;
        if short && not_steeper(a, p, 0, upper, d) && not_steeper(a, lower, -d, p, 0) {
            let upper = if not_steeper(a, upper, d, p, d) { upper } else { p };
            let lower = if not_steeper(a, p, -d, lower, -d) { lower } else { p };
            self.doors = Some((upper, lower));
            return;
        }
        if !short || q.t - a.t >= tuning.comp_min {
            self.records.push((true, q));
            self.hinge = Some(q);
        }
        self.doors = Some((p, p));
    }
}

fn number<N: std::str::FromStr>(digits: &[u8]) -> N {
    std::str::from_utf8(digits).ok().and_then(|text| text.parse().ok()).expect("a number")
}

fn main() {
    let words: Vec<u64> = std::env::args().skip(2).map(|w| w.parse().expect("a number")).collect();
    let tuning = Tuning { exc_dev: words[0], exc_max: words[1], comp_dev: words[2] as i128, comp_min: words[3], comp_max: words[4] };
    let mut bytes = Vec::new();
    std::io::stdin().read_to_end(&mut bytes).expect("standard input");
    let mut archive = Archive::default();
    let mut pending: Option<Point> = None;
    for line in bytes.split(|b| *b == b'\n') {
        if line.is_empty() {
            continue;
        }
        let comma = line.iter().position(|b| *b == b',').expect("a comma");
        let p = Point { t: number(&line[..comma]), v: number(&line[comma + 1..]) };
        let Some(last) = archive.held else {
            archive.take_in_order(&tuning, p);
            continue;
        };
        let newest = pending.unwrap_or(last);
        if p.t <= newest.t {
            if let Some(q) = pending.take() {
                archive.take_in_order(&tuning, q);
            }
            archive.records.push((false, p));
        } else if p.v.abs_diff(last.v) > tuning.exc_dev || p.t - last.t >= tuning.exc_max {
            if let Some(q) = pending.take() {
                archive.take_in_order(&tuning, q);
            }
            archive.take_in_order(&tuning, p);
        } else {
            pending = Some(p);
        }
    }
    let mut out = Vec::new();
    for (kept, p) in &archive.records {
        writeln!(out, "{},{},{}", if *kept { "kept" } else { "late" }, p.t, p.v).expect("memory");
    }
    if let Some(q) = archive.held {
        writeln!(out, "held,{},{}", q.t, q.v).expect("memory");
    }
    std::io::stdout().write_all(&out).expect("standard output");
}
