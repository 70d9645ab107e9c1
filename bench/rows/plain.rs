//! A plain reader of rows `TAG,TIME,VALUE` of 200 tags that nobody verified, to compare the proved one with. It splits lines and
//! fields by searches for a byte, reads numerals with `str::parse`, and looks names up in a map. It knows no quotes. It prints
//! what main.rattle prints. `run.py` compiles it.
use std::collections::HashMap;
use std::io::Read;
use std::time::Instant;

struct Row {
    tag: u32,
    t: u64,
    v: i64,
}

fn number<N: std::str::FromStr>(digits: &[u8]) -> Option<N> {
    std::str::from_utf8(digits).ok()?.parse().ok()
}

/// The row in a line, or none if it has no known tag or a number is out of range.
fn row(tags: &HashMap<Vec<u8>, u32>, line: &[u8]) -> Option<Row> {
    let line = line.strip_suffix(b"\r").unwrap_or(line);
    let first = line.iter().position(|b| *b == b',')?;
    let rest = &line[first + 1..];
    let second = rest.iter().position(|b| *b == b',')?;
    let row = Row { tag: *tags.get(&line[..first])?, t: number(&rest[..second])?, v: number(&rest[second + 1..])? };
    let in_range = row.t <= 253_402_300_799_999 && row.v.unsigned_abs() <= 1_000_000_000_000_000;
    in_range.then_some(row)
}

fn main() {
    let tags: HashMap<Vec<u8>, u32> = (0..200).map(|i| (format!("T{i:03}").into_bytes(), i)).collect();
    let start = Instant::now();
    let mut bytes = Vec::new();
    std::io::stdin().read_to_end(&mut bytes).unwrap();
    let read = start.elapsed().as_nanos();
    let start = Instant::now();
    let mut rows = Vec::new();
    let mut rest = &bytes[..];
    while !rest.is_empty() {
        let end = rest.iter().position(|b| *b == b'\n').unwrap_or(rest.len());
        rows.push(row(&tags, &rest[..end]).expect("a row"));
        rest = &rest[(end + 1).min(rest.len())..];
    }
    let work = start.elapsed().as_nanos();
    let sum: i128 = rows.iter().map(|r| r.v as i128 + (r.t + r.tag as u64) as i128 * 0).sum();
    println!("{read} {work} {} {sum}", rows.len());
}
