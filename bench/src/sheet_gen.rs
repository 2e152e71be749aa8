//! Sheets and near sheets made from a fixed seed.

use crate::gen::{Maker, Random};
use crate::session::{cut, line_pairs, single_pairs, Pair, NUMBER_MAX, SIZE_MAX};
use crate::sheets::{sheet, Kind};
use std::fs;
use std::io;
use std::path::Path;

const HEAD: usize = 8;

/// A number below `n`, which is not 0.
fn index(random: &mut Random, n: usize) -> usize {
    random.below(n as u64) as usize
}

/// A plan of the makes that a session has, with any number of cuts.
fn plan(m: &mut Maker) -> Vec<Pair> {
    let mut pairs = match m.random.below(5) {
        0 => long_line(m),
        1 => single_pairs(SIZE_MAX as usize, m.cut_number() as i16),
        _ => {
            let text = m.plan();
            m.line(text.as_bytes());
            m.model.pairs().to_vec()
        }
    };
    while m.random.percent(25) {
        let (size, number) = (m.size(), m.cut_number());
        cut(&mut pairs, size as usize, number as i16);
    }
    pairs
}

/// A line of last size 4,096 that is likely live up to there.
fn long_line(m: &mut Maker) -> Vec<Pair> {
    let slope = m.random.from(1, 66_000);
    // The least cut number that the line does not come to before.
    let least = slope * u64::from(SIZE_MAX) / 1_000_000;
    let number = m.random.from(least.min(NUMBER_MAX.into()), NUMBER_MAX.into());
    let (h_a, h_r) = (m.intercept(), m.intercept());
    line_pairs(h_a as i64, h_r as i64, slope as i64, SIZE_MAX, number as u32)
}

/// A plan of any pairs, near a slope so that some count stays live.
fn any_pairs(m: &mut Maker) -> Vec<Pair> {
    let size = m.size() as i64;
    let rise = m.random.below(1 + 300_000 / size as u64) as i64;
    let width = m.random.pick(&[2, 4, 20, 300]);
    let numbers = -1..=i64::from(NUMBER_MAX);
    let mut pairs = Vec::with_capacity(size as usize);
    for n in 1..=size {
        let middle = rise * n / 1_000;
        let ac = middle - 1 - m.random.below(width) as i64;
        let re = middle + 1 + m.random.below(width) as i64;
        let ac = ac.clamp(*numbers.start(), *numbers.end());
        let re = if n == size { ac + 1 } else { re.clamp(ac + 1, numbers.end() + 1) };
        pairs.push((ac as i16, re as i16));
    }
    pairs
}

fn good(m: &mut Maker, kind: Kind) -> Vec<u8> {
    let pairs = if m.random.percent(20) { any_pairs(m) } else { plan(m) };
    sheet(&pairs, kind)
}

/// Sets S to the number of whole rows that are there.
fn set_rows(bytes: &mut [u8]) {
    if let Some((head, body)) = bytes.split_at_mut_checked(HEAD) {
        head[6..].copy_from_slice(&((body.len() / 2) as u16).to_le_bytes());
    }
}

/// The place of a byte of a sheet: in a row, in the header or anywhere.
fn place(random: &mut Random, bytes: &[u8]) -> usize {
    let rows = bytes.len() - HEAD;
    match random.below(10) {
        0..=2 => HEAD + index(random, rows.min(16)),
        3 => bytes.len() - 1 - index(random, rows.min(8)),
        4..=6 => HEAD + index(random, rows),
        7 | 8 => index(random, HEAD),
        _ => index(random, bytes.len()),
    }
}

/// Another value for a byte, often one near it or near a limit.
fn other(random: &mut Random, byte: u8) -> u8 {
    loop {
        let new = match random.below(4) {
            0 => byte.wrapping_add(1),
            1 => byte.wrapping_sub(1),
            2 => random.pick(&[0, 1, 2, 14, 15, 16, 252, 253, 254, 255, 255, 255]),
            _ => random.next() as u8,
        };
        if new != byte {
            return new;
        }
    }
}

/// Spoils a sheet in one way; it may still be one.
fn spoil(random: &mut Random, bytes: &mut Vec<u8>) {
    let at = place(random, bytes);
    let row = HEAD + 2 * index(random, (bytes.len() - HEAD) / 2);
    let way = random.below(20);
    match way {
        0..=9 => bytes[at] = other(random, bytes[at]),
        10 => {
            bytes.pop();
        }
        11 => {
            bytes.remove(at);
        }
        12 => bytes.push(random.next() as u8),
        13 => bytes.insert(at, random.next() as u8),
        14 => bytes.swap(row, row + 1),
        15 => {
            let to = place(random, bytes);
            bytes.swap(at, to);
        }
        16 | 17 => drop(bytes.drain(row..row + 2)),
        _ => {
            let again = [bytes[row], bytes[row + 1]];
            bytes.splice(row..row, again);
        }
    }
    // Unless S follows, a row left out or repeated only makes a wrong length.
    if way >= 16 && random.percent(75) {
        set_rows(bytes);
    }
}

/// Random bytes, some of them after a good header.
fn noise(random: &mut Random) -> Vec<u8> {
    let len = random.below(41) as usize;
    let mut bytes: Vec<u8> = (0..len).map(|_| random.next() as u8).collect();
    if random.percent(60) {
        // Low numbers and 255 are lawful more often.
        for byte in bytes.iter_mut() {
            *byte = if *byte < 128 { *byte % 4 } else { 255 };
        }
    }
    if random.percent(70) {
        let m = random.pick(&[1, 15]);
        for (byte, head) in bytes.iter_mut().zip([b'S', b'Q', b'A', 1, 0, m]) {
            *byte = head;
        }
        set_rows(&mut bytes);
    }
    bytes
}

fn file(seed: u64) -> Vec<u8> {
    let mut m = Maker::new(seed);
    let kind = m.random.pick(&[Kind::Mark, Kind::FaultNumber]);
    match m.random.below(20) {
        0..=6 => good(&mut m, kind),
        7..=16 => {
            let mut bytes = good(&mut m, kind);
            spoil(&mut m.random, &mut bytes);
            bytes
        }
        _ => noise(&mut m.random),
    }
}

/// Writes `n` files to `dir`, named by their numbers.
pub fn sheets(seed: u64, n: u64, dir: &Path) -> io::Result<()> {
    fs::create_dir_all(dir)?;
    let mut seeds = Random(seed);
    for i in 0..n {
        fs::write(dir.join(format!("{i:05}")), file(seeds.next()))?;
    }
    Ok(())
}

/// Writes the sheet for fault numbers with the most live counts: up to the last
/// size but one, all reached counts that any plan can hold live are so.
pub fn widest(file: &Path) -> io::Result<()> {
    let plan = single_pairs(SIZE_MAX as usize, NUMBER_MAX as i16);
    fs::write(file, sheet(&plan, Kind::FaultNumber))
}

#[cfg(test)]
mod tests {
    use super::*;
    use crate::sheets::extent;

    #[test]
    fn the_widest() {
        let wide = single_pairs(4096, 253);
        assert_eq!(extent(&wide, Kind::FaultNumber), (4096, 1_099_563));
        // No line has intercepts above 10, so at most 20 counts are live.
        let line = line_pairs(10_000_000, 10_000_000, 59_530, 4096, 253);
        assert_eq!(extent(&line, Kind::FaultNumber), (4096, 142_590));
        let line = line_pairs(10_000_000, 10_000_000, 1, 4096, 253);
        assert_eq!(extent(&line, Kind::FaultNumber), (4096, 106_486));
    }
}
