//! The 5/3 wavelet of lines and planes, straight from the formulas of docs/FORMAT.md.

use crate::numbers::Rows;

// The line goes on as if it stood before a mirror at its first and at its last sample.
fn mirrored(line: &[i64], place: isize) -> i64 {
    let last = line.len() as isize - 1;
    line[(last - (last - place.abs()).abs()) as usize]
}

// The entry beside the first is the first, that past the last is the last.
fn clamped(high: &[i64], place: isize) -> i64 {
    high[place.clamp(0, high.len() as isize - 1) as usize]
}

fn split_line(line: &[i64]) -> (Vec<i64>, Vec<i64>) {
    let x = |place: usize| mirrored(line, place as isize);
    let high: Vec<i64> = (0..line.len() / 2).map(|n| x(2 * n + 1) - (x(2 * n) + x(2 * n + 2)).div_euclid(2)).collect();
    let h = |place: isize| clamped(&high, place);
    let low = (0..(line.len() + 1) / 2).map(|n| x(2 * n) + (h(n as isize - 1) + h(n as isize) + 2).div_euclid(4)).collect();
    (low, high)
}

fn join_line(low: &[i64], high: &[i64]) -> Vec<i64> {
    let h = |place: isize| clamped(high, place);
    let mut line = vec![0; low.len() + high.len()];
    for n in 0..low.len() {
        line[2 * n] = low[n] - (h(n as isize - 1) + h(n as isize) + 2).div_euclid(4);
    }
    for n in 0..high.len() {
        line[2 * n + 1] = high[n] + (line[2 * n] + mirrored(&line, 2 * n as isize + 2)).div_euclid(2);
    }
    line
}

fn turned(rows: &Rows) -> Rows {
    (0..rows[0].len()).map(|column| rows.iter().map(|row| row[column]).collect()).collect()
}

fn split_rows(rows: &Rows) -> (Rows, Rows) {
    rows.iter().map(|row| split_line(row)).unzip()
}

fn join_rows(low: &Rows, high: &Rows) -> Rows {
    low.iter().zip(high).map(|(low, high)| join_line(low, high)).collect()
}

// The bands, from the last level to the first; each level's in the order HL, LH, HH.
pub fn split(plane: &Rows, nlx: usize, nly: usize) -> Vec<Rows> {
    let mut part = plane.clone();
    let mut levels = Vec::new();
    for level in 1..=nlx {
        if level <= nly {
            let (top, bottom) = split_rows(&turned(&part));
            let (low, hl) = split_rows(&turned(&top));
            let (lh, hh) = split_rows(&turned(&bottom));
            levels.push(vec![hl, lh, hh]);
            part = low;
        } else {
            let (low, hl) = split_rows(&part);
            levels.push(vec![hl]);
            part = low;
        }
    }
    levels.push(vec![part]);
    levels.into_iter().rev().flatten().collect()
}

pub fn join(bands: &[Rows], nlx: usize, nly: usize) -> Rows {
    let mut bands = bands.iter();
    let mut part = bands.next().unwrap().clone();
    for level in (1..=nlx).rev() {
        let even = join_rows(&part, bands.next().unwrap());
        part = if level <= nly {
            let (lh, hh) = (bands.next().unwrap(), bands.next().unwrap());
            turned(&join_rows(&turned(&even), &turned(&join_rows(lh, hh))))
        } else {
            even
        };
    }
    part
}

/// How many entries of n samples are left on the low side after so many steps.
pub fn low(samples: usize, steps: usize) -> usize {
    (0..steps).fold(samples, |left, _| left.div_ceil(2))
}

fn high(samples: usize, steps: usize) -> usize {
    low(samples, steps - 1) / 2
}

/// Width and height of each band, in the order of the bands.
pub fn band_sizes(width: usize, height: usize, nlx: usize, nly: usize) -> Vec<(usize, usize)> {
    let mut sizes = vec![(low(width, nlx), low(height, nly))];
    sizes.extend((nly + 1..=nlx).rev().map(|level| (high(width, level), low(height, nly))));
    for level in (1..=nly).rev() {
        sizes.push((high(width, level), low(height, level)));
        sizes.push((low(width, level), high(height, level)));
        sizes.push((high(width, level), high(height, level)));
    }
    sizes
}
