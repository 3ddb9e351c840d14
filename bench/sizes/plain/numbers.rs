//! Numbers that are drawn by a rule, and hashes of rows.

pub type Rows = Vec<Vec<i64>>;

/// How far from 0 numbers may be, and whether all of them are that far.
#[derive(Clone, Copy)]
pub struct Range {
    pub most: i64,
    pub greatest: bool,
}

const FAR: i64 = 1_152_921_504_606_846_976;

fn next(state: u64) -> u64 {
    state.wrapping_mul(6_364_136_223_846_793_005).wrapping_add(1_442_695_040_888_963_407)
}

fn number(state: u64, range: Range) -> i64 {
    match (range.greatest, state >> 63) {
        (true, 0) => range.most,
        (true, _) => -range.most,
        (false, _) => ((state >> 20) % (2 * range.most as u64 + 1)) as i64 - range.most,
    }
}

fn drawn_row(width: usize, seed: u64, range: Range) -> Vec<i64> {
    let mut state = seed;
    let mut number = || {
        state = next(state);
        number(state, range)
    };
    (0..width).map(|_| number()).collect()
}

/// The rows of a band.
pub fn drawn(band: usize, width: usize, height: usize, range: Range) -> Rows {
    (0..height).map(|row| drawn_row(width, (band * 65536 + row) as u64, range)).collect()
}

pub fn hashed_row(hash: u64, row: &[i64]) -> u64 {
    row.iter().fold(hash, |hash, &number| next(hash ^ (number + FAR) as u64))
}

pub fn hashed(hash: u64, rows: &[Vec<i64>]) -> u64 {
    rows.iter().fold(hash, |hash, row| hashed_row(hash, row))
}
