#!/bin/sh
# Times whole planes of xs_wave, which no command uses: one of 4096 by 2160 numbers, nlx 5 and nly 2, split and joined, beside plain
# Rust that does the same steps: nanoseconds a sample, the median of five runs.
# It uses the built program (crates/xs_wave_bench/out/xs_wave_bench, after `rt run` there or a whole `rt ci`), rustc and
# GNU time.
. "$(dirname "$0")/common.sh"
proved=$(built xs_wave_bench 'rt run -- split 1')

cat >"$folder/plain.rs" <<'RUST'
use std::hint::black_box;

const WIDTH: usize = 4096;
const HEIGHT: usize = 2160;
const NLX: usize = 5;
const NLY: usize = 2;

struct Plane {
    width: usize,
    height: usize,
    samples: Vec<i64>,
}

impl Plane {
    fn blank(width: usize, height: usize) -> Plane {
        Plane { width, height, samples: vec![0; width * height] }
    }
    fn row(&self, at: usize) -> &[i64] {
        &self.samples[at * self.width..][..self.width]
    }
    fn row_mut(&mut self, at: usize) -> &mut [i64] {
        &mut self.samples[at * self.width..][..self.width]
    }
    // The row to change, and the two that it is changed by.
    fn beside(&mut self, at: usize, above: usize, below: usize, width: usize) -> (&mut [i64], &[i64], &[i64]) {
        let stride = self.width;
        let (before, rest) = self.samples.split_at_mut(at * stride);
        let (row, after) = rest.split_at_mut(stride);
        let (before, after) = (&*before, &*after);
        let pick = |k: usize| if k < at { &before[k * stride..][..width] } else { &after[(k - at - 1) * stride..][..width] };
        (&mut row[..width], pick(above), pick(below))
    }
}

fn half(z: i64) -> i64 {
    z >> 1
}

fn quarter(z: i64) -> i64 {
    (z + 2) >> 2
}

fn split_columns(plane: &mut Plane, width: usize, height: usize) {
    let last = (height - 1) / 2;
    for at in 0..height / 2 {
        let (row, above, below) = plane.beside(2 * at + 1, 2 * at, 2 * (at + 1).min(last), width);
        for k in 0..width {
            row[k] -= half(above[k] + below[k]);
        }
    }
    let last = height / 2 - 1;
    for at in 0..(height + 1) / 2 {
        let (row, above, below) = plane.beside(2 * at, 2 * at.saturating_sub(1) + 1, 2 * at.min(last) + 1, width);
        for k in 0..width {
            row[k] += quarter(above[k] + below[k]);
        }
    }
}

fn join_columns(plane: &mut Plane, width: usize, height: usize) {
    let last = height / 2 - 1;
    for at in 0..(height + 1) / 2 {
        let (row, above, below) = plane.beside(2 * at, 2 * at.saturating_sub(1) + 1, 2 * at.min(last) + 1, width);
        for k in 0..width {
            row[k] -= quarter(above[k] + below[k]);
        }
    }
    let last = (height - 1) / 2;
    for at in 0..height / 2 {
        let (row, above, below) = plane.beside(2 * at + 1, 2 * at, 2 * (at + 1).min(last), width);
        for k in 0..width {
            row[k] += half(above[k] + below[k]);
        }
    }
}

fn split_line(line: &[i64], low: &mut [i64], high: &mut [i64]) {
    let last = (line.len() - 1) / 2;
    for k in 0..high.len() {
        high[k] = line[2 * k + 1] - half(line[2 * k] + line[2 * (k + 1).min(last)]);
    }
    let end = high.len() - 1;
    for k in 0..low.len() {
        low[k] = line[2 * k] + quarter(high[k.saturating_sub(1)] + high[k.min(end)]);
    }
}

fn join_line(low: &[i64], high: &[i64], line: &mut [i64]) {
    let end = high.len() - 1;
    for k in 0..low.len() {
        line[2 * k] = low[k] - quarter(high[k.saturating_sub(1)] + high[k.min(end)]);
    }
    let last = (line.len() - 1) / 2;
    for k in 0..high.len() {
        line[2 * k + 1] = high[k] + half(line[2 * k] + line[2 * (k + 1).min(last)]);
    }
}

// The bands, those of the last level first.
fn split(plane: &Plane) -> Vec<Plane> {
    let mut work = Plane { width: plane.width, height: plane.height, samples: plane.samples.clone() };
    let mut scratch = vec![0; (plane.width + 1) / 2];
    let (mut width, mut height) = (plane.width, plane.height);
    let mut bands = Vec::new();
    for level in 0..NLX {
        let step = if level < NLY { 2 } else { 1 };
        if step == 2 {
            split_columns(&mut work, width, height);
            let mut lh = Plane::blank((width + 1) / 2, height / 2);
            let mut hh = Plane::blank(width / 2, height / 2);
            for at in 0..height / 2 {
                split_line(&work.row(2 * at + 1)[..width], lh.row_mut(at), hh.row_mut(at));
            }
            bands.push(hh);
            bands.push(lh);
        }
        let rows = (height + step - 1) / step;
        let low = (width + 1) / 2;
        let mut hl = Plane::blank(width / 2, rows);
        for at in 0..rows {
            split_line(&work.row(step * at)[..width], &mut scratch[..low], hl.row_mut(at));
            work.row_mut(at)[..low].copy_from_slice(&scratch[..low]);
        }
        bands.push(hl);
        width = low;
        height = rows;
    }
    let mut ll = Plane::blank(width, height);
    for at in 0..height {
        ll.row_mut(at).copy_from_slice(&work.row(at)[..width]);
    }
    bands.push(ll);
    bands.reverse();
    bands
}

fn join(bands: &[Plane]) -> Plane {
    let mut work = Plane::blank(WIDTH, HEIGHT);
    let ll = &bands[0];
    for at in 0..ll.height {
        work.row_mut(at)[..ll.width].copy_from_slice(ll.row(at));
    }
    let mut scratch = vec![0; (WIDTH + 1) / 2];
    let mut first = 1;
    for level in (0..NLX).rev() {
        let sizes = |n: usize, levels: usize| (0..levels).fold(n, |left, _| (left + 1) / 2);
        let (width, height) = (sizes(WIDTH, level), sizes(HEIGHT, level.min(NLY)));
        let step = if level < NLY { 2 } else { 1 };
        let low = (width + 1) / 2;
        let hl = &bands[first];
        for at in (0..hl.height).rev() {
            scratch[..low].copy_from_slice(&work.row(at)[..low]);
            join_line(&scratch[..low], hl.row(at), &mut work.row_mut(step * at)[..width]);
        }
        first += 1;
        if step == 2 {
            let (lh, hh) = (&bands[first], &bands[first + 1]);
            for at in 0..lh.height {
                join_line(lh.row(at), hh.row(at), &mut work.row_mut(2 * at + 1)[..width]);
            }
            join_columns(&mut work, width, height);
            first += 2;
        }
    }
    work
}

fn main() {
    let words: Vec<String> = std::env::args().skip(1).collect();
    let times: u32 = words[1].parse().unwrap();
    let mut plane = Plane::blank(WIDTH, HEIGHT);
    if words[0] == "check" {
        let mut state: u64 = 1;
        for sample in &mut plane.samples {
            state = state.wrapping_mul(6364136223846793005).wrapping_add(1442695040888963407);
            *sample = (state >> 44) as i64 - (1 << 19);
        }
        assert!(join(&split(&plane)).samples == plane.samples);
        return;
    }
    if words[0] == "split" {
        for _ in 0..times {
            black_box(split(black_box(&plane)));
        }
    } else {
        let bands = split(&plane);
        for _ in 0..times {
            black_box(join(black_box(&bands)));
        }
    }
}
RUST
rustc -O -C target-cpu=x86-64-v2 -o "$folder/plain" "$folder/plain.rs"
"$folder/plain" check 1

seconds() {
    "$timer" -f '%U %S' -o "$folder/cost" "$@" </dev/null >/dev/null
    awk '{ print $1 + $2 }' "$folder/cost"
}

# The cost of a sample: eleven times less once, by ten.
for way in split join; do
    for program in "$proved" "$folder/plain"; do
        for _ in 1 2 3 4 5; do
            once=$(seconds "$program" "$way" 1)
            often=$(seconds "$program" "$way" 11)
            awk -v a="$once" -v b="$often" 'BEGIN { printf "%.3f\n", (b - a) / 10 * 1e9 / (4096 * 2160) }'
        done | sort -n | sed -n 3p >"$folder/median"
        printf '%-6s %-14s %8s ns a sample\n' "$way" "$(basename "$program")" "$(cat "$folder/median")"
    done
done
