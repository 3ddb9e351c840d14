//! What bench/sizes/rattle has to print, by a slow program that splits and joins whole planes.

mod numbers;
mod pictures;
mod wave;

use numbers::{Range, Rows, drawn, hashed};
use pictures::Picture;
use wave::{band_sizes, join, low, split};

fn split_hash(width: usize, height: usize, nlx: usize, nly: usize, range: Range) -> u64 {
    split(&drawn(0, width, height, range), nlx, nly).iter().fold(0, |hash, band| hashed(hash, band))
}

fn joined(width: usize, height: usize, nlx: usize, nly: usize, range: Range) -> Rows {
    let sizes = band_sizes(width, height, nlx, nly);
    let bands: Vec<Rows> = sizes.iter().enumerate().map(|(band, &(width, height))| drawn(band, width, height, range)).collect();
    join(&bands, nlx, nly)
}

fn show_plane(width: usize, height: usize, nlx: usize, nly: usize) {
    for greatest in [false, true] {
        let range = |most| Range { most, greatest };
        let whole = range((1 << 40) - 1);
        let (split, join) = (split_hash(width, height, nlx, nly, whole), hashed(0, &joined(width, height, nlx, nly, whole)));
        println!("plane {width} {height} {nlx} {nly} {greatest} {split} {join}");
        let split = split_hash(width, height, nlx, nly, range((1 << 20) - 1));
        let plane = joined(width, height, nlx, nly, range((1 << 23) - 1));
        let later = (1..low(height, nly)).fold(0, |hash, precinct| hashed(hash, &plane[precinct << nly..]));
        println!("component {width} {height} {nlx} {nly} {greatest} {split} {} {later}", hashed(0, &plane));
    }
}

fn show_picture(kind: usize, width: usize, height: usize, nlx: usize, nly: usize) {
    let (bw, fq) = if (width + height) % 2 == 0 { (20, 8) } else { (18, 6) };
    let picture = Picture { kind, width, height, nlx, nly, depth: 8 + 2 * (height as u32 % 3), bw, fq };
    for hsl in 1..3 {
        for (most, greatest) in [(500, false), (32767, false), (32767, true)] {
            let hash = picture.hash(Range { most, greatest });
            println!("picture {kind} {width} {height} {nlx} {nly} {hsl} {most} {greatest} {hash}");
        }
    }
}

fn main() {
    for (nlx, nly) in (1..6).flat_map(|nlx| (0..3).map(move |nly| (nlx, nly))).filter(|(nlx, nly)| nly <= nlx) {
        for more in 0..6 {
            for height in 4..10 {
                show_plane((1 << nlx) + more, height, nlx, nly);
            }
        }
        for kind in 0..4 {
            for more in 0..2 {
                for height in 9..13 {
                    show_picture(kind, if kind == 1 { 64 } else { 32 } + more, height, nlx, nly);
                }
            }
        }
    }
}
