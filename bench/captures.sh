#!/bin/sh
# Times captures: so many frames (a million where no number is given) are made, sorted by picture and dealt to two feeders.
# Nanoseconds a frame of each step, at a quarter, a half and all of the frames: equal where the work is linear.
# The program stands in this script; it is proved and built in a folder of its own, with the crates below it.
. "$(dirname "$0")/common.sh"
frames=${1:-1000000}

mkdir -p "$folder/crates/capture_bench/src"
for crate in xs_io xs_lists xs_rtp xs_capture; do
    (cd "$top/crates" && tar cf - --exclude out --exclude must-fail "$crate") | (cd "$folder/crates" && tar xf -)
    grep "^$crate:" "$top/crates.txt" >>"$folder/crates.txt"
done
echo 'capture_bench: xs_io xs_capture' >>"$folder/crates.txt"

cat >"$folder/crates/capture_bench/src/main.rt" <<'RATTLE'
//! Times the steps of a capture.
#![tactic(auto)]

use std::alloc::Global;
use std::process::ExitCode;
use std::time::Instant;
use std::{env, io};
use xs_capture::{Sorted, sort_pictures, write_frame};
use xs_io::{Memory, Octets};

// A capture of so many offers of 64 bytes, in pictures of 4096.
fn capture(alloc: Global, frames: u32) -> Result<Octets, Memory> {
    let mut capture = Octets::new(alloc);
    for frame in 0..frames {
        let [a, b, c, d] = (frame / 4096).to_be_bytes();
        let [_, _, high, low] = (frame % 4096).to_be_bytes();
        let mut packet = [7; 80];
        packet[..16].copy_from_slice(&[0x80, 0x60, high, low, a, b, c, d, 0, 0, 0, 1, 0xc0, 0, high / 2 * 8 + high % 2, low]);
        write_frame(alloc, &mut capture, &packet)?;
    }
    Ok(capture)
}

// Deals each picture, and counts the packets.
fn deal(sorted: &mut Sorted) -> Result<usize, Memory> {
    let mut count = 0usize;
    for picture in 0..sorted.count() {
        if picture >= sorted.count() {
            break;
        }
        let mut parts = sorted.parts(picture, 2)?;
        for part in 0..2 {
            if part < parts.len() {
                count = count.saturating_add(parts.take(part as u32).len());
            }
        }
    }
    Ok(count)
}

fn told(rt: &HostRuntime, step: &str, start: &Instant, frames: u32) -> io::Result<()> {
    let time = start.elapsed(rt)?.as_nanos();
    println!(rt; "{step} {} ns a frame", time / u128::from(frames.max(1)))
}

fn run(rt: &HostRuntime, frames: u32) -> io::Result<bool> {
    let start = Instant::now(rt)?;
    let Ok(capture) = capture(rt.alloc(), frames) else {
        return Ok(false);
    };
    told(rt, "  made", &start, frames)?;
    if capture.len() >= 1 << 32 {
        return Ok(false);
    }
    let start = Instant::now(rt)?;
    let Ok(mut sorted) = sort_pictures(rt.alloc(), capture.as_slice()) else {
        return Ok(false);
    };
    told(rt, "  sorted", &start, frames)?;
    let start = Instant::now(rt)?;
    let Ok(count) = deal(&mut sorted) else {
        return Ok(false);
    };
    told(rt, "  dealt and dropped", &start, frames)?;
    println!(rt; "  {} pictures, {count} packets, {} stepped over", sorted.count(), sorted.stepped())?;
    Ok(true)
}

fn frames(rt: &HostRuntime) -> io::Result<u32> {
    for word in env::args(rt)?.skip(1) {
        if let Ok(frames) = word.as_str().parse::<u32>() {
            return Ok(frames);
        }
    }
    Ok(1_000_000)
}

fn main(rt: HostRuntime) -> ExitCode {
    let Ok(frames) = frames(&rt) else {
        return ExitCode::from(1);
    };
    match run(&rt, frames) {
        Ok(true) => ExitCode::from(0),
        _ => ExitCode::from(2),
    }
}
RATTLE

(cd "$folder/crates/capture_bench" && rt run -- 1 >"$folder/log" 2>&1) || { grep -v '^statements' "$folder/log" | tail -20 >&2; exit 1; }
for count in $((frames / 4)) $((frames / 2)) "$frames"; do
    echo "$count frames of 82 bytes"
    "$timer" -f '  %M KB at most, %U s in user mode' "$folder/crates/capture_bench/out/capture_bench" "$count"
done
