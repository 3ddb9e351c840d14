#!/bin/sh
# Times the lanes: 135 lanes are made, 64 values of 40 bytes are put into each, and each is claimed; nanoseconds, the least
# of a number of rounds (500 where the first word says no other). Then the two tests with two threads in
# crates/xs_lane_tests/src/two_threads.rt, 10,000 rounds of each, or as many as the second word says.
# It makes a repository with the crates of the lanes and a program in a temporary folder, and has the program proved and
# built there: some minutes.
. "$(dirname "$0")/common.sh"
bench=$folder/lanes/crates/lane_bench
mkdir -p "$bench/src" "$bench/proofs/times"
for crate in xs_io xs_lane_core xs_lanes; do
    cp -r "$top/crates/$crate" "$folder/lanes/crates/"
done
grep -E '^(xs_io|xs_lane_core|xs_lanes):' "$top/crates.txt" >"$folder/lanes/crates.txt"
echo 'lane_bench: xs_io xs_lane_core xs_lanes atomic_table arrayvec' >>"$folder/lanes/crates.txt"
: >"$folder/lanes/HANDLES"
cp "$top/crates/xs_lane_tests/src/values.rt" "$top/crates/xs_lane_tests/src/two_threads.rt" "$bench/src/"
cp -r "$top/crates/xs_lane_tests/proofs/two_threads" "$bench/proofs/"
find "$bench/proofs" -name '*.antt' -exec sed -i 's/xs_lane_tests/lane_bench/' {} +

cat >"$bench/src/main.rt" <<'RATTLE'
//! Times lanes, or has two threads fill and claim them, as often as it is told.
#![tactic(auto)]

mod packet;
mod times;
mod two_threads;
mod values;

use std::alloc::Global;
use std::process::ExitCode;
use std::thread::Threads;
use std::{env, io};

fn words(rt: &HostRuntime) -> io::Result<Vec<String>> {
    let mut words = Vec::new(rt.alloc());
    for word in env::args(rt)?.skip(1) {
        words.push(word)?;
    }
    Ok(words)
}

// How many rounds of the two tests did not end as they should.
fn wrong_rounds<R: Threads + Sync>(rt: &R, alloc: Global, rounds: u32) -> u32 {
    let mut wrong: u32 = 0;
    for _ in 0..rounds {
        let same = two_threads::two_workers(rt, alloc, true);
        let each = two_threads::two_workers(rt, alloc, false);
        if same.ok() != Some((512, 512, 1, 1, true, false))
            || each.ok() != Some((256, 0, 64, u64::MAX, true, true))
        {
            wrong = wrong.saturating_add(1);
        }
    }
    wrong
}

fn main(rt: HostRuntime) -> ExitCode {
    let Ok(words) = words(&rt) else {
        return ExitCode::from(1);
    };
    let [way, rounds] = words.as_slice() else {
        return ExitCode::from(1);
    };
    let Ok(rounds) = rounds.as_str().parse::<u32>() else {
        return ExitCode::from(1);
    };
    let done = if way.as_str() == "times" {
        let [make, put, claim, list] = times::least(&rt, rounds);
        println!(rt; "135 lanes: made in {make} ns; 8640 values put in {put} ns; 135 claims in {claim} ns, of which their lists {list} ns")
    } else {
        let wrong = wrong_rounds(&rt, rt.alloc(), rounds);
        println!(rt; "{rounds} rounds of two threads, {wrong} wrong")
    };
    ExitCode::from(if done.is_ok() { 0 } else { 2 })
}
RATTLE

cat >"$bench/src/packet.rt" <<'RATTLE'
use std::alloc::Global;
use std::default::MadeWith;
use xs_lanes::Placed;

// As large as a packet whose bytes are a list.
#[derive(Drop)]
pub struct Packet {
    pub lane: u32,
    pub place: u32,
    pub closes: bool,
    pub bytes: Vec<u8>,
}

impl MadeWith<Global> for Packet {
    fn made_with(alloc: Global) -> Packet {
        Packet {
            lane: 0,
            place: 0,
            closes: false,
            bytes: Vec::new(alloc),
        }
    }
}

impl Placed for Packet {
    ghost lane_of = { λ i. i.lane };

    ghost slot_of = { λ i. i.place };

    ghost closes_of = { λ i. i.closes };

    fn lane(&self) -> u32 {
        self.lane
    }

    fn slot(&self) -> u32 {
        self.place
    }

    fn closes(&self) -> bool {
        self.closes
    }
}
RATTLE

cat >"$bench/src/times.rt" <<'RATTLE'
ghost use Rattle.std.specs.Prelude.{◌≡◌, ◌<◌};
ghost use Rattle.xs_lanes.specs.Passes.{IsPassOf, lane_count};

use crate::packet::Packet;
use arrayvec::ArrayVec;
use std::alloc::Global;
use std::time::Instant;
use xs_lanes::{Lanes, PLACES, Pass};

// As many as the units of a picture of 2144 lines in slices of 16.
const LANES: u32 = 135;

fn fill(alloc: Global, lanes: &Lanes<Packet>, pass: &mut Pass<Packet>, lane: u32)
    requires { IsPassOf lanes.now pass.old × (lane < lane_count lanes.now) }
    ensures { IsPassOf lanes.now pass.new }
{
    'filling: for place in 0..64 {
        drop(lanes.put(
            pass,
            Packet {
                lane,
                place,
                closes: place == 63,
                bytes: Vec::new(alloc),
            },
        ));
    }
}

fn fill_all(alloc: Global, lanes: &Lanes<Packet>, pass: &mut Pass<Packet>)
    requires { IsPassOf lanes.now pass.old × (lane_count lanes.now ≡ 135) }
    ensures { IsPassOf lanes.now pass.new }
{
    'filling: for lane in 0..LANES {
        fill(alloc, lanes, pass, lane);
    }
}

fn claim_one(alloc: Global, lanes: &Lanes<Packet>, pass: &mut Pass<Packet>, lane: u32)
    requires { IsPassOf lanes.now pass.old × (lane < lane_count lanes.now) }
    ensures { IsPassOf lanes.now pass.new }
{
    let mut values = ArrayVec::<Packet, PLACES, Global>::new_in(alloc);
    lanes.claim(pass, lane, &mut values);
}

fn claim_all(alloc: Global, lanes: &Lanes<Packet>, pass: &mut Pass<Packet>)
    requires { IsPassOf lanes.now pass.old × (lane_count lanes.now ≡ 135) }
    ensures { IsPassOf lanes.now pass.new }
{
    'claiming: for lane in 0..LANES {
        claim_one(alloc, lanes, pass, lane);
    }
}

fn make_lists(alloc: Global) {
    for _ in 0..LANES {
        drop(ArrayVec::<Packet, PLACES, Global>::new_in(alloc));
    }
}

// The nanoseconds since then.
fn since(rt: &HostRuntime, then: Option<Instant>) -> u64 {
    let Some(then) = then else {
        return u64::MAX;
    };
    match then.elapsed(rt) {
        Ok(time) => u64::try_from(time.as_nanos()).unwrap_or(u64::MAX),
        Err(_) => u64::MAX,
    }
}

fn round(rt: &HostRuntime) -> [u64; 4] {
    let alloc = rt.alloc();
    let start = Instant::now(rt).ok();
    let Ok((lanes, mut pass)) = Lanes::<Packet>::new(alloc, LANES) else {
        return [u64::MAX; 4];
    };
    let make = since(rt, start);
    let start = Instant::now(rt).ok();
    fill_all(alloc, &lanes, &mut pass);
    let put = since(rt, start);
    let start = Instant::now(rt).ok();
    claim_all(alloc, &lanes, &mut pass);
    let claim = since(rt, start);
    let start = Instant::now(rt).ok();
    make_lists(alloc);
    [make, put, claim, since(rt, start)]
}

// The least time of making all lanes, of filling, of claiming them, and of the lists of the claims.
pub fn least(rt: &HostRuntime, rounds: u32) -> [u64; 4] {
    let mut least = [u64::MAX; 4];
    for _ in 0..rounds {
        let [make, put, claim, list] = round(rt);
        let [a, b, c, d] = least;
        least = [a.min(make), b.min(put), c.min(claim), d.min(list)];
    }
    least
}
RATTLE

for loop in fill:filling fill_all:filling claim_all:claiming; do
    name=${loop%%:*}
    label=${loop##*:}
    mkdir -p "$bench/proofs/times/$name"
    cat >"$bench/proofs/times/$name/Invariants.antt" <<ANTT
use Rattle.xs_lanes.specs.Passes.{IsPassOf}
use Rattle.lane_bench.proofs.times.$name.Given as goal

abbrev pub invariant-$label : goal.invariant-$label
invariant-$label l = IsPassOf l.lanes l.pass
ANTT
done
printf 'times\n1\n' >"$bench/args"
: >"$bench/stdin"
: >"$bench/stdout"
(cd "$bench" && rt run >"$folder/lanes.log" 2>&1) || true
[ -x "$bench/out/lane_bench" ] || { tail -20 "$folder/lanes.log"; exit 1; }
"$bench/out/lane_bench" times "${1:-500}"
"$bench/out/lane_bench" threads "${2:-10000}"
