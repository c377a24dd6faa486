//! `deal`, over the entry of the crate `probes`: compared with document 01's rule on random lists; with `--speed`, timed against plain Rust.
mod rng;
mod run;

use rng::Random;
use std::collections::VecDeque;
use std::hint::black_box;
use std::time::Instant;

const LONGEST: usize = 272;
const GUARD: usize = 16;

extern "C" {
    fn probe_deal(groups: *const u8, len: usize, out: *mut u16, room: usize) -> u8;
}

#[inline(never)]
fn deal(groups: &[u8], out: &mut [u16]) -> u8 {
    // Both slices are whole, and they don't overlap.
    unsafe { probe_deal(groups.as_ptr(), groups.len(), out.as_mut_ptr(), out.len()) }
}

/// Document 01, part 3, with one queue for each group: each round gives the front of every queue that has one.
#[inline(never)]
fn by_queues(groups: &[u8], out: &mut [u16]) {
    let mut queues: [VecDeque<u16>; 8] = Default::default();
    for (i, &g) in groups.iter().enumerate() {
        queues[g as usize].push_back(i as u16);
    }
    let mut at = 0;
    while at < groups.len() {
        for queue in &mut queues {
            if let Some(i) = queue.pop_front() {
                out[at] = i;
                at += 1;
            }
        }
    }
}

/// The same over fixed arrays.
#[inline(never)]
fn by_arrays(groups: &[u8], out: &mut [u16]) {
    let mut queues = [[0u16; LONGEST]; 8];
    let mut counts = [0usize; 8];
    for (i, &g) in groups.iter().enumerate() {
        let g = g as usize;
        queues[g][counts[g]] = i as u16;
        counts[g] += 1;
    }
    let mut at = 0;
    let mut r = 0;
    while at < groups.len() {
        for g in 0..8 {
            if r < counts[g] {
                out[at] = queues[g][r];
                at += 1;
            }
        }
        r += 1;
    }
}

fn answer(groups: &[u8], room: usize) -> u8 {
    if groups.len() > LONGEST {
        1
    } else if room != groups.len() {
        2
    } else if groups.iter().any(|&g| g > 7) {
        3
    } else {
        0
    }
}

/// Compares the answer and every place of the room on random lists, bad ones among them.
fn compare(random: &mut Random) {
    const LISTS: usize = 200_000;
    let mut seen = [0u64; 4];
    for _ in 0..LISTS {
        let len = random.below(LONGEST + 9);
        let kinds = random.below(8) + 1;
        let mut groups: Vec<u8> = (0..len).map(|_| random.below(kinds) as u8).collect();
        if len > 0 && random.once_in(8) {
            groups[random.below(len)] = 8 + random.below(248) as u8;
        }
        let room = if random.once_in(8) { random.below(LONGEST + 9) } else { len };
        // The room lies inside a larger one, so that a store outside it is seen.
        let mut out: Vec<u16> = (0..room + 2 * GUARD).map(|_| random.next() as u16).collect();
        let mut wanted = out.clone();
        let expected = answer(&groups, room);
        if expected == 0 {
            by_queues(&groups, &mut wanted[GUARD..GUARD + room]);
        }
        assert_eq!(deal(&groups, &mut out[GUARD..GUARD + room]), expected, "{groups:?} {room}");
        assert_eq!(out, wanted, "{groups:?}");
        seen[expected as usize] += 1;
    }
    assert!(seen.iter().all(|&n| n > 0), "an answer never came: {seen:?}");
    let [dealt, long, other, none] = seen;
    println!("dealing: {LISTS} random lists agree: {dealt} dealt; {long} too long, {other} another room, {none} no group");
}

/// Nanoseconds for one call: the least of many batches.
fn time(mut call: impl FnMut()) -> f64 {
    (0..3000)
        .map(|_| {
            let start = Instant::now();
            (0..100).for_each(|_| call());
            start.elapsed().as_nanos() as f64 / 100.0
        })
        .fold(f64::MAX, f64::min)
}

fn race(name: &str, groups: &[u8]) {
    let mut out = vec![0u16; groups.len()];
    let ours = time(|| assert_eq!(deal(black_box(groups), black_box(&mut out)), 0));
    let queues = time(|| by_queues(black_box(groups), black_box(&mut out)));
    let arrays = time(|| by_arrays(black_box(groups), black_box(&mut out)));
    println!("{name:>26} {ours:9.0} {queues:9.0} {arrays:9.0} {:9.2} {:9.2}", ours / queues, ours / arrays);
}

fn speed() {
    println!("{:>26} {:>9} {:>9} {:>9} {:>9} {:>9}", "ns a call", "deal", "VecDeque", "arrays", "/VecDeque", "/arrays");
    for len in [208usize, 272] {
        race(&format!("{len}, one group"), &vec![0; len]);
        race(&format!("{len}, even, in turn"), &(0..len).map(|i| (i % 8) as u8).collect::<Vec<_>>());
        race(&format!("{len}, even, in blocks"), &(0..len).map(|i| (i * 8 / len) as u8).collect::<Vec<_>>());
    }
}

fn main() {
    run::run(compare, |_| speed());
}
