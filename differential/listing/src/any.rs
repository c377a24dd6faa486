//! Flat states that no history need reach.

use compare::rng::Rng;
use model::flat::*;

/// Any flat state: few names and numbers, so that they meet; counts and places beyond their
/// tables; now and then a number from anywhere.
pub fn any(rng: &mut Rng) -> Flat {
    let mut flat = Flat {
        numbers: (0..NUMBERS).map(|_| rng.below(4)).collect(),
        names: (0..PLACES * ROOM).map(|_| rng.pick(b"ab.")).collect(),
        echs: Vec::new(),
    };
    rules(rng, &mut flat.numbers[RULES..]);
    let counts = [(ALTS, 6), (QUERIES, 20), (SERVICES, 6)];
    counts.iter().for_each(|(at, most)| flat.numbers[*at] = rng.between(0, *most));
    for i in 0..16 {
        let query = &mut flat.numbers[QUERIES + 1 + QUERY * i..];
        query[..QUERY].copy_from_slice(&[
            rng.below(3),
            place(rng),
            rng.pick(&[0, 1, 2, 2, 2]),
            rng.below(11),
        ]);
    }
    for i in 0..4 {
        let service = &mut flat.numbers[SERVICES + 1 + SERVICE * i..];
        service[1] = place(rng);
        service[2] = rng.pick(&[0, 0, 0, 0, 1, 2, 8, 41, 256]);
        service[3] = rng.below(8);
        service[HINTS_4] = rng.below(7);
        service[HINTS_6] = rng.below(7);
    }
    for place in 0..PLACES {
        flat.numbers[LENGTHS + place] = rng.pick(&[0, 0, 1, 1, 1, 2, 2, 3]);
    }
    if rng.chance(40) {
        flat.numbers[LENGTHS + rng.index(PLACES)] = rng.pick(&[253, 254, u64::MAX]);
    }
    for _ in 0..rng.pick(&[0, 0, 3, 30]) {
        flat.numbers[rng.index(NUMBERS)] = rng.pick(&[255, 256, 65_535, 65_536, 1 << 32, u64::MAX]);
        flat.numbers[rng.index(NUMBERS)] = rng.draw();
    }
    if rng.chance(20) {
        cut_counts(&mut flat);
        fill_unused(rng, &mut flat);
    }
    if rng.chance(10) {
        enrich(&mut flat);
    }
    flat
}

/// As much as can be listed: one name at every place, and every list full.
fn enrich(flat: &mut Flat) {
    flat.names.fill(b'a');
    flat.numbers[LENGTHS..].fill(1);
    flat.numbers[QUERIES] = 16;
    flat.numbers[ALTS] = 4;
    flat.numbers[SERVICES] = 4;
    flat.numbers[RULES + 4] = 7;
    for i in 0..16 {
        let query = &mut flat.numbers[QUERIES + 1 + QUERY * i..];
        (query[2], query[3]) = (2, 8);
    }
    for i in 0..4 {
        flat.numbers[ALTS + 1 + ALT * i] = 0;
        let service = &mut flat.numbers[SERVICES + 1 + SERVICE * i..];
        (service[3], service[HINTS_4], service[HINTS_6]) = (7, 4, 4);
    }
}

fn rules(rng: &mut Rng, out: &mut [u64]) {
    out[0] = rng.pick(&[0, 0, 0, 0, 1, 2, 3]);
    out[4] = rng.pick(&[7, 7, 7, 6, 5, 4, 3, 2, 1, 0]);
    out[6] = rng.pick(&[0, 0, 0, 1, 2]);
}

fn place(rng: &mut Rng) -> u64 {
    rng.pick(&[0, 0, 1, 2, 3, 4, 5, 6, 9, 12, 13, 14, 15, 255, 256])
}

fn cut_counts(flat: &mut Flat) {
    let mut cut = |at: usize, most: u64| flat.numbers[at] = flat.numbers[at].min(most);
    cut(ALTS, 4);
    cut(QUERIES, 16);
    cut(SERVICES, 4);
    (0..16).for_each(|i| cut(QUERIES + 1 + QUERY * i + 3, 8));
    (0..4).for_each(|i| cut(SERVICES + 1 + SERVICE * i + HINTS_4, 4));
    (0..4).for_each(|i| cut(SERVICES + 1 + SERVICE * i + HINTS_6, 4));
}

/// Cuts both lists at some places; what is cut off reads as 0.
pub fn shorten(rng: &mut Rng, flat: &mut Flat) -> (usize, usize) {
    let kept = (rng.index(NUMBERS + 1), rng.index(PLACES * ROOM + 1));
    flat.numbers[kept.0..].fill(0);
    flat.names[kept.1..].fill(0);
    kept
}

/// Fills the room that the counts leave unused with what stands before it, so that a reading
/// beyond a count shows.
pub fn fill_unused(rng: &mut Rng, flat: &mut Flat) {
    let numbers = &mut flat.numbers;
    let queries = numbers[QUERIES] as usize;
    for i in 0..16 {
        let held = if i < queries { numbers[QUERIES + 1 + QUERY * i + 3] as usize } else { 0 };
        again(rng, &mut numbers[ANSWERS + 8 * ADDRESS * i..], ADDRESS, held, 8);
    }
    again(rng, &mut numbers[QUERIES + 1..], QUERY, queries, 16);
    let alts = numbers[ALTS] as usize;
    again(rng, &mut numbers[ALTS + 1..], ALT, alts, 4);
    let services = numbers[SERVICES] as usize;
    for i in 0..services {
        let service = &mut numbers[SERVICES + 1 + SERVICE * i..];
        let (four, six) = (service[HINTS_4] as usize, service[HINTS_6] as usize);
        again(rng, &mut service[HINTS_4 + 1..], 1, four, 4);
        again(rng, &mut service[HINTS_6 + 1..], ADDRESS, six, 4);
    }
    again(rng, &mut numbers[SERVICES + 1..], SERVICE, services, 4);
}

/// Slots from `used` on, each a copy of one that is used.
fn again(rng: &mut Rng, slots: &mut [u64], size: usize, used: usize, most: usize) {
    for i in used..most {
        if used > 0 {
            let from = rng.index(used) * size;
            slots.copy_within(from..from + size, i * size);
        }
    }
}
