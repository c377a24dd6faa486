//! The comparison judged: slips in a flat state on its way to the proved listing, each of which
//! must show as another listing.

use model::flat::*;

pub type Slip = (&'static str, fn(&mut Flat));

pub const SLIPS: [Slip; 8] = [
    ("hints dropped once an answer is held", drop_hints),
    ("priorities reversed", reverse_priorities),
    ("equal priorities in reverse order", part_priorities),
    ("ECH as if it were off", |flat| flat.numbers[RULES + 7] = 0),
    ("the other family preferred", |flat| flat.numbers[RULES + 5] ^= 1),
    ("names compared by place", part_names),
    ("names compared without their dot", drop_dots),
    ("an alternative's port ignored", drop_ports),
];

fn services(flat: &mut Flat) -> impl Iterator<Item = &mut [u64]> {
    let count = flat.numbers[SERVICES].min(4) as usize;
    flat.numbers[SERVICES + 1..].chunks_mut(SERVICE).take(count)
}

fn drop_hints(flat: &mut Flat) {
    let names: Vec<Vec<u8>> = (0..16)
        .map(|i| &flat.numbers[QUERIES + 1 + QUERY * i..])
        .take(flat.numbers[QUERIES].min(16) as usize)
        .filter(|query| query[0] > 0 && query[2] > 0)
        .map(|query| flat.name(query[1] as usize).to_vec())
        .collect();
    let places: Vec<u64> = (0..PLACES)
        .filter(|p| names.iter().any(|n| n == flat.name(*p)))
        .map(|p| p as u64)
        .collect();
    for service in services(flat).filter(|service| places.contains(&service[1])) {
        (service[HINTS_4], service[HINTS_6]) = (0, 0);
    }
}

fn reverse_priorities(flat: &mut Flat) {
    services(flat).for_each(|service| service[0] = 65_535 - service[0]);
}

/// Equal priorities made unequal, the later first; the others keep their order.
fn part_priorities(flat: &mut Flat) {
    let all: Vec<u64> = services(flat).map(|service| service[0]).collect();
    for (i, service) in services(flat).enumerate() {
        let below = all.iter().filter(|other| **other < all[i]).count();
        let after = all[i + 1..].iter().filter(|other| **other == all[i]).count();
        service[0] = (below + after) as u64;
    }
}

/// A last byte of its own for the name at each place.
fn part_names(flat: &mut Flat) {
    for place in 0..PLACES {
        let length = flat.name(place).len();
        if length > 0 {
            flat.names[ROOM * place + length - 1] = b'A' + place as u8;
        }
    }
}

fn drop_dots(flat: &mut Flat) {
    for place in 0..PLACES {
        if flat.name(place).last() == Some(&b'.') {
            flat.numbers[LENGTHS + place] -= 1;
        }
    }
}

fn drop_ports(flat: &mut Flat) {
    flat.numbers[ALTS + 1..].chunks_mut(ALT).take(4).for_each(|alternative| alternative[3] = 0);
}
