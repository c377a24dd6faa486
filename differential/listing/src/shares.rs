//! What kinds of states were looked at, in shares.

use crate::decode::Listing;
use model::flat::*;

#[derive(Default)]
pub struct Shares {
    pub states: u64,
    endpoints: u64,
    longest: usize,
    counts: [u64; ROWS.len()],
    modes: [u64; 3],
    preferences: [u64; 4],
}

type Row = (&'static str, fn(&Flat, &Listing) -> bool);

const ROWS: [Row; 14] = [
    ("services held", |f, _| f.services() > 0),
    ("4 services", |f, _| f.services() == 4),
    ("a refreshed HTTPS answer", |f, _| f.services() > 0 && f.service(0)[1] >= 9),
    ("two services of one priority", |f, _| f.twins()),
    ("hints", |f, _| (0..f.services()).any(|i| f.hints(i) > 0)),
    ("services skipped for ECH", |f, _| f.skips()),
    ("a failed or empty answer", |f, _| f.has_empty()),
    ("a name at two places", |f, _| f.has_equal_names()),
    ("a trailing dot", |f, _| (0..PLACES).any(|p| f.name(p).last() == Some(&b'.'))),
    ("alternative services", |f, _| f.numbers[ALTS] > 0),
    ("an address origin", |f, _| f.numbers[RULES] > 0),
    ("no endpoint", |_, l| l.is_empty()),
    ("20 endpoints or more", |_, l| l.len() >= 20),
    ("100 endpoints or more", |_, l| l.len() >= 100),
];

impl Shares {
    pub fn add(&mut self, flat: &Flat, listing: &Listing) {
        self.states += 1;
        self.endpoints += listing.len() as u64;
        self.longest = self.longest.max(listing.len());
        for (count, (_, is)) in self.counts.iter_mut().zip(ROWS) {
            *count += u64::from(is(flat, listing));
        }
        self.modes[flat.numbers[RULES + 6] as usize] += 1;
        self.preferences[flat.numbers[RULES + 5] as usize] += 1;
    }

    pub fn print(&self) {
        let share = |n: u64| 100.0 * n as f64 / self.states.max(1) as f64;
        println!(
            "{} states of histories, {} endpoints, the longest listing {}",
            self.states, self.endpoints, self.longest
        );
        for (count, (name, _)) in self.counts.iter().zip(ROWS) {
            println!("{:6.2} %  {name}", share(*count));
        }
        let listed = |of: &[u64]| {
            let shares: Vec<String> = of.iter().map(|n| format!("{:.1} %", share(*n))).collect();
            shares.join(", ")
        };
        println!("by mode (Ip, Name, NameWithHttpsRr): {}", listed(&self.modes));
        println!(
            "by preference (v6 first, v4 first, v6 only, v4 only): {}",
            listed(&self.preferences)
        );
    }
}

/// The questions that the figures ask of a flat state.
trait Asked {
    fn services(&self) -> usize;
    fn service(&self, i: usize) -> &[u64];
    fn hints(&self, i: usize) -> u64;
    fn twins(&self) -> bool;
    fn skips(&self) -> bool;
    fn has_empty(&self) -> bool;
    fn has_equal_names(&self) -> bool;
}

impl Asked for Flat {
    fn services(&self) -> usize {
        self.numbers[SERVICES].min(4) as usize
    }

    fn service(&self, i: usize) -> &[u64] {
        &self.numbers[SERVICES + 1 + SERVICE * i..][..SERVICE]
    }

    fn hints(&self, i: usize) -> u64 {
        self.service(i)[HINTS_4] + self.service(i)[HINTS_6]
    }

    fn twins(&self) -> bool {
        let of = |i: usize| self.service(i)[0];
        (0..self.services()).any(|i| (0..i).any(|j| of(i) == of(j)))
    }

    fn skips(&self) -> bool {
        let ech = |i: usize| self.service(i)[2] > 0;
        let on = self.numbers[RULES + 7] == 1;
        on && (0..self.services()).any(ech) && !(0..self.services()).all(ech)
    }

    fn has_empty(&self) -> bool {
        let queries = self.numbers[QUERIES].min(16) as usize;
        (0..queries).any(|i| {
            let query = &self.numbers[QUERIES + 1 + QUERY * i..];
            query[0] > 0 && (query[2] == 1 || query[2] == 2 && query[3] == 0)
        })
    }

    fn has_equal_names(&self) -> bool {
        let names = (0..PLACES).map(|place| self.name(place));
        let mut names: Vec<&[u8]> = names.filter(|name| !name.is_empty()).collect();
        names.sort();
        names.windows(2).any(|pair| pair[0] == pair[1])
    }
}
