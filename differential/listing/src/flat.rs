//! Document 01, part 4, over a flat state with any numbers in it: a number outside its range is
//! a remainder, a count above its size is cut, a place outside its table is empty. Written apart
//! from the model, for states that no history reaches.

use crate::archive::Numbered;
use model::flat::*;

/// A run of addresses or a name, each target with its case.
type Targets = Vec<[u64; 4]>;

const V4: u64 = 0;
const V6: u64 = 1;
const NAMED: u64 = 2;

/// A flat state, asked.
struct Asked<'a>(&'a Flat);

pub fn listing(flat: &Flat) -> Vec<Numbered> {
    let asked = Asked(flat);
    // "Services by priority, stable"
    let mut order: Vec<usize> = (0..asked.services()).collect();
    order.sort_by_key(|i| asked.service(*i)[0] % 65536);
    // "skip those without ECH", if ECH is on and a service has it
    let has_ech = |i: &usize| asked.service(*i)[2] != 0;
    let sealed = asked.rule(7) % 2 == 1 && order.iter().any(has_ech);
    order.retain(|i| !sealed || has_ech(i));
    // "each interleaved alone"
    let mut listed: Vec<Numbered> = Vec::new();
    for i in order {
        listed.extend(asked.dealt(asked.of_service(i)));
    }
    // "Unless so, then alternative services and origin together, interleaved."
    if !sealed {
        let mut last = asked.of_alternatives();
        last.extend(asked.of_origin());
        listed.extend(asked.dealt(last));
    }
    listed
}

impl Asked<'_> {
    fn rule(&self, k: usize) -> u64 {
        self.0.numbers[RULES + k]
    }

    fn services(&self) -> usize {
        self.0.numbers[SERVICES].min(4) as usize
    }

    fn service(&self, i: usize) -> &[u64] {
        &self.0.numbers[SERVICES + 1 + SERVICE * i..][..SERVICE]
    }

    /// 0 and 2 prefer IPv6; 3 forbids it, 2 forbids IPv4.
    fn prefers_six(&self) -> bool {
        self.rule(5) % 2 == 0
    }

    fn allows(&self, case: u64) -> bool {
        self.rule(5) % 4 != if case == V6 { 3 } else { 2 }
    }

    /// Rounds over the eight groups: the first of each, then the second of each, and so on.
    fn dealt(&self, endpoints: Vec<Numbered>) -> Vec<Numbered> {
        let mut groups: Vec<Vec<Numbered>> = vec![Vec::new(); 8];
        for endpoint in endpoints {
            let other = match endpoint[0] {
                V4 => self.prefers_six(),
                V6 => !self.prefers_six(),
                // "Names count as preferred"
                _ => false,
            };
            groups[2 * endpoint[5] as usize + usize::from(other)].push(endpoint);
        }
        let rounds = groups.iter().map(Vec::len).max().unwrap_or(0);
        let round = |r: usize| groups.iter().filter_map(move |group| group.get(r).copied());
        (0..rounds).flat_map(round).collect()
    }

    /// The addresses of the first answered record of that type and of the name at that place.
    fn held(&self, case: u64, place: u64) -> Targets {
        let kind = if case == V6 { 1 } else { 2 };
        let name = |place: u64| self.0.name((place % 256) as usize);
        let records = self.0.numbers[QUERIES].min(16) as usize;
        for i in 0..records {
            let query = &self.0.numbers[QUERIES + 1 + QUERY * i..];
            let answered = query[2] % 3 != 0;
            if query[0] % 3 != kind || !answered || name(query[1]) != name(place) {
                continue;
            }
            let count = if query[2] % 3 == 2 { query[3].min(8) as usize } else { 0 };
            let addresses = self.0.numbers[ANSWERS + 8 * ADDRESS * i..].chunks(ADDRESS);
            return addresses.take(count).map(|a| target(case, a)).collect();
        }
        Vec::new()
    }

    fn both(&self, place: u64) -> Targets {
        [self.held(V6, place), self.held(V4, place)].concat()
    }

    fn named(&self) -> bool {
        self.rule(0) % 3 == 0
    }

    fn by_name(&self) -> bool {
        self.rule(6) % 3 != 0
    }

    fn of_service(&self, i: usize) -> Vec<Numbered> {
        let service = self.service(i);
        let name = service[1] % 256;
        // As the Rust has it: by name the target, else answers and then the hints.
        let targets = if self.named() && self.rule(6) % 3 == 2 {
            vec![[NAMED, 0, name, 0]]
        } else {
            let mut targets = self.both(name);
            if self.allows(V6) {
                let six = service[HINTS_6 + 1..].chunks(ADDRESS);
                let six = six.take(service[HINTS_6].min(4) as usize);
                // A hint has no scope.
                targets.extend(six.map(|a| target(V6, &[a[0], a[1], 0])));
            }
            if self.allows(V4) {
                let four = service[HINTS_4 + 1..].iter().take(service[HINTS_4].min(4) as usize);
                targets.extend(four.map(|a| target(V4, &[0, *a, 0])));
            }
            targets
        };
        // "its ECH if ECH is on"
        let ech = match service[2] {
            0 => 0,
            _ if self.rule(7) % 2 == 0 => 0,
            place => (place - 1) % 256 + 1,
        };
        let ranks = combined(service[3] & self.rule(4));
        self.spread(&targets, service[4], &ranks, ech)
    }

    fn of_origin(&self) -> Vec<Numbered> {
        // "enabled among H2, H1, combined"
        self.spread(&self.origin(), 0, &combined(self.rule(4) & 6), 0)
    }

    fn origin(&self) -> Targets {
        match self.rule(0) % 3 {
            0 if self.by_name() => vec![[NAMED, 0, 0, 0]],
            0 => self.both(0),
            1 => vec![target(V4, &[0, self.rule(2), 0])],
            _ => vec![target(V6, &[self.rule(1), self.rule(2), 0])],
        }
    }

    fn of_alternatives(&self) -> Vec<Numbered> {
        let count = self.0.numbers[ALTS].min(4) as usize;
        let alternatives = self.0.numbers[ALTS + 1..].chunks(ALT).take(count).enumerate();
        alternatives
            .flat_map(|(i, alternative)| self.of_alternative(1 + i as u64, alternative))
            .collect()
    }

    fn of_alternative(&self, place: u64, alternative: &[u64]) -> Vec<Numbered> {
        let version = alternative[4] % 3;
        // "its version if enabled"
        if self.rule(4) >> version & 1 == 0 {
            return Vec::new();
        }
        let (high, low) = (alternative[1], alternative[2]);
        let targets = match alternative[0] % 4 {
            0 if self.by_name() => vec![[NAMED, 0, place, 0]],
            0 => self.both(place),
            // "a literal only if its family is allowed"
            1 if self.allows(V4) => vec![target(V4, &[0, low, 0])],
            2 if self.allows(V6) => vec![target(V6, &[high, low, 0])],
            // "the origin's without host"
            3 => self.origin(),
            _ => Vec::new(),
        };
        self.spread(&targets, alternative[3], &[[0, 2, 3][version as usize]], 0)
    }

    /// An endpoint for each rank and target; port 0 is the origin's.
    fn spread(&self, targets: &Targets, port: u64, ranks: &[u64], ech: u64) -> Vec<Numbered> {
        let port = port.checked_sub(1).unwrap_or(self.rule(3)) % 65536;
        let mut endpoints = Vec::new();
        for rank in ranks {
            for [case, high, low, scope] in targets {
                endpoints.push([*case, *high, *low, *scope, port, *rank, ech]);
            }
        }
        endpoints
    }
}

fn target(case: u64, address: &[u64]) -> [u64; 4] {
    let word = |n: u64| n % (1 << 32);
    match case {
        V4 => [V4, 0, word(address[1]), 0],
        _ => [V6, address[0], address[1], word(address[2])],
    }
}

/// `from_http_versions`: bit 0 H3, bit 1 H2, bit 2 H1.
fn combined(versions: u64) -> Vec<u64> {
    let tcp: &[u64] = match versions & 6 {
        6 => &[1],
        2 => &[2],
        4 => &[3],
        _ => &[],
    };
    let quic: &[u64] = if versions & 1 == 1 { &[0] } else { &[] };
    [quic, tcp].concat()
}
