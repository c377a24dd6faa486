//! Demand 3 and demand 1's "changes no state" on random histories.

use crate::build::*;
use model::{read_number, write_number, Machine};

/// xorshift64*
struct Dice(u64);

impl Dice {
    fn below(&mut self, bound: u64) -> u64 {
        self.0 ^= self.0 >> 12;
        self.0 ^= self.0 << 25;
        self.0 ^= self.0 >> 27;
        (self.0.wrapping_mul(0x2545_F491_4F6C_DD1D) >> 33) % bound
    }

    fn chance(&mut self, percent: u64) -> bool {
        self.below(100) < percent
    }

    fn pick<T: Clone>(&mut self, from: &[T]) -> T {
        from[self.below(from.len() as u64) as usize].clone()
    }

    fn lasts(&mut self, most: u64) -> Vec<u8> {
        (0..self.below(most + 1)).map(|_| self.below(20) as u8).collect()
    }
}

const NAMES: [&str; 10] = ["a.b", "a.b.", "c", "D.e", "f.", "g", "h", "i.", "j.k", "l"];

fn configuration(dice: &mut Dice) -> Configuration {
    let host = |dice: &mut Dice| {
        let name = dice.pick(&NAMES);
        dice.pick(&[name_host(name), name_host(name), v4_host(1), v6_host(2), no_host()])
    };
    let alternatives = (0..dice.below(5))
        .map(|_| alternative(host(dice), dice.pick(&[None, Some(8443)]), dice.below(3)))
        .collect();
    Configuration {
        port: dice.pick(&[443, 443, 0, 8443]),
        origin: dice.pick(&[name_host("a.b"), name_host("a.b."), name_host("c"), v6_host(9)]),
        versions: dice.pick(&[7, 7, 7, 6, 3, 0]),
        preference: dice.pick(&[PREFER_V6, PREFER_V6, PREFER_V4, ONLY_V6, ONLY_V4]),
        alternatives,
        resolution: dice.pick(&[0, 50 * MS, 50 * MS, 1_000 * MS]),
        delay: dice.pick(&[0, 1, 10 * MS, 250 * MS]),
        multiplier: dice.pick(&[1, 1, 2, 3]),
        flags: dice.below(4),
        mode: dice.pick(&[IP, IP, IP, IP, NAME, NAME_WITH_HTTPS]),
    }
}

fn random_service(dice: &mut Dice) -> Service {
    Service {
        priority: dice.below(3),
        name: dice.pick(&NAMES).to_string(),
        versions: dice.below(8),
        port: dice.pick(&[None, Some(8443)]),
        ech: dice.pick(&[None, None, Some(vec![]), Some(vec![1])]),
        v4: dice.lasts(4),
        v6: dice.lasts(4),
    }
}

/// A DNS answer: of that type, if one is named.
fn dns(dice: &mut Dice, id: u64, kind: Option<u64>) -> Vec<u8> {
    let flags = dice.pick(&[0, 0, 0, STALE, STALE, FAILED, FAILED | STALE]);
    match kind.unwrap_or_else(|| dice.below(3)) {
        HTTPS => {
            let services: Vec<Service> = (0..dice.below(5)).map(|_| random_service(dice)).collect();
            https(id, flags, &services)
        }
        AAAA => aaaa(id, flags, &dice.lasts(8)),
        _ => a(id, flags, &dice.lasts(8)),
    }
}

fn result(dice: &mut Dice, id: u64) -> Vec<u8> {
    match dice.below(20) {
        0 if dice.chance(30) => success(id),
        0..8 => ech_retry(id, &dice.pick(&[vec![], vec![1], vec![2], vec![3]])),
        _ => failure(id),
    }
}

/// What the host has to answer: an id, and a query's type.
type Open = Vec<(u64, Option<u64>)>;

fn input(dice: &mut Dice, open: &Open) -> Vec<u8> {
    if open.is_empty() || dice.chance(5) {
        let id = dice.below(70);
        return if dice.chance(50) { dns(dice, id, None) } else { result(dice, id) };
    }
    match dice.pick(open) {
        (id, Some(kind)) => dns(dice, id, Some(kind)),
        (id, None) => result(dice, id),
    }
}

/// The greatest values seen, so that a shallow drive is noticed.
#[derive(Default, Debug)]
struct Seen {
    asks: usize,
    quiet: usize,
    queries: usize,
    attempts: usize,
    cancelled: usize,
    refreshes: usize,
    kinds: [usize; 8],
    fulls: [usize; 2],
    numbers: [usize; 13],
}

struct History {
    m: Machine,
    open: Open,
}

impl History {
    /// A call, with what demand 3 says of its answer.
    fn call(&mut self, now: u64, seen: &mut Seen) -> Vec<u8> {
        let before = self.m.view(now);
        let answer = self.m.output(now);
        let view = self.m.view(now);
        let raised = usize::from(matches!(answer[0], 1 | 3 | 4));
        assert_eq!(view.asks, before.asks + raised);
        assert!(view.asks <= 95 && view.queries <= 16 && view.attempts <= 32);
        if answer == WAITING {
            assert!(view.unanswered > 0);
        }
        if answer[0] == 6 {
            assert_eq!(view.unanswered, 0);
        }
        if matches!(answer[0], 0 | 6) && view.covered {
            assert_eq!(view.untried, 0);
        }
        seen.kinds[usize::from(answer[0])] += 1;
        if answer[0] == 7 {
            seen.fulls[usize::from(answer[1])] += 1;
        }
        seen.asks = seen.asks.max(view.asks);
        seen.queries = seen.queries.max(view.queries);
        seen.attempts = seen.attempts.max(view.attempts);
        seen.cancelled = seen.cancelled.max(view.cancelled);
        seen.refreshes = seen.refreshes.max(view.refreshes);
        match answer[..] {
            [1, id, kind, ..] => self.open.push((id.into(), Some(kind.into()))),
            [3, id, ..] => self.open.push((id.into(), None)),
            _ => {}
        }
        answer
    }

    /// An input to one of the open ids, or rarely to any; a refused one changes
    /// nothing.
    fn feed(&mut self, now: u64, dice: &mut Dice, seen: &mut Seen) {
        let body = input(dice, &self.open);
        let before = self.m.clone();
        let number = self.m.input(now, &body);
        if dice.chance(90) {
            self.open.retain(|(id, _)| write_number(*id) != body[1..2]);
        }
        seen.numbers[usize::from(number)] += 1;
        if number != 0 {
            assert_eq!(format!("{:?}", self.m), format!("{before:?}"));
        }
    }

    /// Calls until a final answer; the host calls again exactly as a timer ends.
    fn quiet(&mut self, mut now: u64, seen: &mut Seen) {
        for call in 1..=288 {
            let answer = self.call(now, seen);
            seen.quiet = seen.quiet.max(call);
            match answer[0] {
                0 | 5..=7 => return,
                2 => match now.checked_add(read_number(&answer, 1).unwrap().0) {
                    Some(end) => now = end,
                    None => return,
                },
                _ => {}
            }
        }
        panic!("no final answer by the 288th call");
    }
}

fn history(dice: &mut Dice, seen: &mut Seen) {
    let backwards = dice.chance(20);
    let patient = dice.pick(&[5, 20, 50]);
    let mut h = History { m: configuration(dice).machine(), open: Vec::new() };
    let mut now = dice.below(1_000);
    for _ in 0..dice.below(250) {
        now += dice.pick(&[0, 0, 1, 10 * MS, 50 * MS, 1_000 * MS]);
        if backwards && dice.chance(10) {
            now /= 2;
        }
        if dice.chance(patient) {
            h.feed(now, dice, seen);
        } else if matches!(h.call(now, seen)[0], 5 | 6) && dice.chance(20) {
            // Stable: only refusals can follow.
            return;
        }
    }
    if !backwards {
        h.quiet(now, seen);
    }
}

#[test]
fn random_histories_meet_demand_3() {
    let mut dice = Dice(0x5EED);
    let mut seen = Seen::default();
    for _ in 0..1_500 {
        history(&mut dice, &mut seen);
    }
    println!("{seen:?}");
    assert_eq!((seen.queries, seen.attempts), (16, 32));
    assert!(seen.kinds.iter().chain(&seen.fulls).all(|count| *count > 0), "{seen:?}");
    // Bodies are sound here: 1 to 6 don't come, the others all do.
    assert!(seen.numbers[1..7].iter().all(|count| *count == 0), "{seen:?}");
    assert!(seen.numbers[7..].iter().all(|count| *count > 0), "{seen:?}");
}
