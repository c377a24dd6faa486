//! Makes a disagreement small: fewer events, plainer bodies, a plainer configuration.

use crate::write::{Alternative, Body, Configuration, Event, History, Host, Service};

/// The smallest history found that still `fails`.
pub fn shrink(history: &History, fails: &mut dyn FnMut(&History) -> bool) -> History {
    let mut best = history.clone();
    // Each round keeps what it gained; a round without gain is the last.
    for _ in 0..20 {
        let before = best.clone();
        fewer_events(&mut best, fails);
        try_all(&mut best, fails, plainer_events);
        try_all(&mut best, fails, plainer_configurations);
        if best == before {
            break;
        }
    }
    best
}

fn accept(best: &mut History, candidate: History, fails: &mut dyn FnMut(&History) -> bool) -> bool {
    if candidate != *best && fails(&candidate) {
        *best = candidate;
        return true;
    }
    false
}

/// Takes each candidate that still fails, and starts again from it, until none does.
fn try_all(
    best: &mut History,
    fails: &mut dyn FnMut(&History) -> bool,
    candidates: fn(&History) -> Vec<History>,
) {
    let mut left = 400;
    while left > 0 {
        let taken = candidates(best).into_iter().any(|candidate| accept(best, candidate, fails));
        if !taken {
            return;
        }
        left -= 1;
    }
}

/// Runs of events taken out, long runs first. Ids behind a call that is gone may move down by one.
fn fewer_events(best: &mut History, fails: &mut dyn FnMut(&History) -> bool) {
    let mut size = best.events.len().next_power_of_two();
    while size > 0 {
        let mut at = best.events.len().saturating_sub(size);
        loop {
            let end = (at + size).min(best.events.len());
            let mut candidate = best.clone();
            let gone: Vec<Event> = candidate.events.drain(at..end).collect();
            if !accept(best, candidate.clone(), fails) && size <= 2 {
                let calls = gone.iter().filter(|e| e.body.is_call()).count() as u64;
                for least in 0..40 {
                    let moved = with_ids_moved(&candidate, at, least, calls);
                    if accept(best, moved, fails) {
                        break;
                    }
                }
            }
            if at == 0 {
                break;
            }
            at = at.saturating_sub(size).min(best.events.len());
        }
        size /= 2;
    }
}

fn with_ids_moved(history: &History, from: usize, least: u64, by: u64) -> History {
    let mut moved = history.clone();
    for event in &mut moved.events[from..] {
        if let Some(id) = event.body.id() {
            if *id >= least && *id >= by {
                *id -= by;
            }
        }
    }
    moved
}

fn plainer_events(history: &History) -> Vec<History> {
    let mut found = Vec::new();
    for (at, event) in history.events.iter().enumerate() {
        let earlier = at.checked_sub(1).map_or(0, |before| history.events[before].moment);
        for moment in [0, earlier, event.moment / 2] {
            if moment < event.moment {
                let mut candidate = history.clone();
                candidate.events[at].moment = moment;
                found.push(candidate);
            }
        }
        for body in plainer_bodies(&event.body) {
            let mut candidate = history.clone();
            candidate.events[at].body = body;
            found.push(candidate);
        }
    }
    found
}

fn without<T: Clone>(of: &[T]) -> Vec<Vec<T>> {
    (0..of.len())
        .map(|gone| {
            let mut rest = of.to_vec();
            rest.remove(gone);
            rest
        })
        .collect()
}

fn plainer_bodies(body: &Body) -> Vec<Body> {
    let mut found = Vec::new();
    match body.clone() {
        Body::Aaaa { id, flags, items } => {
            found.extend(without(&items).into_iter().map(|items| Body::Aaaa { id, flags, items }));
            found.extend((0..flags).map(|flags| Body::Aaaa { id, flags, items: items.clone() }));
        }
        Body::A { id, flags, items } => {
            found.extend(without(&items).into_iter().map(|items| Body::A { id, flags, items }));
            found.extend((0..flags).map(|flags| Body::A { id, flags, items: items.clone() }));
        }
        Body::Https { id, flags, items } => {
            found.extend(without(&items).into_iter().map(|items| Body::Https { id, flags, items }));
            found.extend((0..flags).map(|flags| Body::Https { id, flags, items: items.clone() }));
            for (at, service) in items.iter().enumerate() {
                for plainer in plainer_services(service) {
                    let mut items = items.clone();
                    items[at] = plainer;
                    found.push(Body::Https { id, flags, items });
                }
            }
        }
        Body::Retry { id, ech } => {
            found.push(Body::Failure(id));
            if !ech.is_empty() {
                found.push(Body::Retry { id, ech: ech[..ech.len() / 2].to_vec() });
            }
        }
        Body::Raw(raw) => found.extend(without(&raw).into_iter().take(40).map(Body::Raw)),
        Body::Success(_) | Body::Failure(_) | Body::Call => {}
    }
    found
}

fn plainer_services(service: &Service) -> Vec<Service> {
    let mut found = Vec::new();
    let mut add = |change: &dyn Fn(&mut Service)| {
        let mut plainer = service.clone();
        change(&mut plainer);
        if plainer != *service {
            found.push(plainer);
        }
    };
    add(&|s| s.ech = None);
    add(&|s| s.ech = s.ech.as_ref().map(|e| e[..e.len() / 2].to_vec()));
    add(&|s| s.port = None);
    add(&|s| s.priority = 0);
    add(&|s| s.v4.truncate(s.v4.len() / 2));
    add(&|s| s.v6.truncate(s.v6.len() / 2));
    for bits in [4, 2, 1, 6] {
        if bits < service.versions {
            add(&|s| s.versions = bits);
        }
    }
    add(&|s| s.name = b"c.d".to_vec());
    found
}

fn plainer_configurations(history: &History) -> Vec<History> {
    let mut found = Vec::new();
    let mut add = |change: &dyn Fn(&mut Configuration)| {
        let mut candidate = history.clone();
        change(&mut candidate.configuration);
        found.push(candidate);
    };
    for gone in 0..history.configuration.alternatives.len() {
        add(&|c| {
            c.alternatives.remove(gone);
        });
        add(&|c| c.alternatives[gone] = Alternative { host: Host::None, port: None, version: 1 });
    }
    add(&|c| c.host = Host::Name(b"a.b".to_vec()));
    add(&|c| c.port = 443);
    add(&|c| c.versions = 7);
    add(&|c| c.preference = 0);
    add(&|c| c.mode = 0);
    add(&|c| c.flags = 3);
    add(&|c| c.multiplier = 1);
    add(&|c| c.attempt = 0);
    add(&|c| c.resolution = 0);
    add(&|c| c.attempt = 250_000_000);
    add(&|c| c.resolution = 50_000_000);
    // What is default already, or was made smaller once, isn't tried again.
    found.retain(|candidate| weight(&candidate.configuration) < weight(&history.configuration));
    found
}

/// How far a configuration is from the plainest.
fn weight(c: &Configuration) -> u64 {
    let host = match &c.host {
        Host::Name(name) => u64::from(name != b"a.b"),
        _ => 1,
    };
    let alternatives: u64 = c
        .alternatives
        .iter()
        .map(|a| {
            2 + u64::from(a.host != Host::None) + u64::from(a.port.is_some() || a.version != 1)
        })
        .sum();
    let delay = |d: u64, default: u64| match d {
        0 => 0,
        d if d == default => 1,
        _ => 2,
    };
    host + alternatives
        + u64::from(c.port != 443)
        + u64::from(c.versions != 7)
        + u64::from(c.preference != 0)
        + u64::from(c.mode != 0)
        + u64::from(c.flags != 3)
        + u64::from(c.multiplier != 1)
        + delay(c.attempt, 250_000_000)
        + delay(c.resolution, 50_000_000)
}

/// The smallest tape found that still `fails`, by taking bytes away and making them 0.
pub fn bytes(tape: &[u8], fails: &mut dyn FnMut(&[u8]) -> bool) -> Vec<u8> {
    let mut best = tape.to_vec();
    let mut tried = 0;
    let mut size = best.len().next_power_of_two();
    while size > 0 {
        let mut at = 0;
        while at < best.len() && tried < 3000 {
            let mut candidate = best.clone();
            candidate.drain(at..(at + size).min(best.len()));
            tried += 1;
            match fails(&candidate) {
                true => best = candidate,
                false => at += size,
            }
        }
        size /= 2;
    }
    best
}
