//! A flat state and a listing in words.

use compare::words;
use model::flat::*;
use std::fmt::Write;
use std::net::{Ipv4Addr, Ipv6Addr};

fn word(list: &[&str], n: u64) -> String {
    list[(n % list.len() as u64) as usize].into()
}

fn text(name: &[u8]) -> String {
    match name {
        [] => "(empty)".into(),
        name => String::from_utf8_lossy(name).into_owned(),
    }
}

/// A name's place and the name.
fn name(flat: &Flat, place: u64) -> String {
    format!("{} (place {place})", text(flat.name(place as usize)))
}

fn v4(low: u64) -> String {
    Ipv4Addr::from(low as u32).to_string()
}

fn v6(numbers: &[u64]) -> String {
    let address = Ipv6Addr::from((u128::from(numbers[0]) << 64) | u128::from(numbers[1]));
    match numbers.get(2) {
        None | Some(0) => address.to_string(),
        Some(scope) => format!("{address}%{scope}"),
    }
}

/// A host of that kind; an address in its two halves.
fn host(flat: &Flat, kind: u64, halves: &[u64], place: u64) -> String {
    match kind {
        0 => name(flat, place),
        1 => v4(halves[1]),
        2 => v6(&halves[..2]),
        _ => "the origin's host".into(),
    }
}

fn port(n: u64) -> String {
    n.checked_sub(1).map_or("the origin's port".into(), |port| format!("port {port}"))
}

fn versions(n: u64) -> String {
    let names = ["H3", "H2", "H1"];
    let on: Vec<&str> = (0..3).filter(|bit| n >> bit & 1 == 1).map(|bit| names[bit]).collect();
    format!("versions [{}]", on.join(" "))
}

/// Slots that a count names, cut at their size.
fn used(count: u64, most: usize) -> String {
    if count > most as u64 {
        format!("{count}, cut at {most}")
    } else {
        count.to_string()
    }
}

/// The state, one record to a line.
pub fn state(flat: &Flat) -> String {
    let n = &flat.numbers;
    let mut out = format!(
        "origin {}, port {}, {}, {}, mode {}, ECH {}\n",
        host(flat, n[RULES] % 3, &n[RULES + 1..], 0),
        n[RULES + 3],
        versions(n[RULES + 4]),
        word(&["v6 first", "v4 first", "v6 only", "v4 only"], n[RULES + 5]),
        word(&["Ip", "Name", "NameWithHttpsRr"], n[RULES + 6]),
        word(&["off", "on"], n[RULES + 7]),
    );
    let _ = writeln!(out, "alternative services: {}", used(n[ALTS], 4));
    for i in 0..n[ALTS].min(4) as usize {
        let alt = &n[ALTS + 1 + ALT * i..];
        let version = word(&["H3", "H2", "H1"], alt[4]);
        let host = host(flat, alt[0] % 4, &alt[1..], 1 + i as u64);
        let _ = writeln!(out, "  {host}, {}, {version}", port(alt[3]));
    }
    let _ = writeln!(out, "records: {}", used(n[QUERIES], 16));
    for i in 0..n[QUERIES].min(16) as usize {
        let _ = writeln!(out, "  {}", record(flat, i));
    }
    let _ = writeln!(out, "services: {}", used(n[SERVICES], 4));
    for i in 0..n[SERVICES].min(4) as usize {
        let _ = writeln!(out, "  {}", service(flat, &n[SERVICES + 1 + SERVICE * i..]));
    }
    out
}

fn record(flat: &Flat, i: usize) -> String {
    let query = &flat.numbers[QUERIES + 1 + QUERY * i..];
    let head = format!("{} of {}", word(&["HTTPS", "AAAA", "A"], query[0]), name(flat, query[1]));
    match query[2] % 3 {
        0 => format!("{head}: no answer"),
        1 => format!("{head}: failed"),
        _ => {
            let held = &flat.numbers[ANSWERS + 8 * ADDRESS * i..];
            let shown = |a: &[u64]| if query[0] % 3 == 1 { v6(a) } else { v4(a[1]) };
            let list: Vec<String> =
                held.chunks(ADDRESS).take(query[3].min(8) as usize).map(shown).collect();
            format!("{head}: held, {} [{}]", used(query[3], 8), list.join(" "))
        }
    }
}

fn service(flat: &Flat, n: &[u64]) -> String {
    let ech = match n[2].checked_sub(1) {
        None => "no ECH".into(),
        Some(place) => format!("ECH {:02X?} (place {place})", flat.ech(place as usize)),
    };
    let four: Vec<String> =
        n[HINTS_4 + 1..].iter().take(n[HINTS_4].min(4) as usize).map(|a| v4(*a)).collect();
    let six = n[HINTS_6 + 1..].chunks(ADDRESS).take(n[HINTS_6].min(4) as usize);
    let six: Vec<String> = six.map(|a| v6(&a[..2])).collect();
    format!(
        "priority {}, {}, {}, {}, {ech}, hints [{}] [{}]",
        n[0],
        name(flat, n[1]),
        versions(n[3]),
        port(n[4]),
        four.join(" "),
        six.join(" ")
    )
}

/// A listing, one endpoint to a line.
pub fn listing(listing: &[Vec<u8>]) -> String {
    let mut out = String::new();
    for (i, endpoint) in listing.iter().enumerate() {
        // An endpoint's bytes end an attempt answer, so they are read as one.
        let answer = [&[3, 0, 0][..], endpoint].concat();
        let said = words::answers(&answer).join("; ");
        let _ = writeln!(out, "  {i}: {}", said.strip_prefix("attempt 0: ").unwrap_or(&said));
    }
    out
}

/// A listing as the test entry writes it, one endpoint to a line.
pub fn numbered<const N: usize>(listing: &[[u64; N]]) -> String {
    let lines = listing.iter().enumerate().map(|(i, numbers)| format!("  {i}: {numbers:?}\n"));
    lines.collect()
}
