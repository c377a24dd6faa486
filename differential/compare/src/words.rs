//! Tapes and answers in words.

use crate::read::{answer, frames, Answer, Frames, Reader, Target};
use std::fmt::Write;
use std::net::{Ipv4Addr, Ipv6Addr};

pub fn hex(bytes: &[u8]) -> String {
    let pairs: Vec<String> = bytes.iter().map(|b| format!("{b:02X}")).collect();
    pairs.join(" ")
}

/// A tape in words, each event with the answer to it, if there are answers.
pub fn tape(tape: &[u8], answers: &[u8]) -> String {
    let Frames { configuration: configured, events, place } = frames(tape);
    let mut out = String::new();
    match configured {
        Some(body) => out += &configuration(body),
        None => out += "no configuration can be read\n",
    }
    let mut reader = Reader::new(answers);
    for (moment, body) in events {
        let _ = write!(out, "at {moment}: {}", self::body(body));
        let from = reader.at;
        match answer(&mut reader) {
            Some(heard) => {
                let _ = write!(out, "\n    -> {}", said(&heard));
            }
            None if from < answers.len() => {
                let _ = write!(out, "\n    -> bytes that are no answer: {}", hex(&answers[from..]));
                reader.at = answers.len();
            }
            None => {}
        }
        out.push('\n');
    }
    if place < tape.len() {
        let _ = writeln!(out, "from place {place} on, no whole event: {}", hex(&tape[place..]));
    }
    out
}

/// Answers in words, one to a line.
pub fn answers(bytes: &[u8]) -> Vec<String> {
    let mut reader = Reader::new(bytes);
    let mut lines = Vec::new();
    while !reader.done() {
        let from = reader.at;
        match answer(&mut reader) {
            Some(heard) => lines.push(said(&heard)),
            None => {
                lines.push(format!("bytes that are no answer: {}", hex(&bytes[from..])));
                break;
            }
        }
    }
    lines
}

pub const REFUSALS: [&str; 14] = [
    "accepted",
    "refused, 1 Cut",
    "refused, 2 BadNumber",
    "refused, 3 OutOfRange",
    "refused, 4 BadName",
    "refused, 5 TooMany",
    "refused, 6 Trailing",
    "refused, 7 UnknownId",
    "refused, 8 AlreadyAnswered",
    "refused, 9 WrongType",
    "refused, 10 StaleRefresh",
    "refused, 11 EchNotSent",
    "refused, 12 AlreadyEnded",
    "13 NoRoom",
];

/// A word from a list, or the number itself.
fn word(list: &[&str], n: u64) -> String {
    list.get(n as usize).map_or_else(|| format!("{n}?"), |word| (*word).into())
}

fn said(answer: &Answer) -> String {
    match answer {
        Answer::Waiting => "Waiting".into(),
        Answer::Query { id, kind, allow_stale, name } => {
            let kind = word(&["HTTPS", "AAAA", "A"], *kind);
            let stale = word(&["a refresh: fresh only", "stale allowed"], *allow_stale);
            format!("query {id}: {kind} of {} ({stale})", text(name))
        }
        Answer::Timer(left) => format!("timer of {left} ns"),
        Answer::Attempt { id, retry, rank, target, ech } => {
            let rank = word(&["H3", "H2 or H1", "H2", "H1"], *rank);
            let retry = word(&["attempt", "ECH retry, attempt"], *retry);
            format!("{retry} {id}: {} over {rank}, {}", self::target(target), self::ech(ech))
        }
        Answer::Cancel(id) => format!("cancel attempt {id}"),
        Answer::Succeeded => "Succeeded".into(),
        Answer::Failed(reason) => format!("Failed: {}", word(&["DNS", "connection"], *reason)),
        Answer::Full(kind) => {
            format!("Full: no room for {}", word(&["a query", "an attempt"], *kind))
        }
        Answer::Input(number) => word(&REFUSALS, *number),
    }
}

fn target(target: &Target) -> String {
    match target {
        Target::V4(address, port) => format!("{}:{port}", Ipv4Addr::from(*address)),
        Target::V6(address, scope, port) => format!("{}:{port}", v6(address, *scope)),
        Target::Name(name, port) => format!("{}:{port} by name", text(name)),
    }
}

fn v6(address: &[u8; 16], scope: u64) -> String {
    let address = Ipv6Addr::from(*address);
    match scope {
        0 => format!("[{address}]"),
        _ => format!("[{address}%{scope}]"),
    }
}

fn ech(ech: &Option<Vec<u8>>) -> String {
    match ech {
        None => "no ECH".into(),
        Some(bytes) if bytes.is_empty() => "ECH of no bytes".into(),
        Some(bytes) => format!("ECH {}", short(bytes)),
    }
}

fn short(bytes: &[u8]) -> String {
    match bytes.len() {
        0..=16 => hex(bytes),
        n => format!("{} .. ({n} bytes)", hex(&bytes[..8])),
    }
}

fn text(name: &[u8]) -> String {
    let shown: String =
        name.iter().flat_map(|b| std::ascii::escape_default(*b)).map(char::from).collect();
    match shown.len() {
        0..=60 => format!("\"{shown}\""),
        n => format!("\"{}..\" ({n} bytes)", &shown[..40]),
    }
}

fn versions(bits: u64) -> String {
    let words = ["H3", "H2", "H1"];
    let on: Vec<&str> = (0..3).filter(|i| bits >> i & 1 == 1).map(|i| words[i]).collect();
    match (bits, on.is_empty()) {
        (8.., _) => format!("versions {bits}?"),
        (_, true) => "no version".into(),
        _ => on.join("+"),
    }
}

fn port(port: Option<u64>) -> String {
    port.map_or_else(|| "the origin's port".into(), |port| format!("port {port}"))
}

/// A configuration in words, a line for each part.
fn configuration(body: &[u8]) -> String {
    let mut reader = Reader::new(body);
    let mut out = String::new();
    if read_configuration(&mut reader, &mut out).is_none() {
        let _ = writeln!(out, "configuration not whole: {}", short(body));
    } else if !reader.done() {
        let _ = writeln!(out, "configuration goes on: {}", short(reader.rest()));
    }
    out
}

fn read_configuration(reader: &mut Reader, out: &mut String) -> Option<()> {
    let port = reader.number()?;
    let host = host(reader)?;
    let _ = writeln!(out, "origin {host}, port {port}");
    let enabled = versions(reader.number()?);
    let preferences =
        ["dual stack, IPv6 preferred", "dual stack, IPv4 preferred", "IPv6 only", "IPv4 only"];
    let preference = word(&preferences, reader.number()?);
    let count = reader.number()?;
    for at in 0..count {
        let host = self::host(reader)?;
        let port = self::port(reader.option()?);
        let version = word(&["H3", "H2", "H1"], reader.number()?);
        let _ = writeln!(out, "alternative service {at}: {host}, {port}, {version}");
    }
    let (resolution, attempt, multiplier) = (reader.number()?, reader.number()?, reader.number()?);
    let flags = reader.number()?;
    let mode = word(&["Ip", "Name", "NameWithHttpsRr"], reader.number()?);
    let ech = if flags & 1 == 1 { "on" } else { "off" };
    let wait = if flags & 2 == 2 { "on" } else { "off" };
    let _ = writeln!(
        out,
        "{enabled}; {preference}; mode {mode}; ECH {ech}; wait for preferred address {wait}"
    );
    let _ = writeln!(
        out,
        "resolution delay {resolution} ns, attempt delay {attempt} ns, multiplier {multiplier}"
    );
    if flags > 3 {
        let _ = writeln!(out, "flags {flags}?");
    }
    Some(())
}

fn host(reader: &mut Reader) -> Option<String> {
    Some(match reader.number()? {
        0 => text(reader.counted()?),
        1 => Ipv4Addr::from(reader.array::<4>()?).to_string(),
        2 => v6(&reader.array()?, 0),
        3 => "no host of its own".into(),
        kind => format!("host kind {kind}?"),
    })
}

/// An event's body in words.
pub fn body(body: &[u8]) -> String {
    let mut reader = Reader::new(body);
    match read_body(&mut reader) {
        Some(words) if reader.done() => words,
        Some(words) => format!("{words}; more bytes: {}", short(reader.rest())),
        None => format!("body that can't be read: {}", short(body)),
    }
}

fn read_body(reader: &mut Reader) -> Option<String> {
    let kind = reader.number()?;
    if kind == 7 {
        return Some("call".into());
    }
    if kind == 0 || kind > 7 {
        return None;
    }
    let id = reader.number()?;
    Some(match kind {
        1..=3 => {
            let flags = reader.number()?;
            let stale = if flags & 1 == 1 { ", stale" } else { "" };
            let name = word(&["", "AAAA", "A", "HTTPS"], kind);
            if flags & 2 == 2 {
                return Some(format!("{name} answer to query {id}{stale}: failed"));
            }
            let count = reader.number()?;
            let mut items = Vec::new();
            for _ in 0..count {
                items.push(match kind {
                    1 => v6(&reader.array()?, reader.number()?),
                    2 => Ipv4Addr::from(reader.array::<4>()?).to_string(),
                    _ => service(reader)?,
                });
            }
            let separator = if kind == 3 { "\n        " } else { ", " };
            let items = match items.is_empty() {
                true => "empty".into(),
                false => items.join(separator),
            };
            let lead = if kind == 3 && count > 0 { separator } else { " " };
            format!("{name} answer to query {id}{stale}:{lead}{items}")
        }
        4 => format!("attempt {id} succeeded"),
        5 => format!("attempt {id} failed"),
        _ => format!(
            "attempt {id} rejected, ECH to retry with: {}",
            ech(&Some(reader.counted()?.to_vec()))
        ),
    })
}

fn service(reader: &mut Reader) -> Option<String> {
    let priority = reader.number()?;
    let name = text(reader.counted()?);
    let offered = versions(reader.number()?);
    let port = port(reader.option()?);
    let ech = ech(&reader.ech()?);
    let mut hints = Vec::new();
    for _ in 0..reader.number()? {
        hints.push(Ipv4Addr::from(reader.array::<4>()?).to_string());
    }
    for _ in 0..reader.number()? {
        hints.push(v6(&reader.array()?, 0));
    }
    let hints = match hints.is_empty() {
        true => "no hints".into(),
        false => format!("hints {}", hints.join(", ")),
    };
    Some(format!("service {name}, priority {priority}, {offered}, {port}, {ech}, {hints}"))
}
