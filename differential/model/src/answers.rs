//! Document 01, "Numbers and bodies", the last paragraph: an answer's bytes.

use crate::bodies::{Address, Bytes, Type};
use crate::numbers::write_number;
use crate::state::{Endpoint, Target};

fn numbers(values: &[u64]) -> Vec<u8> {
    values.iter().flat_map(|value| write_number(*value)).collect()
}

/// "0 Waiting"
pub fn waiting() -> Vec<u8> {
    numbers(&[0])
}

/// "1 query": id, type, whether a stale answer will do, name (rules B.9 and
/// B.11).
pub fn query(id: u64, kind: Type, allow_stale: bool, name: &[u8]) -> Vec<u8> {
    let kind = match kind {
        Type::Https => 0,
        Type::Aaaa => 1,
        Type::A => 2,
    };
    let mut answer = numbers(&[1, id, kind, u64::from(allow_stale), name.len() as u64]);
    answer.extend(name);
    answer
}

/// "2 timer (ns)"
pub fn timer(left: u64) -> Vec<u8> {
    numbers(&[2, left])
}

/// "3 attempt (id, retry flag, version rank, target, ECH)"
pub fn attempt(id: u64, retry: bool, endpoint: &Endpoint) -> Vec<u8> {
    let mut answer = numbers(&[3, id, u64::from(retry)]);
    answer.extend(self::endpoint(endpoint));
    answer
}

/// "4 cancel (id)"
pub fn cancel(id: u64) -> Vec<u8> {
    numbers(&[4, id])
}

/// "5 Succeeded"
pub fn succeeded() -> Vec<u8> {
    numbers(&[5])
}

/// "6 Failed (0 DNS, 1 connection)"
pub fn failed(reason: u64) -> Vec<u8> {
    numbers(&[6, reason])
}

/// "7 Full (0 queries, 1 attempts)"
pub fn full_queries() -> Vec<u8> {
    numbers(&[7, 0])
}

pub fn full_attempts() -> Vec<u8> {
    numbers(&[7, 1])
}

/// "Each accepted or refused input is answered `8, number`"
pub fn input(number: u8) -> Vec<u8> {
    numbers(&[8, u64::from(number)])
}

/// "version rank, target, ECH"
pub fn endpoint(endpoint: &Endpoint) -> Vec<u8> {
    let mut bytes = numbers(&[u64::from(endpoint.rank)]);
    bytes.extend(target(&endpoint.target, u64::from(endpoint.port)));
    bytes.extend(ech(endpoint.ech.as_ref()));
    bytes
}

/// Rule B.10: the target's case and values, with a plain port.
fn target(target: &Target, port: u64) -> Vec<u8> {
    match target {
        Target::Address(Address::V4(bytes)) => around(&[0], bytes, &[port]),
        Target::Address(Address::V6(bytes, scope)) => {
            around(&[1], bytes, &[u64::from(*scope), port])
        }
        Target::Name(name) => around(&[2, name.len() as u64], name, &[port]),
    }
}

/// "ECH as in an HTTPS item": 0 none, else length+1, bytes.
fn ech(ech: Option<&Bytes>) -> Vec<u8> {
    match ech {
        None => numbers(&[0]),
        Some(bytes) => around(&[bytes.len() as u64 + 1], bytes, &[]),
    }
}

/// Raw bytes between numbers.
fn around(before: &[u64], raw: &[u8], after: &[u64]) -> Vec<u8> {
    [&numbers(before), raw, &numbers(after)].concat()
}
