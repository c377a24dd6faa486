//! Bodies, tapes and expected answers for the tests, field by field.

use model::{write_number, Machine};

pub const MS: u64 = 1_000_000;
pub const H3: u64 = 1;
pub const H2: u64 = 2;
pub const H1: u64 = 4;

pub const PREFER_V6: u64 = 0;
pub const PREFER_V4: u64 = 1;
pub const ONLY_V6: u64 = 2;
pub const ONLY_V4: u64 = 3;

pub const IP: u64 = 0;
pub const NAME: u64 = 1;
pub const NAME_WITH_HTTPS: u64 = 2;

pub const STALE: u64 = 1;
pub const FAILED: u64 = 2;

pub const HTTPS: u64 = 0;
pub const AAAA: u64 = 1;
pub const A: u64 = 2;

pub const CALL: [u8; 1] = [7];

pub fn numbers(values: &[u64]) -> Vec<u8> {
    values.iter().flat_map(|value| write_number(*value)).collect()
}

/// Length and bytes.
pub fn counted(bytes: &[u8]) -> Vec<u8> {
    [numbers(&[bytes.len() as u64]), bytes.to_vec()].concat()
}

pub fn name_host(name: &str) -> Vec<u8> {
    [vec![0], counted(name.as_bytes())].concat()
}

pub fn v4_host(last: u8) -> Vec<u8> {
    [vec![1], v4(last).to_vec()].concat()
}

pub fn v6_host(last: u8) -> Vec<u8> {
    [vec![2], v6(last).to_vec()].concat()
}

pub fn no_host() -> Vec<u8> {
    vec![3]
}

/// 192.0.2.last
pub fn v4(last: u8) -> [u8; 4] {
    [192, 0, 2, last]
}

/// 2001:db8::last
pub fn v6(last: u8) -> [u8; 16] {
    let mut bytes = [0; 16];
    bytes[..4].copy_from_slice(&[0x20, 0x01, 0x0D, 0xB8]);
    bytes[15] = last;
    bytes
}

fn port_field(port: Option<u16>) -> u64 {
    port.map_or(0, |port| u64::from(port) + 1)
}

pub fn ech_field(ech: Option<&[u8]>) -> Vec<u8> {
    match ech {
        None => vec![0],
        Some(bytes) => [numbers(&[bytes.len() as u64 + 1]), bytes.to_vec()].concat(),
    }
}

pub fn alternative(host: Vec<u8>, port: Option<u16>, version: u64) -> Vec<u8> {
    [host, numbers(&[port_field(port), version])].concat()
}

/// The defaults of the Rust, with the origin `a.b` at 443.
#[derive(Clone)]
pub struct Configuration {
    pub port: u64,
    pub origin: Vec<u8>,
    pub versions: u64,
    pub preference: u64,
    pub alternatives: Vec<Vec<u8>>,
    pub resolution: u64,
    pub delay: u64,
    pub multiplier: u64,
    pub flags: u64,
    pub mode: u64,
}

impl Default for Configuration {
    fn default() -> Self {
        Configuration {
            port: 443,
            origin: name_host("a.b"),
            versions: H3 | H2 | H1,
            preference: PREFER_V6,
            alternatives: Vec::new(),
            resolution: 50 * MS,
            delay: 250 * MS,
            multiplier: 1,
            flags: 3,
            mode: IP,
        }
    }
}

impl Configuration {
    pub fn bytes(&self) -> Vec<u8> {
        [
            numbers(&[self.port]),
            self.origin.clone(),
            numbers(&[self.versions, self.preference, self.alternatives.len() as u64]),
            self.alternatives.concat(),
            numbers(&[self.resolution, self.delay, self.multiplier, self.flags, self.mode]),
        ]
        .concat()
    }

    pub fn machine(&self) -> Machine {
        Machine::new(&self.bytes()).expect("a sound configuration")
    }
}

#[derive(Clone)]
pub struct Service {
    pub priority: u64,
    pub name: String,
    pub versions: u64,
    pub port: Option<u16>,
    pub ech: Option<Vec<u8>>,
    pub v4: Vec<u8>,
    pub v6: Vec<u8>,
}

/// Priority 1, H2 and H1, nothing else.
pub fn service(name: &str) -> Service {
    Service {
        priority: 1,
        name: name.to_string(),
        versions: H2 | H1,
        port: None,
        ech: None,
        v4: Vec::new(),
        v6: Vec::new(),
    }
}

impl Service {
    pub fn bytes(&self) -> Vec<u8> {
        [
            numbers(&[self.priority]),
            counted(self.name.as_bytes()),
            numbers(&[self.versions, port_field(self.port)]),
            ech_field(self.ech.as_deref()),
            numbers(&[self.v4.len() as u64]),
            self.v4.iter().flat_map(|last| v4(*last)).collect(),
            numbers(&[self.v6.len() as u64]),
            self.v6.iter().flat_map(|last| v6(*last)).collect(),
        ]
        .concat()
    }
}

fn answer(kind: u64, id: u64, flags: u64, items: Vec<Vec<u8>>) -> Vec<u8> {
    let head = numbers(&[kind, id, flags]);
    if flags & FAILED != 0 {
        return head;
    }
    [head, numbers(&[items.len() as u64]), items.concat()].concat()
}

pub fn aaaa(id: u64, flags: u64, lasts: &[u8]) -> Vec<u8> {
    let items = lasts.iter().map(|last| [v6(*last).to_vec(), vec![0]].concat());
    answer(1, id, flags, items.collect())
}

pub fn a(id: u64, flags: u64, lasts: &[u8]) -> Vec<u8> {
    answer(2, id, flags, lasts.iter().map(|last| v4(*last).to_vec()).collect())
}

pub fn https(id: u64, flags: u64, services: &[Service]) -> Vec<u8> {
    answer(3, id, flags, services.iter().map(Service::bytes).collect())
}

pub fn success(id: u64) -> Vec<u8> {
    numbers(&[4, id])
}

pub fn failure(id: u64) -> Vec<u8> {
    numbers(&[5, id])
}

pub fn ech_retry(id: u64, ech: &[u8]) -> Vec<u8> {
    [numbers(&[6, id]), counted(ech)].concat()
}

pub const WAITING: [u8; 1] = [0];
pub const SUCCEEDED: [u8; 1] = [5];
pub const FAILED_DNS: [u8; 2] = [6, 0];
pub const FAILED_CONNECTION: [u8; 2] = [6, 1];
pub const FULL_QUERIES: [u8; 2] = [7, 0];
pub const FULL_ATTEMPTS: [u8; 2] = [7, 1];

pub fn query(id: u64, kind: u64, name: &str) -> Vec<u8> {
    [numbers(&[1, id, kind, 1]), counted(name.as_bytes())].concat()
}

pub fn refresh(id: u64, kind: u64, name: &str) -> Vec<u8> {
    [numbers(&[1, id, kind, 0]), counted(name.as_bytes())].concat()
}

pub fn timer(left: u64) -> Vec<u8> {
    numbers(&[2, left])
}

pub fn cancel(id: u64) -> Vec<u8> {
    numbers(&[4, id])
}

pub fn to_v4(last: u8, port: u64) -> Vec<u8> {
    [vec![0], v4(last).to_vec(), numbers(&[port])].concat()
}

pub fn to_v6(last: u8, port: u64) -> Vec<u8> {
    [vec![1], v6(last).to_vec(), numbers(&[0, port])].concat()
}

pub fn to_name(name: &str, port: u64) -> Vec<u8> {
    [vec![2], counted(name.as_bytes()), numbers(&[port])].concat()
}

/// An endpoint as it ends an attempt answer.
pub fn endpoint(rank: u8, target: Vec<u8>, ech: Option<&[u8]>) -> Vec<u8> {
    [vec![rank], target, ech_field(ech)].concat()
}

pub fn attempt(id: u64, rank: u8, target: Vec<u8>) -> Vec<u8> {
    [numbers(&[3, id, 0]), endpoint(rank, target, None)].concat()
}

pub fn attempt_ech(id: u64, retry: u64, rank: u8, target: Vec<u8>, ech: &[u8]) -> Vec<u8> {
    [numbers(&[3, id, retry]), endpoint(rank, target, Some(ech))].concat()
}

/// A tape of one configuration and events.
pub fn tape(configuration: &[u8], events: &[(u64, &[u8])]) -> Vec<u8> {
    let mut tape = counted(configuration);
    for (moment, body) in events {
        tape.extend(numbers(&[*moment]));
        tape.extend(counted(body));
    }
    tape
}

/// Feeds an input that must be accepted.
pub fn feed(m: &mut Machine, now: u64, body: &[u8]) {
    assert_eq!(m.input(now, body), 0);
}

/// The default questions of a dual-stack machine: HTTPS 0, AAAA 1, A 2.
pub fn ask_three(m: &mut Machine, name: &str) {
    assert_eq!(m.output(0), query(0, HTTPS, name));
    assert_eq!(m.output(0), query(1, AAAA, name));
    assert_eq!(m.output(0), query(2, A, name));
}
