//! What a machine's listing rests on, as flat numbers: the form that the test
//! entry of the proved listing reads. Names and ECH bytes lie in tables with
//! fixed places, so a place is found here for each that the machine holds.

use crate::bodies::{Address, Answer, Bytes, Host, Mode, Preference, Service, Type, H1, H2, H3};
use crate::names::https_name;
use crate::state::{Query, Refresh, State};

/// Where each part starts.
pub const RULES: usize = 0;
pub const ALTS: usize = 8;
pub const QUERIES: usize = 29;
pub const ANSWERS: usize = 94;
pub const SERVICES: usize = 478;
pub const LENGTHS: usize = 571;
pub const NUMBERS: usize = 585;
/// Numbers of an alternative, a query, an address and a service.
pub const ALT: usize = 5;
pub const QUERY: usize = 4;
pub const ADDRESS: usize = 3;
pub const SERVICE: usize = 23;
/// In a service: how many hints of IPv4, then 4 of them; the same of IPv6, whose scope isn't read.
pub const HINTS_4: usize = 5;
pub const HINTS_6: usize = 10;
/// Rooms for names, and the bytes of each.
pub const PLACES: usize = 14;
pub const ROOM: usize = 253;

#[derive(Clone, PartialEq, Debug)]
pub struct Flat {
    pub numbers: Vec<u64>,
    pub names: Vec<u8>,
    /// By place: 0 to 3 the first HTTPS answer's, 4 to 7 its refresh's.
    pub echs: Vec<Vec<u8>>,
}

impl Flat {
    /// The name at a place, a length above its room cut; empty outside the table.
    pub fn name(&self, place: usize) -> &[u8] {
        match place {
            0..PLACES => {
                let length = self.numbers[LENGTHS + place].min(ROOM as u64);
                &self.names[ROOM * place..][..length as usize]
            }
            _ => &[],
        }
    }

    /// The ECH bytes at a place; empty outside the table.
    pub fn ech(&self, place: usize) -> &[u8] {
        self.echs.get(place).map_or(&[], |bytes| bytes)
    }
}

/// Names by place: 0 origin, 1 to 4 alternatives, 5 to 8 targets of the first
/// HTTPS answer, 9 to 12 of its refresh, 13 the HTTPS name with its prefix.
type Names = [Option<Bytes>; PLACES];

/// The flat state. A record's name may lie at several places; `turn` chooses.
pub fn flat(m: &State, turn: usize) -> Flat {
    let mut flat = Flat {
        numbers: vec![0; NUMBERS],
        names: vec![0; PLACES * ROOM],
        echs: vec![Vec::new(); 8],
    };
    let mut names = known_names(m);
    rules(m, &mut flat.numbers[RULES..]);
    alternatives(m, &mut flat.numbers[ALTS..]);
    flat.numbers[QUERIES] = m.queries.len() as u64;
    for (i, query) in m.queries.iter().enumerate() {
        let place = place_of(&mut names, &query.name, turn + i);
        self::query(query, place, &mut flat.numbers[QUERIES + 1 + QUERY * i..]);
        answer(query, &mut flat.numbers[ANSWERS + 8 * ADDRESS * i..]);
    }
    services(m, &mut flat);
    for (place, name) in names.iter().enumerate() {
        let name = name.as_deref().unwrap_or(&[]);
        flat.numbers[LENGTHS + place] = name.len() as u64;
        flat.names[ROOM * place..][..name.len()].copy_from_slice(name);
    }
    flat
}

/// The first place of the held HTTPS answer's targets.
fn first_target(m: &State) -> usize {
    let https = m.queries.iter().find(|query| query.kind == Type::Https);
    match https {
        Some(query) if query.refresh == Refresh::Done => 9,
        _ => 5,
    }
}

fn known_names(m: &State) -> Names {
    let mut names: Names = Default::default();
    names[0] = m.origin_name().cloned();
    for (i, alternative) in m.configuration.alternatives.iter().enumerate() {
        if let Some(Host::Name(name)) = &alternative.host {
            names[1 + i] = Some(name.clone());
        }
    }
    for (i, service) in m.services().enumerate() {
        names[first_target(m) + i] = Some(service.name.clone());
    }
    if let (Some(name), true) = (m.origin_name(), m.configuration.port != 443) {
        names[13] = Some(https_name(name, m.configuration.port).into());
    }
    names
}

/// A place that holds the name. One that no place holds was a target of an
/// answer that is gone, and takes a free place of the first.
fn place_of(names: &mut Names, name: &Bytes, turn: usize) -> usize {
    let holds = |place: &usize| names[*place].as_ref() == Some(name);
    let places: Vec<usize> = (0..PLACES).filter(holds).collect();
    if !places.is_empty() {
        return places[turn % places.len()];
    }
    let free = (5..9).find(|place| names[*place].is_none());
    let free = free.expect("a place for each name");
    names[free] = Some(name.clone());
    free
}

fn rules(m: &State, out: &mut [u64]) {
    let rules = &m.configuration;
    host(Some(&rules.origin), out);
    out[3] = rules.port.into();
    out[4] = rules.versions.into();
    out[5] = match rules.preference {
        Preference::DualStackPreferV6 => 0,
        Preference::DualStackPreferV4 => 1,
        Preference::Ipv6Only => 2,
        Preference::Ipv4Only => 3,
    };
    out[6] = match rules.mode {
        Mode::Ip => 0,
        Mode::Name => 1,
        Mode::NameWithHttpsRr => 2,
    };
    out[7] = rules.ech.into();
}

/// 0 name, 1 IPv4, 2 IPv6, 3 none (an alternative's: the origin's); then the address in two halves.
fn host(host: Option<&Host>, out: &mut [u64]) {
    match host {
        Some(Host::Name(_)) => out[0] = 0,
        Some(Host::Literal(literal)) => {
            out[0] = match literal {
                Address::V4(_) => 1,
                Address::V6(..) => 2,
            };
            let [high, low, _] = address(literal);
            out[1] = high;
            out[2] = low;
        }
        None => out[0] = 3,
    }
}

/// High half, low half, scope.
fn address(address: &Address) -> [u64; ADDRESS] {
    match address {
        Address::V4(bytes) => [0, u32::from_be_bytes(*bytes).into(), 0],
        Address::V6(bytes, scope) => {
            let bits = u128::from_be_bytes(*bytes);
            [(bits >> 64) as u64, bits as u64, (*scope).into()]
        }
    }
}

fn port(port: Option<u16>) -> u64 {
    port.map_or(0, |port| u64::from(port) + 1)
}

fn alternatives(m: &State, out: &mut [u64]) {
    let list = &m.configuration.alternatives;
    out[0] = list.len() as u64;
    for (i, alternative) in list.iter().enumerate() {
        let out = &mut out[1 + ALT * i..];
        host(alternative.host.as_ref(), out);
        out[3] = port(alternative.port);
        out[4] = match alternative.version {
            H3 => 0,
            H2 => 1,
            H1 => 2,
            other => unreachable!("version {other}"),
        };
    }
}

/// Type, place of the name, 0 pending 1 failed 2 held, how many addresses.
fn query(query: &Query, place: usize, out: &mut [u64]) {
    out[0] = match query.kind {
        Type::Https => 0,
        Type::Aaaa => 1,
        Type::A => 2,
    };
    out[1] = place as u64;
    let held = query.held.as_ref();
    out[2] = match held.map(|held| &held.answer) {
        None => 0,
        Some(Answer::Failed) => 1,
        Some(_) => 2,
    };
    out[3] = held.map_or(0, |held| State::addresses(held).len() as u64);
}

fn answer(query: &Query, out: &mut [u64]) {
    let addresses = query.held.as_ref().map_or(&[][..], State::addresses);
    for (i, held) in addresses.iter().enumerate() {
        out[ADDRESS * i..][..ADDRESS].copy_from_slice(&address(held));
    }
}

fn services(m: &State, flat: &mut Flat) {
    let first = first_target(m);
    for (i, service) in m.services().enumerate() {
        flat.numbers[SERVICES] += 1;
        let out = &mut flat.numbers[SERVICES + 1 + SERVICE * i..];
        self::service(service, first + i, out);
        if let Some(ech) = &service.ech {
            let place = first - 5 + i;
            out[2] = place as u64 + 1;
            flat.echs[place] = ech.to_vec();
        }
    }
}

/// Priority, place of the name, ECH place, versions, port, hints.
fn service(service: &Service, place: usize, out: &mut [u64]) {
    out[0] = service.priority.into();
    out[1] = place as u64;
    out[3] = service.versions.into();
    out[4] = port(service.port);
    out[HINTS_4] = service.v4_hints.len() as u64;
    for (i, hint) in service.v4_hints.iter().enumerate() {
        out[HINTS_4 + 1 + i] = address(hint)[1];
    }
    out[HINTS_6] = service.v6_hints.len() as u64;
    for (i, hint) in service.v6_hints.iter().enumerate() {
        out[HINTS_6 + 1 + ADDRESS * i..][..ADDRESS].copy_from_slice(&address(hint));
    }
}
