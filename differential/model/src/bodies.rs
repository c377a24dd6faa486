//! Document 01, "Numbers and bodies": the fields of a configuration body and of
//! an input body, read left to right; "the first fault is given".

use std::sync::Arc;

use crate::names::name_ok;
use crate::numbers::read_number;
use crate::refusals::{BAD_NAME, CUT, OUT_OF_RANGE, TOO_MANY, TRAILING};
use crate::sizes::*;

/// Name and ECH bytes.
pub type Bytes = Arc<[u8]>;

#[derive(Clone, Copy, PartialEq, Eq, Debug)]
pub enum Address {
    V4([u8; 4]),
    /// With its scope, 0 for none.
    V6([u8; 16], u32),
}

#[derive(Clone, PartialEq, Eq, Debug)]
pub enum Host {
    Name(Bytes),
    Literal(Address),
}

/// In the order of `IpPreference`.
#[derive(Clone, Copy, PartialEq, Eq, Debug)]
pub enum Preference {
    DualStackPreferV6,
    DualStackPreferV4,
    Ipv6Only,
    Ipv4Only,
}

/// In the order of `ResolutionMode`.
#[derive(Clone, Copy, PartialEq, Eq, Debug)]
pub enum Mode {
    Ip,
    Name,
    NameWithHttpsRr,
}

/// "versions (bit 0 H3, bit 1 H2, bit 2 H1)"
pub const H3: u8 = 0b001;
pub const H2: u8 = 0b010;
pub const H1: u8 = 0b100;

#[derive(Clone, Debug)]
pub struct Alternative {
    pub host: Option<Host>,
    pub port: Option<u16>,
    /// One bit of the versions.
    pub version: u8,
}

#[derive(Clone, Debug)]
pub struct Configuration {
    pub port: u16,
    pub origin: Host,
    pub versions: u8,
    pub preference: Preference,
    pub alternatives: Vec<Alternative>,
    pub resolution: u64,
    pub delay: u64,
    pub multiplier: u32,
    pub ech: bool,
    pub wait: bool,
    pub mode: Mode,
}

#[derive(Clone, Debug)]
pub struct Service {
    pub priority: u16,
    pub name: Bytes,
    pub versions: u8,
    pub port: Option<u16>,
    pub ech: Option<Bytes>,
    pub v4_hints: Vec<Address>,
    pub v6_hints: Vec<Address>,
}

#[derive(Clone, Copy, PartialEq, Eq, Debug)]
pub enum Type {
    Https,
    Aaaa,
    A,
}

#[derive(Clone, Debug)]
pub enum Answer {
    Failed,
    /// A and AAAA.
    Addresses(Vec<Address>),
    Services(Vec<Service>),
}

#[derive(Clone, Debug)]
pub enum Outcome {
    Success,
    Failure,
    EchRetry(Bytes),
}

#[derive(Clone, Debug)]
pub enum Input {
    Answer { id: u64, kind: Type, stale: bool, answer: Answer },
    Result { id: u64, outcome: Outcome },
}

/// What a tape's body asks for.
#[derive(Clone, Debug)]
pub enum Event {
    Call,
    Input(Input),
}

/// A body and how far it is read.
struct Reader<'a> {
    body: &'a [u8],
    at: usize,
}

impl<'a> Reader<'a> {
    fn new(body: &'a [u8]) -> Self {
        Reader { body, at: 0 }
    }

    /// A number without a range: ids and delays.
    fn number(&mut self) -> Result<u64, u8> {
        let (value, after) = read_number(self.body, self.at)?;
        self.at = after;
        Ok(value)
    }

    /// "OutOfRange: kind, flag or number outside its range"
    fn ranged(&mut self, least: u64, most: u64) -> Result<u64, u8> {
        let value = self.number()?;
        if value < least || value > most {
            return Err(OUT_OF_RANGE);
        }
        Ok(value)
    }

    /// "TooMany: count or length over its size"
    fn sized(&mut self, most: u64) -> Result<usize, u8> {
        let value = self.number()?;
        if value > most {
            return Err(TOO_MANY);
        }
        Ok(value as usize)
    }

    /// "a length is tested before its bytes", so here they can only be missing.
    fn bytes(&mut self, length: usize) -> Result<&'a [u8], u8> {
        let bytes = self.body[self.at..].get(..length).ok_or(CUT)?;
        self.at += length;
        Ok(bytes)
    }

    fn array<const N: usize>(&mut self) -> Result<[u8; N], u8> {
        let mut array = [0; N];
        array.copy_from_slice(self.bytes(N)?);
        Ok(array)
    }

    /// "name length, name"
    fn name(&mut self, most: u64) -> Result<Bytes, u8> {
        let length = self.sized(most)?;
        // "a name cut short is Cut"
        let name = self.bytes(length)?;
        // "BadName: name rule broken, length 0 included"
        if !name_ok(name) {
            return Err(BAD_NAME);
        }
        Ok(name.into())
    }

    /// "port (0 none, else port+1)"
    fn port_or_none(&mut self) -> Result<Option<u16>, u8> {
        let field = self.ranged(0, MOST_PORT_FIELD)?;
        Ok(field.checked_sub(1).map(|port| port as u16))
    }

    /// "ECH (0 none, else length+1, bytes)"
    fn ech_or_none(&mut self) -> Result<Option<Bytes>, u8> {
        let field = self.sized(ECH_BYTES + 1)?;
        match field.checked_sub(1) {
            None => Ok(None),
            Some(length) => Ok(Some(self.bytes(length)?.into())),
        }
    }

    fn v4(&mut self) -> Result<Address, u8> {
        Ok(Address::V4(self.array()?))
    }

    /// "IPv6 (no scope)", as hosts and hints have it.
    fn v6(&mut self) -> Result<Address, u8> {
        Ok(Address::V6(self.array()?, 0))
    }

    /// "AAAA item: 16 bytes, scope (0 none, below 2^32)"
    fn scoped_v6(&mut self) -> Result<Address, u8> {
        let bytes = self.array()?;
        let scope = self.ranged(0, MOST_SCOPE)? as u32;
        Ok(Address::V6(bytes, scope))
    }

    /// "host 0 name (length, bytes), 1 IPv4, 2 IPv6 (no scope)", 3 none.
    fn host(&mut self, most_host: u64, most_name: u64) -> Result<Option<Host>, u8> {
        match self.ranged(0, most_host)? {
            0 => Ok(Some(Host::Name(self.name(most_name)?))),
            1 => Ok(Some(Host::Literal(self.v4()?))),
            2 => Ok(Some(Host::Literal(self.v6()?))),
            _ => Ok(None),
        }
    }

    fn items<T>(
        &mut self,
        most: u64,
        item: impl Fn(&mut Self) -> Result<T, u8>,
    ) -> Result<Vec<T>, u8> {
        let count = self.sized(most)?;
        (0..count).map(|_| item(self)).collect()
    }

    /// One alternative service of a configuration (rule B.8).
    fn alternative(&mut self) -> Result<Alternative, u8> {
        Ok(Alternative {
            host: self.host(MOST_ALTERNATIVE_HOST, NAME_BYTES)?,
            port: self.port_or_none()?,
            version: [H3, H2, H1][self.ranged(0, MOST_VERSION)? as usize],
        })
    }

    /// "HTTPS item" (rule B.6), field by field.
    fn service(&mut self) -> Result<Service, u8> {
        Ok(Service {
            priority: self.ranged(0, MOST_PRIORITY)? as u16,
            name: self.name(NAME_BYTES)?,
            versions: self.ranged(0, MOST_VERSIONS)? as u8,
            port: self.port_or_none()?,
            ech: self.ech_or_none()?,
            v4_hints: self.items(HINTS, Self::v4)?,
            v6_hints: self.items(HINTS, Self::v6)?,
        })
    }

    /// Flags, and unless the answer failed its count and items (rule B.5).
    fn answer(&mut self, kind: Type) -> Result<(bool, Answer), u8> {
        let flags = self.ranged(0, MOST_ANSWER_FLAGS)?;
        let stale = flags & 1 != 0;
        if flags & 2 != 0 {
            return Ok((stale, Answer::Failed));
        }
        let answer = match kind {
            Type::A => Answer::Addresses(self.items(ADDRESSES, Self::v4)?),
            Type::Aaaa => Answer::Addresses(self.items(ADDRESSES, Self::scoped_v6)?),
            Type::Https => Answer::Services(self.items(SERVICES, Self::service)?),
        };
        Ok((stale, answer))
    }

    /// "6 ECH retry: length, bytes"
    fn ech_retry(&mut self) -> Result<Bytes, u8> {
        let length = self.sized(ECH_BYTES)?;
        Ok(self.bytes(length)?.into())
    }

    /// What follows the kind of an input (rule B.5).
    fn input(&mut self, kind: u64) -> Result<Input, u8> {
        let id = self.number()?;
        let input = match kind {
            1 => of_answer(id, Type::Aaaa, self.answer(Type::Aaaa)?),
            2 => of_answer(id, Type::A, self.answer(Type::A)?),
            3 => of_answer(id, Type::Https, self.answer(Type::Https)?),
            4 => of_result(id, Outcome::Success),
            5 => of_result(id, Outcome::Failure),
            _ => of_result(id, Outcome::EchRetry(self.ech_retry()?)),
        };
        self.end(input)
    }

    /// "Trailing: bytes after the last field"
    fn end<T>(&self, read: T) -> Result<T, u8> {
        if self.at < self.body.len() {
            return Err(TRAILING);
        }
        Ok(read)
    }
}

/// A configuration body, or its refusal 1 to 6. The fields are read in the
/// order in which they stand here.
pub fn configuration(body: &[u8]) -> Result<Configuration, u8> {
    let mut r = Reader::new(body);
    let port = r.ranged(0, MOST_PORT)? as u16;
    // An origin always has a host: kind 3 is out of its range.
    let host = r.host(MOST_ORIGIN_HOST, ORIGIN_BYTES)?;
    let origin = host.ok_or(OUT_OF_RANGE)?;
    let versions = r.ranged(0, MOST_VERSIONS)? as u8;
    let preference = preference(r.ranged(0, MOST_PREFERENCE)?);
    let alternatives = r.items(ALTERNATIVES, Reader::alternative)?;
    let resolution = r.number()?;
    let delay = r.number()?;
    let multiplier = r.ranged(1, MOST_MULTIPLIER)? as u32;
    let flags = r.ranged(0, MOST_CONFIGURATION_FLAGS)?;
    let ech = flags & 1 != 0;
    let wait = flags & 2 != 0;
    let mode = mode(r.ranged(0, MOST_MODE)?);
    r.end(Configuration {
        port,
        origin,
        versions,
        preference,
        alternatives,
        resolution,
        delay,
        multiplier,
        ech,
        wait,
        mode,
    })
}

/// "preference 0 to 3 in the order of `IpPreference`"
fn preference(number: u64) -> Preference {
    match number {
        0 => Preference::DualStackPreferV6,
        1 => Preference::DualStackPreferV4,
        2 => Preference::Ipv6Only,
        _ => Preference::Ipv4Only,
    }
}

/// "mode 0 to 2 in the order of `ResolutionMode`"
fn mode(number: u64) -> Mode {
    match number {
        0 => Mode::Ip,
        1 => Mode::Name,
        _ => Mode::NameWithHttpsRr,
    }
}

/// A tape's body, or its refusal 1 to 6. Kind 7, which only a tape has, is a call
/// (rule B.7).
pub fn event(body: &[u8]) -> Result<Event, u8> {
    let mut r = Reader::new(body);
    match r.ranged(1, 7)? {
        7 => r.end(Event::Call),
        kind => Ok(Event::Input(r.input(kind)?)),
    }
}

/// An input body off the tape, or its refusal 1 to 6.
pub fn input(body: &[u8]) -> Result<Input, u8> {
    let mut r = Reader::new(body);
    let kind = r.ranged(1, 6)?;
    r.input(kind)
}

fn of_answer(id: u64, kind: Type, (stale, answer): (bool, Answer)) -> Input {
    Input::Answer { id, kind, stale, answer }
}

fn of_result(id: u64, outcome: Outcome) -> Input {
    Input::Result { id, outcome }
}
