//! Histories, and the bytes of document 01 for them.

/// Appends a number in its form of rule N.1.
pub fn number(out: &mut Vec<u8>, mut n: u64) {
    while n >= 128 {
        out.push((n % 128) as u8 + 128);
        n /= 128;
    }
    out.push(n as u8);
}

fn bytes(out: &mut Vec<u8>, part: &[u8]) {
    number(out, part.len() as u64);
    out.extend_from_slice(part);
}

/// 0 for none, else one more than the number.
fn option(out: &mut Vec<u8>, n: Option<u64>) {
    number(out, n.map_or(0, |n| n + 1));
}

fn ech(out: &mut Vec<u8>, ech: &Option<Vec<u8>>) {
    option(out, ech.as_ref().map(|e| e.len() as u64));
    out.extend_from_slice(ech.as_deref().unwrap_or(&[]));
}

pub type V4 = [u8; 4];
pub type V6 = [u8; 16];

#[derive(Clone, Debug, PartialEq)]
pub enum Host {
    Name(Vec<u8>),
    V4(V4),
    V6(V6),
    None,
}

impl Host {
    fn write(&self, out: &mut Vec<u8>) {
        match self {
            Host::Name(name) => {
                number(out, 0);
                bytes(out, name);
            }
            Host::V4(address) => {
                number(out, 1);
                out.extend_from_slice(address);
            }
            Host::V6(address) => {
                number(out, 2);
                out.extend_from_slice(address);
            }
            Host::None => number(out, 3),
        }
    }
}

#[derive(Clone, Debug, PartialEq)]
pub struct Alternative {
    pub host: Host,
    pub port: Option<u64>,
    pub version: u64,
}

#[derive(Clone, Debug, PartialEq)]
pub struct Configuration {
    pub port: u64,
    pub host: Host,
    pub versions: u64,
    pub preference: u64,
    pub alternatives: Vec<Alternative>,
    pub resolution: u64,
    pub attempt: u64,
    pub multiplier: u64,
    pub flags: u64,
    pub mode: u64,
}

impl Configuration {
    /// The original's defaults for an origin.
    pub fn new(host: Host, port: u64) -> Configuration {
        Configuration {
            port,
            host,
            versions: 7,
            preference: 0,
            alternatives: Vec::new(),
            resolution: 50_000_000,
            attempt: 250_000_000,
            multiplier: 1,
            flags: 3,
            mode: 0,
        }
    }

    pub fn named(name: &str) -> Configuration {
        Configuration::new(Host::Name(name.into()), 443)
    }

    pub fn body(&self) -> Vec<u8> {
        let mut out = Vec::new();
        number(&mut out, self.port);
        self.host.write(&mut out);
        number(&mut out, self.versions);
        number(&mut out, self.preference);
        number(&mut out, self.alternatives.len() as u64);
        for alternative in &self.alternatives {
            alternative.host.write(&mut out);
            option(&mut out, alternative.port);
            number(&mut out, alternative.version);
        }
        number(&mut out, self.resolution);
        number(&mut out, self.attempt);
        number(&mut out, self.multiplier);
        number(&mut out, self.flags);
        number(&mut out, self.mode);
        out
    }
}

#[derive(Clone, Debug, PartialEq)]
pub struct Service {
    pub priority: u64,
    pub name: Vec<u8>,
    pub versions: u64,
    pub port: Option<u64>,
    pub ech: Option<Vec<u8>>,
    pub v4: Vec<V4>,
    pub v6: Vec<V6>,
}

impl Service {
    pub fn new(priority: u64, name: &str, versions: u64) -> Service {
        Service {
            priority,
            name: name.into(),
            versions,
            port: None,
            ech: None,
            v4: Vec::new(),
            v6: Vec::new(),
        }
    }

    fn write(&self, out: &mut Vec<u8>) {
        number(out, self.priority);
        bytes(out, &self.name);
        number(out, self.versions);
        option(out, self.port);
        ech(out, &self.ech);
        number(out, self.v4.len() as u64);
        self.v4.iter().for_each(|a| out.extend_from_slice(a));
        number(out, self.v6.len() as u64);
        self.v6.iter().for_each(|a| out.extend_from_slice(a));
    }
}

/// An event's body. A failed answer carries no items, whatever its list holds.
#[derive(Clone, Debug, PartialEq)]
pub enum Body {
    Aaaa { id: u64, flags: u64, items: Vec<(V6, u64)> },
    A { id: u64, flags: u64, items: Vec<V4> },
    Https { id: u64, flags: u64, items: Vec<Service> },
    Success(u64),
    Failure(u64),
    Retry { id: u64, ech: Vec<u8> },
    Call,
    Raw(Vec<u8>),
}

impl Body {
    pub fn bytes(&self) -> Vec<u8> {
        let mut out = Vec::new();
        match self {
            Body::Aaaa { id, flags, items } => {
                answer(&mut out, 1, *id, *flags, items, |out, (address, scope)| {
                    out.extend_from_slice(address);
                    number(out, *scope);
                })
            }
            Body::A { id, flags, items } => {
                answer(&mut out, 2, *id, *flags, items, |out, address| {
                    out.extend_from_slice(address)
                })
            }
            Body::Https { id, flags, items } => {
                answer(&mut out, 3, *id, *flags, items, |out, service| service.write(out))
            }
            Body::Success(id) => result(&mut out, 4, *id),
            Body::Failure(id) => result(&mut out, 5, *id),
            Body::Retry { id, ech } => {
                result(&mut out, 6, *id);
                bytes(&mut out, ech);
            }
            Body::Call => number(&mut out, 7),
            Body::Raw(raw) => out.extend_from_slice(raw),
        }
        out
    }

    pub fn is_call(&self) -> bool {
        *self == Body::Call
    }

    pub fn id(&mut self) -> Option<&mut u64> {
        match self {
            Body::Aaaa { id, .. }
            | Body::A { id, .. }
            | Body::Https { id, .. }
            | Body::Success(id)
            | Body::Failure(id)
            | Body::Retry { id, .. } => Some(id),
            Body::Call | Body::Raw(_) => None,
        }
    }
}

fn result(out: &mut Vec<u8>, kind: u64, id: u64) {
    number(out, kind);
    number(out, id);
}

fn answer<T>(
    out: &mut Vec<u8>,
    kind: u64,
    id: u64,
    flags: u64,
    items: &[T],
    write: impl Fn(&mut Vec<u8>, &T),
) {
    result(out, kind, id);
    number(out, flags);
    let failed = flags & 2 != 0;
    if !failed {
        number(out, items.len() as u64);
        items.iter().for_each(|item| write(out, item));
    }
}

#[derive(Clone, Debug, PartialEq)]
pub struct Event {
    pub moment: u64,
    pub body: Body,
}

#[derive(Clone, Debug, PartialEq)]
pub struct History {
    pub configuration: Configuration,
    pub events: Vec<Event>,
}

impl History {
    pub fn new(configuration: Configuration) -> History {
        History { configuration, events: Vec::new() }
    }

    pub fn push(&mut self, moment: u64, body: Body) {
        self.events.push(Event { moment, body });
    }

    pub fn call(mut self, moment: u64) -> History {
        self.push(moment, Body::Call);
        self
    }

    pub fn calls(mut self, moment: u64, count: usize) -> History {
        for _ in 0..count {
            self.push(moment, Body::Call);
        }
        self
    }

    pub fn tell(mut self, moment: u64, body: Body) -> History {
        self.push(moment, body);
        self
    }

    pub fn tape(&self) -> Vec<u8> {
        let mut out = Vec::new();
        bytes(&mut out, &self.configuration.body());
        for event in &self.events {
            frame(&mut out, event.moment, &event.body.bytes());
        }
        out
    }
}

pub fn frame(out: &mut Vec<u8>, moment: u64, body: &[u8]) {
    number(out, moment);
    bytes(out, body);
}
