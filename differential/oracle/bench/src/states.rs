//! The states whose listings are timed.

use compare::write::{Alternative, Body, Configuration, Host, Service, V4, V6};

/// A configuration, and what every query is answered: the services, so many addresses of a family.
pub struct State {
    pub name: &'static str,
    pub configuration: Configuration,
    services: Vec<Service>,
    addresses: u8,
}

impl State {
    /// The answer to a query of a kind: 0 HTTPS, 1 AAAA, 2 A. Each name has addresses of its own.
    pub fn answer(&self, id: u64, kind: u64, name: &[u8]) -> Body {
        let of = name.iter().fold(0, |sum: u8, byte| sum.wrapping_add(*byte));
        match kind {
            0 => Body::Https { id, flags: 0, items: self.services.clone() },
            1 => Body::Aaaa {
                id,
                flags: 0,
                items: (0..self.addresses).map(|n| (v6(of, n), 0)).collect(),
            },
            _ => Body::A { id, flags: 0, items: (0..self.addresses).map(|n| v4(of, n)).collect() },
        }
    }
}

fn v4(of: u8, n: u8) -> V4 {
    [192, 0, of, n]
}

fn v6(of: u8, n: u8) -> V6 {
    [0x20, 0x01, 0x0d, 0xb8, 0, 0, 0, 0, 0, 0, 0, 0, 0, of, 0, n]
}

const ORIGIN: &str = "www.example.org";
const H3_H2: u64 = 3;
const H2_H1: u64 = 6;

fn mode(mode: u64) -> Configuration {
    Configuration { mode, ..Configuration::named(ORIGIN) }
}

fn one_service(versions: u64) -> Service {
    Service::new(1, ORIGIN, versions)
}

pub fn all() -> Vec<State> {
    let named = || Configuration::named(ORIGIN);
    let with_ech = Service { ech: Some(vec![7; 64]), ..one_service(H2_H1) };
    vec![
        State {
            name: "one service, 1 + 1 addresses",
            configuration: named(),
            services: vec![one_service(H2_H1)],
            addresses: 1,
        },
        State {
            name: "the same with ECH",
            configuration: named(),
            services: vec![with_ech],
            addresses: 1,
        },
        State {
            name: "one service, 8 + 8 addresses",
            configuration: named(),
            services: vec![one_service(H3_H2)],
            addresses: 8,
        },
        deep(),
        State { name: "mode Name", configuration: mode(1), services: Vec::new(), addresses: 0 },
        State {
            name: "mode NameWithHttpsRr, one service",
            configuration: mode(2),
            services: vec![one_service(H3_H2)],
            addresses: 0,
        },
        State {
            name: "address origin",
            configuration: Configuration::new(Host::V4(v4(0, 1)), 443),
            services: Vec::new(),
            addresses: 0,
        },
    ]
}

/// The longest listing with as many names as 16 records allow: 4 services of 48 endpoints, 4
/// alternatives of 16, two of them without a host, and the origin's 16.
fn deep() -> State {
    let service = |n: u8| Service {
        v4: (100..104).map(|k| v4(n, k)).collect(),
        v6: (100..104).map(|k| v6(n, k)).collect(),
        ..Service::new(n.into(), &format!("service-{n}.example.org"), H3_H2)
    };
    let named = |n: u8| Host::Name(format!("alternative-{n}.example.org").into());
    let hosts = [named(1), named(2), Host::None, Host::None];
    State {
        name: "4 services, 4 alternatives, 8 + 8 addresses",
        configuration: Configuration {
            alternatives: hosts.map(|host| Alternative { host, port: None, version: 1 }).into(),
            ..Configuration::named(ORIGIN)
        },
        services: (1..5).map(service).collect(),
        addresses: 8,
    }
}
