//! Document 01, parts 3 and 4, as the Rust corrects the house rules.

use crate::bodies::{
    Address, Alternative, Bytes, Host, Mode, Preference, Service, Type, H1, H2, H3,
};
use crate::names::{same_name, without_dot};
use crate::state::{Endpoint, State, Target};

/// Part 4: the present listing.
pub fn endpoints(m: &State) -> Vec<Endpoint> {
    let mut services: Vec<&Service> = m.usable_services().collect();
    // "Services by priority, stable"
    services.sort_by_key(|service| service.priority);
    let mut listed = Vec::new();
    for service in services {
        // "each interleaved alone"
        listed.extend(interleaved(of_service(m, service), prefers_v6(m)));
    }
    // "Unless so, then alternative services and origin"
    if !m.any_ech() {
        let mut last = Vec::new();
        last.extend(of_alternatives(m));
        last.extend(of_origin(m));
        // "together, interleaved"
        listed.extend(interleaved(last, prefers_v6(m)));
    }
    listed
}

/// Part 3, by rule 3.3: the only order that rises by place in group, rank and
/// family.
fn interleaved(endpoints: Vec<Endpoint>, prefer_v6: bool) -> Vec<Endpoint> {
    let mut counts = [0; 8];
    let mut keyed = Vec::new();
    for endpoint in endpoints {
        let family = family(&endpoint.target, prefer_v6);
        // "Groups by (rank H3, H2OrH1, H2, H1; preferred family first)."
        let group = usize::from(2 * endpoint.rank + family);
        // "input order holds inside a group"
        let place = counts[group];
        counts[group] += 1;
        let key = (place, endpoint.rank, family);
        keyed.push((key, endpoint));
    }
    keyed.sort_by_key(|(key, _)| *key);
    keyed.into_iter().map(|(_, endpoint)| endpoint).collect()
}

/// 0 for the preferred family. "Names count as preferred".
fn family(target: &Target, prefer_v6: bool) -> u8 {
    match target {
        Target::Address(Address::V4(_)) => u8::from(prefer_v6),
        Target::Address(Address::V6(..)) => u8::from(!prefer_v6),
        Target::Name(_) => 0,
    }
}

pub fn prefers_v6(m: &State) -> bool {
    match m.configuration.preference {
        Preference::DualStackPreferV6 | Preference::Ipv6Only => true,
        Preference::DualStackPreferV4 | Preference::Ipv4Only => false,
    }
}

/// The address types asked for, AAAA first whatever is preferred.
pub fn address_types(m: &State) -> &'static [Type] {
    match m.configuration.preference {
        Preference::DualStackPreferV6 | Preference::DualStackPreferV4 => &[Type::Aaaa, Type::A],
        Preference::Ipv6Only => &[Type::Aaaa],
        Preference::Ipv4Only => &[Type::A],
    }
}

/// Whether the family is allowed.
fn allowed(m: &State, address: &Address) -> bool {
    match address {
        Address::V4(_) => m.configuration.preference != Preference::Ipv6Only,
        Address::V6(..) => m.configuration.preference != Preference::Ipv4Only,
    }
}

/// `from_http_versions`: H2 and H1 together are one rank.
fn ranks(versions: u8) -> Vec<u8> {
    let h3 = (versions & H3 != 0).then_some(0);
    let tcp = match (versions & H2 != 0, versions & H1 != 0) {
        (true, true) => Some(1),
        (true, false) => Some(2),
        (false, true) => Some(3),
        (false, false) => None,
    };
    h3.into_iter().chain(tcp).collect()
}

/// "An alternative service (000): its version", alone and so never combined.
fn rank_alone(version: u8) -> u8 {
    match version {
        H3 => 0,
        H2 => 2,
        _ => 3,
    }
}

fn by_name(m: &State) -> bool {
    m.configuration.mode != Mode::Ip
}

fn connect_name(name: &Bytes) -> Target {
    Target::Name(without_dot(name).into())
}

/// (H) "A service's endpoints", with the hints kept after the answers and the
/// service's target by name, as the Rust has it.
fn of_service(m: &State, service: &Service) -> Vec<Endpoint> {
    // "its port or the origin's"
    let port = service.port.unwrap_or(m.configuration.port);
    // "its ECH if ECH is on"
    let ech = service.ech.clone().filter(|_| m.configuration.ech);
    // "its enabled versions combined by `from_http_versions`"
    let ranks = ranks(service.versions & m.configuration.versions);
    let mut targets = Vec::new();
    if by_name(m) {
        // "in `NameWithHttpsRr` with a named origin": the target without its dot.
        targets.push(connect_name(&service.name));
    } else {
        // "the answer held for its name, even empty or failed"
        targets.extend(addresses_of(m, &service.name));
        // Corrected by the Rust: always, after the answers, "the hints if the
        // family is allowed".
        targets.extend(hints(m, &service.v6_hints));
        targets.extend(hints(m, &service.v4_hints));
    }
    spread(targets, port, &ranks, ech.as_ref())
}

fn hints<'a>(m: &'a State, hints: &'a [Address]) -> impl Iterator<Item = Target> + 'a {
    let usable = hints.iter().filter(|hint| allowed(m, hint));
    usable.map(|hint| Target::Address(*hint))
}

/// "An alternative service (000)".
fn of_alternatives(m: &State) -> Vec<Endpoint> {
    let mut listed = Vec::new();
    for alternative in &m.configuration.alternatives {
        // "its version if enabled"
        if alternative.version & m.configuration.versions == 0 {
            continue;
        }
        // "its port or the origin's, no ECH"
        let port = alternative.port.unwrap_or(m.configuration.port);
        let targets = alternative_targets(m, alternative);
        let rank = rank_alone(alternative.version);
        listed.extend(spread(targets, port, &[rank], None));
    }
    listed
}

fn alternative_targets(m: &State, alternative: &Alternative) -> Vec<Target> {
    match &alternative.host {
        // "the origin's without host"; (H) by name it has the origin's name.
        None => origin_targets(m),
        // By name its own host, without its dot as the Rust has it.
        Some(Host::Name(name)) if by_name(m) => vec![connect_name(name)],
        // "its host's addresses"
        Some(Host::Name(name)) => addresses_of(m, name).collect(),
        // "a literal only if its family is allowed"; (H) "a literal takes the
        // address path".
        Some(Host::Literal(literal)) => {
            let usable = Some(literal).filter(|literal| allowed(m, literal));
            usable.map(|literal| Target::Address(*literal)).into_iter().collect()
        }
    }
}

/// (H) "Origin fallback: enabled among H2, H1, combined; ... no ECH."
fn of_origin(m: &State) -> Vec<Endpoint> {
    let ranks = ranks(m.configuration.versions & (H2 | H1));
    spread(origin_targets(m), m.configuration.port, &ranks, None)
}

/// "the origin's addresses, or its name in the by-name modes"; an address
/// origin stays one in every mode, of whatever family.
fn origin_targets(m: &State) -> Vec<Target> {
    match &m.configuration.origin {
        Host::Literal(address) => vec![Target::Address(*address)],
        // "the origin's name loses its trailing dot"
        Host::Name(name) if by_name(m) => vec![connect_name(name)],
        Host::Name(name) => addresses_of(m, name).collect(),
    }
}

/// Rule 4.11, (H): the addresses held for just that name, "in record order".
fn addresses_of<'a>(m: &'a State, name: &'a Bytes) -> impl Iterator<Item = Target> + 'a {
    let own = m.held().filter(move |(query, _)| same_name(&query.name, name));
    own.flat_map(|(_, held)| State::addresses(held)).map(|address| Target::Address(*address))
}

/// An endpoint for each target and rank.
fn spread(targets: Vec<Target>, port: u16, ranks: &[u8], ech: Option<&Bytes>) -> Vec<Endpoint> {
    let mut spread = Vec::new();
    for target in targets {
        for &rank in ranks {
            spread.push(Endpoint { rank, target: target.clone(), port, ech: ech.cloned() });
        }
    }
    spread
}
