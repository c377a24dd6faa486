//! What the original does where document 01's bodies can't take it: docs/DIFFERENCES.md cites these.

use compare::directed::longest;
use compare::play::ask;
use happy_eyeballs::{
    ConnectionAttemptHttpVersions, DnsRecordType, DnsResult, Endpoint, EndpointTarget,
    HappyEyeballs, HttpVersion, Id, Input, NetworkConfig, Output, ResolutionMode, ServiceInfo,
    TargetName,
};
use judge::adapter::Oracle;
use std::collections::{BTreeSet, HashSet};
use std::net::Ipv4Addr;
use std::time::Instant;

fn machine(resolution: ResolutionMode) -> HappyEyeballs {
    let network = NetworkConfig { resolution, ..NetworkConfig::default() };
    HappyEyeballs::new_with_network_config("a.b", 443, network).unwrap()
}

/// An HTTPS answer with one service, whose target is the root.
fn root() -> DnsResult {
    DnsResult::Https(Ok(vec![ServiceInfo {
        priority: 1,
        target_name: TargetName::from("."),
        alpn_http_versions: HashSet::from([HttpVersion::H1]),
        ech_config: None,
        ipv4_hints: Vec::new(),
        ipv6_hints: Vec::new(),
        port: None,
    }]))
}

fn answer(machine: &mut HappyEyeballs, id: u64, result: DnsResult, now: Instant) {
    machine.process_input(Input::DnsResult { id: Id::from(id), result, stale: false }, now);
}

#[test]
fn a_root_target_by_name_is_the_origin() {
    let now = Instant::now();
    let mut machine = machine(ResolutionMode::NameWithHttpsRr);
    let _ = machine.process_output(now);
    answer(&mut machine, 0, root(), now);
    let expected = Endpoint {
        target: EndpointTarget::Name { host: "a.b".into(), port: 443 },
        http_version: ConnectionAttemptHttpVersions::H1,
        ech_config: None,
    };
    assert_eq!(machine.process_output(now).and_then(Output::attempt), Some(expected));
}

#[test]
fn a_root_target_is_asked_for_literally() {
    let now = Instant::now();
    let mut machine = machine(ResolutionMode::Ip);
    for _ in 0..3 {
        let _ = machine.process_output(now);
    }
    answer(&mut machine, 0, root(), now);
    let expected = Output::SendDnsQuery {
        id: Id::from(3),
        hostname: TargetName::from("."),
        record_type: DnsRecordType::Aaaa,
        allow_stale: true,
    };
    assert_eq!(machine.process_output(now), Some(expected));
}

#[test]
fn the_type_of_an_answer_is_not_tested() {
    let now = Instant::now();
    let mut machine = machine(ResolutionMode::Ip);
    for _ in 0..3 {
        let _ = machine.process_output(now);
    }
    // A's addresses for the AAAA query, which is then held to be answered.
    answer(&mut machine, 1, DnsResult::A(Ok(vec![Ipv4Addr::new(192, 0, 2, 1)])), now);
    answer(&mut machine, 0, DnsResult::Https(Ok(Vec::new())), now);
    let endpoint = machine.process_output(now).and_then(Output::attempt).unwrap();
    assert_eq!(endpoint.address().unwrap().to_string(), "192.0.2.1:443");
}

/// A name as the URL parser gives it back, if it takes it as a host at all.
fn parsed(name: &str) -> Option<String> {
    let machine = HappyEyeballs::new(name, 443).ok()?;
    machine.shown_name().map(String::from)
}

#[test]
fn names_that_come_back_changed_or_not_at_all() {
    assert_eq!(parsed("A.b"), Some("a.b".into()));
    for refused in ["a.0x1", "a.0x", "a.0x1.", "xn--a"] {
        assert_eq!(parsed(refused), None, "{refused}");
    }
    for same in ["a.b", "a.b.", "_x.-y-.a--b", "1.a", "xn--nxasmq6b.b", "a.0x1.b"] {
        assert_eq!(parsed(same).as_deref(), Some(same));
    }
}

#[test]
fn the_longest_listing_has_272_endpoints() {
    let history = longest();
    let body = history.configuration.body();
    let mut original = Oracle::new(&body).unwrap();
    let mut model = model::Machine::new(&body).unwrap();
    for event in &history.events {
        let bytes = event.body.bytes();
        let answer = ask(&mut original, event.moment, &bytes);
        assert_eq!(ask(&mut model, event.moment, &bytes), answer);
    }
    let listing = original.listing();
    assert_eq!(listing.len(), 272);
    assert_eq!(listing.iter().collect::<BTreeSet<_>>().len(), 272);
    assert_eq!(model::listing(&model), listing);
}
