//! Refusals 1 to 6: each field of a configuration and of an input, in order.

use crate::build::*;
use model::Machine;

fn refusal(configuration: &[u8]) -> u8 {
    Machine::new(configuration).err().unwrap_or(0)
}

/// The configuration after a change.
fn changed(change: impl Fn(&mut Configuration)) -> u8 {
    let mut configuration = Configuration::default();
    change(&mut configuration);
    refusal(&configuration.bytes())
}

/// Every cut of a sound body is Cut, one byte more is Trailing.
fn cuts(body: &[u8], number: impl Fn(&[u8]) -> u8) {
    for length in 0..body.len() {
        assert_eq!(number(&body[..length]), 1, "cut at {length}");
    }
    assert_eq!(number(body), 0);
    assert_eq!(number(&[body, &[0]].concat()), 6);
}

fn full_configuration() -> Configuration {
    Configuration {
        alternatives: vec![
            alternative(name_host("c.d"), Some(0), 0),
            alternative(v4_host(1), None, 1),
            alternative(v6_host(1), Some(u16::MAX), 2),
            alternative(no_host(), Some(8443), 2),
        ],
        resolution: u64::MAX,
        delay: u64::MAX,
        multiplier: 4_294_967_295,
        ..Configuration::default()
    }
}

#[test]
fn configuration_cut_and_trailing() {
    cuts(&full_configuration().bytes(), refusal);
    cuts(&Configuration { origin: v4_host(1), ..full_configuration() }.bytes(), refusal);
    cuts(&Configuration { origin: v6_host(1), ..full_configuration() }.bytes(), refusal);
}

type Setter = fn(&mut Configuration, u64);

#[test]
fn configuration_ranges() {
    let at_most: [(Setter, u64); 6] = [
        (|c, n| c.port = n, 65_535),
        (|c, n| c.versions = n, 7),
        (|c, n| c.preference = n, 3),
        (|c, n| c.multiplier = n, 4_294_967_295),
        (|c, n| c.flags = n, 3),
        (|c, n| c.mode = n, 2),
    ];
    for (set, most) in at_most {
        assert_eq!(changed(|c| set(c, most)), 0);
        assert_eq!(changed(|c| set(c, most + 1)), 3);
        assert_eq!(changed(|c| set(c, u64::MAX)), 3);
    }
    assert_eq!(changed(|c| c.multiplier = 0), 3);
    assert_eq!(changed(|c| c.port = 0), 0);
    assert_eq!(changed(|c| c.versions = 0), 0);
    assert_eq!(changed(|c| c.origin = no_host()), 3);
    assert_eq!(changed(|c| c.origin = numbers(&[4])), 3);
}

#[test]
fn configuration_numbers_before_ranges() {
    let mut body = vec![0xFF, 0x80, 0x00];
    assert_eq!(refusal(&body), 2);
    body = vec![0xFF, 0xFF, 0xFF];
    assert_eq!(refusal(&body), 1);
    body.push(0x7F);
    assert_eq!(refusal(&body), 3);
}

#[test]
fn configuration_alternatives() {
    let with = |alternative: Vec<u8>| changed(|c| c.alternatives = vec![alternative.clone()]);
    assert_eq!(with(alternative(numbers(&[4]), None, 0)), 3);
    assert_eq!(with(alternative(no_host(), None, 2)), 0);
    assert_eq!(with(alternative(no_host(), None, 3)), 3);
    assert_eq!(with([no_host(), numbers(&[65_536, 0])].concat()), 0);
    assert_eq!(with([no_host(), numbers(&[65_537, 0])].concat()), 3);
    let many = |count| changed(|c| c.alternatives = vec![alternative(no_host(), None, 0); count]);
    assert_eq!(many(4), 0);
    assert_eq!(many(5), 5);
}

/// A name of that many bytes in labels of at most 60.
fn long_name(length: usize) -> String {
    (0..length).map(|i| if i % 61 == 60 { '.' } else { 'a' }).collect()
}

#[test]
fn configuration_names() {
    let origin = |name: &str| changed(|c| c.origin = name_host(name));
    assert_eq!(origin(""), 4);
    assert_eq!(origin("a.1"), 4);
    assert_eq!(origin(&long_name(239)), 0);
    assert_eq!(origin(&long_name(240)), 5);
    let host =
        |name: &str| changed(|c| c.alternatives = vec![alternative(name_host(name), None, 0)]);
    assert_eq!(host(""), 4);
    assert_eq!(host(".a"), 4);
    assert_eq!(host(&long_name(253)), 0);
    assert_eq!(host(&long_name(254)), 5);
}

#[test]
fn name_length_then_bytes_then_rule() {
    let start =
        |length: u64, bytes: &[u8]| refusal(&[numbers(&[443, 0, length]), bytes.to_vec()].concat());
    assert_eq!(start(240, b""), 5);
    assert_eq!(start(u64::MAX, b""), 5);
    assert_eq!(start(0, b""), 4);
    assert_eq!(start(3, b".."), 1);
    assert_eq!(start(2, b".."), 4);
}

/// The number for an input body to a machine that knows the id 0 as HTTPS, 1 as
/// AAAA, 2 as A.
fn number(body: &[u8]) -> u8 {
    let mut m = Configuration::default().machine();
    ask_three(&mut m, "a.b");
    m.input(0, body)
}

fn full_service() -> Service {
    Service {
        port: Some(1),
        ech: Some(vec![1, 2]),
        v4: vec![1, 2, 3, 4],
        v6: vec![1, 2, 3, 4],
        versions: 7,
        priority: 65_535,
        ..service("d.e.")
    }
}

#[test]
fn input_cut_and_trailing() {
    cuts(&aaaa(1, STALE, &[1, 2, 3, 4, 5, 6, 7, 8]), number);
    cuts(&a(2, 0, &[1, 2, 3, 4, 5, 6, 7, 8]), number);
    cuts(&https(0, 0, &vec![full_service(); 4]), number);
    cuts(&https(0, FAILED, &[]), number);
    cuts(&aaaa(1, FAILED | STALE, &[]), number);
    for body in [success(0), failure(0), ech_retry(0, b"ech")] {
        for length in 0..body.len() {
            assert_eq!(number(&body[..length]), 1);
        }
        assert_eq!(number(&body), 7);
        assert_eq!(number(&[&body[..], &[0]].concat()), 6);
    }
}

#[test]
fn input_kinds() {
    assert_eq!(number(&[]), 1);
    assert_eq!(number(&[0]), 3);
    assert_eq!(number(&[7]), 3);
    assert_eq!(number(&[7, 0]), 3);
    assert_eq!(number(&[8]), 3);
    assert_eq!(number(&[0x87, 0x00]), 2);
    assert_eq!(number(&[0x80]), 1);
}

#[test]
fn input_flags_and_counts() {
    for kind in [1, 2, 3] {
        let id = [1, 2, 0][kind as usize - 1];
        for flags in 0..2 {
            assert_eq!(number(&numbers(&[kind, id, flags, 0])), 0);
            assert_eq!(number(&numbers(&[kind, id, flags | FAILED])), 0);
            assert_eq!(number(&numbers(&[kind, id, flags | FAILED, 0])), 6);
        }
        assert_eq!(number(&numbers(&[kind, id, 4])), 3);
    }
    assert_eq!(number(&aaaa(1, 0, &[1; 9])), 5);
    assert_eq!(number(&numbers(&[1, 1, 0, 9])), 5);
    assert_eq!(number(&a(2, 0, &[1; 9])), 5);
    assert_eq!(number(&numbers(&[3, 0, 0, 5])), 5);
    assert_eq!(number(&numbers(&[3, 0, 0, u64::MAX])), 5);
}

#[test]
fn input_scope() {
    let scoped =
        |scope: u64| number(&[numbers(&[1, 1, 0, 1]), v6(1).to_vec(), numbers(&[scope])].concat());
    assert_eq!(scoped(4_294_967_295), 0);
    assert_eq!(scoped(4_294_967_296), 3);
}

fn with_service(change: impl Fn(&mut Service)) -> u8 {
    let mut service = full_service();
    change(&mut service);
    number(&https(0, 0, &[service]))
}

#[test]
fn input_service_fields() {
    assert_eq!(with_service(|_| ()), 0);
    assert_eq!(with_service(|s| s.priority = 0), 0);
    assert_eq!(with_service(|s| s.priority = 65_536), 3);
    assert_eq!(with_service(|s| s.name = String::new()), 4);
    assert_eq!(with_service(|s| s.name = ".".to_string()), 4);
    assert_eq!(with_service(|s| s.name = long_name(253)), 0);
    assert_eq!(with_service(|s| s.name = long_name(254)), 5);
    assert_eq!(with_service(|s| s.versions = 0), 0);
    assert_eq!(with_service(|s| s.versions = 8), 3);
    assert_eq!(with_service(|s| s.port = Some(65_535)), 0);
    assert_eq!(with_service(|s| s.ech = Some(Vec::new())), 0);
    assert_eq!(with_service(|s| s.ech = Some(vec![0; 512])), 0);
    assert_eq!(with_service(|s| s.ech = Some(vec![0; 513])), 5);
    assert_eq!(with_service(|s| s.v4 = vec![0; 5]), 5);
    assert_eq!(with_service(|s| s.v6 = vec![0; 5]), 5);
    let port = numbers(&[3, 0, 0, 1, 1, 1, b'a'.into(), 0, 65_537]);
    assert_eq!(number(&port), 3);
}

#[test]
fn input_ech_retry_length() {
    assert_eq!(number(&ech_retry(9, &[0; 512])), 7);
    assert_eq!(number(&ech_retry(9, &[0; 513])), 5);
    assert_eq!(number(&ech_retry(9, &[])), 7);
    assert_eq!(number(&numbers(&[6, 9, 513])), 5);
}

#[test]
fn first_fault_is_given() {
    // A broken name before a count over its size, and the other way about.
    let broken = Service { v4: vec![0; 5], ..service("..") };
    assert_eq!(number(&https(0, 0, &[broken])), 4);
    let second = Service { versions: 8, ..service("a") };
    let third = service("..");
    assert_eq!(number(&https(0, 0, &[service("a"), second, third])), 3);
    // Every fault of the body comes before the id's.
    assert_eq!(number(&[a(99, 0, &[1]), vec![0]].concat()), 6);
    assert_eq!(number(&a(99, 0, &[1])), 7);
}
