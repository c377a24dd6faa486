//! Parts 3 and 4: the present listing.

use crate::build::*;
use model::{listing, Machine};

fn plain(rank: u8, target: Vec<u8>) -> Vec<u8> {
    endpoint(rank, target, None)
}

/// A dual-stack machine with its three questions asked.
fn asked(configuration: &Configuration) -> Machine {
    let mut m = configuration.machine();
    ask_three(&mut m, "a.b");
    m
}

#[test]
fn known_interleaving() {
    let configuration = Configuration {
        versions: H3 | H2,
        alternatives: vec![
            alternative(v6_host(b'a'), None, 0),
            alternative(v6_host(b'b'), None, 0),
            alternative(v4_host(b'c'), None, 0),
            alternative(v4_host(b'd'), None, 1),
        ],
        ..Configuration::default()
    };
    let listed = listing(&configuration.machine());
    let expected = [
        plain(0, to_v6(b'a', 443)),
        plain(0, to_v4(b'c', 443)),
        plain(2, to_v4(b'd', 443)),
        plain(0, to_v6(b'b', 443)),
    ];
    assert_eq!(listed, expected);
}

#[test]
fn families_turn_with_the_preference() {
    let listed = |preference| {
        let mut m = asked(&Configuration { preference, ..Configuration::default() });
        feed(&mut m, 0, &aaaa(1, 0, &[1, 2]));
        feed(&mut m, 0, &a(2, 0, &[3]));
        listing(&m)
    };
    let v6_first = [to_v6(1, 443), to_v4(3, 443), to_v6(2, 443)];
    assert_eq!(listed(PREFER_V6), v6_first.map(|target| plain(1, target)));
    let v4_first = [to_v4(3, 443), to_v6(1, 443), to_v6(2, 443)];
    assert_eq!(listed(PREFER_V4), v4_first.map(|target| plain(1, target)));
}

#[test]
fn names_count_as_preferred() {
    let configuration = Configuration {
        mode: NAME,
        versions: H2,
        alternatives: vec![
            alternative(v4_host(1), None, 1),
            alternative(v6_host(2), None, 1),
            alternative(name_host("c"), None, 1),
        ],
        ..Configuration::default()
    };
    let expected = [to_v6(2, 443), to_v4(1, 443), to_name("c", 443), to_name("a.b", 443)];
    assert_eq!(listing(&configuration.machine()), expected.map(|target| plain(2, target)));
}

#[test]
fn services_by_priority_and_stable() {
    let mut m = asked(&Configuration { versions: H2, ..Configuration::default() });
    let with = |priority, hint| Service { priority, v6: vec![hint], ..service("a.b") };
    feed(&mut m, 0, &https(0, 0, &[with(2, 1), with(1, 2), with(2, 3), with(0, 4)]));
    let expected = [4, 2, 1, 3].map(|last| plain(2, to_v6(last, 443)));
    assert_eq!(listing(&m), expected);
}

#[test]
fn answers_then_hints_in_each_group() {
    let mut m = asked(&Configuration::default());
    let hinted = Service { v4: vec![13, 14], v6: vec![11, 12], ..service("a.b") };
    feed(&mut m, 0, &https(0, 0, &[hinted]));
    feed(&mut m, 0, &a(2, 0, &[3]));
    feed(&mut m, 0, &aaaa(1, 0, &[1]));
    let service = [
        to_v6(1, 443),
        to_v4(3, 443),
        to_v6(11, 443),
        to_v4(13, 443),
        to_v6(12, 443),
        to_v4(14, 443),
    ];
    let origin = [to_v6(1, 443), to_v4(3, 443)];
    let expected: Vec<_> = service.into_iter().chain(origin).collect();
    assert_eq!(listing(&m), expected.into_iter().map(|t| plain(1, t)).collect::<Vec<_>>());
}

#[test]
fn service_versions_port_and_ech() {
    let mut m = asked(&Configuration { versions: H3 | H1, ..Configuration::default() });
    let one = Service {
        versions: 7,
        port: Some(8443),
        ech: Some(b"E".to_vec()),
        v6: vec![1],
        ..service("d")
    };
    let skipped = Service { v6: vec![2], ..service("e") };
    let empty = Service { ech: Some(Vec::new()), v6: vec![3], ..service("f") };
    feed(&mut m, 0, &https(0, 0, &[one, skipped, empty]));
    // The empty ECH is one; the service without is skipped, and so is the origin.
    feed(&mut m, 0, &aaaa(1, 0, &[9]));
    let expected = [
        endpoint(0, to_v6(1, 8443), Some(b"E")),
        endpoint(3, to_v6(1, 8443), Some(b"E")),
        endpoint(3, to_v6(3, 443), Some(b"")),
    ];
    assert_eq!(listing(&m), expected);
}

#[test]
fn ech_off_is_no_ech() {
    let mut m = asked(&Configuration { flags: 2, versions: H2, ..Configuration::default() });
    let one = Service { ech: Some(b"E".to_vec()), v6: vec![1], ..service("d") };
    let two = Service { v6: vec![2], ..service("e") };
    feed(&mut m, 0, &https(0, 0, &[one, two]));
    feed(&mut m, 0, &aaaa(1, 0, &[9]));
    assert_eq!(listing(&m), [1, 2, 9].map(|last| plain(2, to_v6(last, 443))));
}

#[test]
fn ech_of_an_unusable_service_shuts_out_the_origin() {
    let mut m = asked(&Configuration::default());
    let unusable = Service { versions: 0, ech: Some(b"E".to_vec()), ..service("d") };
    feed(&mut m, 0, &https(0, 0, &[unusable]));
    feed(&mut m, 0, &aaaa(1, 0, &[9]));
    assert!(listing(&m).is_empty());
}

#[test]
fn hints_of_a_forbidden_family_are_left_out() {
    for (preference, kind, expected) in
        [(ONLY_V4, A, to_v4(1, 443)), (ONLY_V6, AAAA, to_v6(2, 443))]
    {
        let mut m = Configuration { preference, ..Configuration::default() }.machine();
        assert_eq!(m.output(0), query(0, HTTPS, "a.b"));
        assert_eq!(m.output(0), query(1, kind, "a.b"));
        let hinted = Service { v4: vec![1], v6: vec![2], ..service("a.b") };
        feed(&mut m, 0, &https(0, 0, &[hinted]));
        assert_eq!(listing(&m), [plain(1, expected)]);
    }
}

#[test]
fn alternatives() {
    let configuration = Configuration {
        versions: H2 | H1,
        preference: ONLY_V4,
        origin: v6_host(7),
        alternatives: vec![
            alternative(no_host(), Some(8443), 2),
            alternative(v6_host(1), None, 1),
            alternative(v4_host(2), None, 1),
            alternative(v4_host(3), None, 0),
        ],
        ..Configuration::default()
    };
    // The origin's own family isn't tested, a literal's is; H3 isn't enabled.
    let expected = [plain(1, to_v6(7, 443)), plain(2, to_v4(2, 443)), plain(3, to_v6(7, 8443))];
    assert_eq!(listing(&configuration.machine()), expected);
}

#[test]
fn by_name() {
    let configuration = Configuration {
        origin: name_host("A.b."),
        mode: NAME,
        alternatives: vec![
            alternative(name_host("C.d."), Some(1), 0),
            alternative(no_host(), Some(2), 0),
            alternative(v4_host(1), None, 0),
        ],
        ..Configuration::default()
    };
    let expected = [
        plain(0, to_name("C.d", 1)),
        plain(0, to_v4(1, 443)),
        plain(1, to_name("A.b", 443)),
        plain(0, to_name("A.b", 2)),
    ];
    assert_eq!(listing(&configuration.machine()), expected);
}

#[test]
fn by_name_an_address_stays_an_address() {
    for mode in [NAME, NAME_WITH_HTTPS] {
        let configuration = Configuration {
            origin: v4_host(9),
            mode,
            alternatives: vec![alternative(no_host(), None, 0)],
            ..Configuration::default()
        };
        let expected = [plain(0, to_v4(9, 443)), plain(1, to_v4(9, 443))];
        assert_eq!(listing(&configuration.machine()), expected);
    }
}

#[test]
fn held_answers_for_exactly_that_name() {
    let configuration = Configuration {
        versions: H2,
        alternatives: vec![alternative(name_host("A.b"), None, 1)],
        ..Configuration::default()
    };
    let mut m = asked(&configuration);
    assert_eq!(m.output(0), query(3, AAAA, "A.b"));
    assert_eq!(m.output(0), query(4, A, "A.b"));
    feed(&mut m, 0, &aaaa(3, 0, &[1]));
    feed(&mut m, 0, &aaaa(1, 0, &[2]));
    assert_eq!(listing(&m), [plain(2, to_v6(1, 443)), plain(2, to_v6(2, 443))]);
}

#[test]
fn at_most_272() {
    let configuration = Configuration {
        preference: PREFER_V4,
        flags: 0,
        alternatives: vec![alternative(no_host(), None, 1); 4],
        ..Configuration::default()
    };
    let mut m = asked(&configuration);
    let lasts = [1, 2, 3, 4, 5, 6, 7, 8];
    feed(&mut m, 0, &aaaa(1, 0, &lasts));
    feed(&mut m, 0, &a(2, 0, &lasts));
    let hinted = Service {
        versions: 7,
        v4: vec![11, 12, 13, 14],
        v6: vec![11, 12, 13, 14],
        ..service("a.b")
    };
    feed(&mut m, 0, &https(0, 0, &vec![hinted; 4]));
    assert_eq!(listing(&m).len(), 272);
    assert_eq!(m.view(0).listed, 272);
}
