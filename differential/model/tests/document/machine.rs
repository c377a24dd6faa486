//! Parts 5 to 7: starting, output, input.

use crate::build::*;
use model::Machine;

/// The answers of calls at one moment.
fn calls<const N: usize>(m: &mut Machine, now: u64) -> [Vec<u8>; N] {
    [(); N].map(|()| m.output(now))
}

/// A refused input changes nothing.
fn refused(m: &mut Machine, body: &[u8], number: u8) {
    let before = format!("{m:?}");
    assert_eq!(m.input(77, body), number);
    assert_eq!(format!("{m:?}"), before);
}

// The smallest inputs on which the first wording of document 01 and the Rust
// part.

#[test]
fn hint_is_kept_after_a_failed_answer() {
    let mut m = Configuration { preference: ONLY_V4, ..Configuration::default() }.machine();
    assert_eq!(calls(&mut m, 0), [query(0, HTTPS, "a.b"), query(1, A, "a.b")]);
    feed(&mut m, 0, &https(0, 0, &[Service { v4: vec![2], ..service("a.b") }]));
    let mut other = m.clone();
    feed(&mut m, 0, &a(1, FAILED, &[]));
    assert_eq!(m.output(0), attempt(2, 1, to_v4(2, 443)));

    feed(&mut other, 0, &a(1, 0, &[1]));
    assert_eq!(other.output(0), attempt(2, 1, to_v4(1, 443)));
    feed(&mut other, 0, &failure(2));
    assert_eq!(other.output(0), attempt(3, 1, to_v4(2, 443)));
}

#[test]
fn service_by_name_is_its_target_without_the_dot() {
    let mut m = Configuration { mode: NAME_WITH_HTTPS, ..Configuration::default() }.machine();
    assert_eq!(m.output(0), query(0, HTTPS, "a.b"));
    feed(&mut m, 0, &https(0, 0, &[Service { versions: H1, ..service("d.e.") }]));
    assert_eq!(m.output(0), attempt(1, 3, to_name("d.e", 443)));
}

#[test]
fn alternative_by_name_loses_its_dot() {
    let configuration = Configuration {
        mode: NAME,
        versions: H3 | H2,
        alternatives: vec![alternative(name_host("c.d."), None, 1)],
        ..Configuration::default()
    };
    assert_eq!(configuration.machine().output(0), attempt(0, 2, to_name("c.d", 443)));
}

#[test]
fn names_are_compared_after_the_dot_is_dropped() {
    let configuration = Configuration {
        mode: NAME,
        versions: H2,
        alternatives: vec![
            alternative(name_host("c.d."), None, 1),
            alternative(name_host("c.d"), None, 1),
            alternative(name_host("a.b."), None, 1),
        ],
        ..Configuration::default()
    };
    let mut m = configuration.machine();
    assert_eq!(m.output(0), attempt(0, 2, to_name("c.d", 443)));
    feed(&mut m, 0, &failure(0));
    assert_eq!(m.output(0), attempt(1, 2, to_name("a.b", 443)));
    feed(&mut m, 0, &failure(1));
    assert_eq!(m.output(0), FAILED_CONNECTION);
}

#[test]
fn failed_with_nothing_asked_is_dns() {
    let by_name = Configuration { mode: NAME, versions: 0, ..Configuration::default() };
    assert_eq!(by_name.machine().output(0), FAILED_DNS);
    let by_name = Configuration { mode: NAME, versions: H3, ..Configuration::default() };
    assert_eq!(by_name.machine().output(0), FAILED_DNS);
    let address = Configuration { origin: v4_host(1), versions: H3, ..Configuration::default() };
    assert_eq!(address.machine().output(0), FAILED_DNS);
}

#[test]
fn all_dns_failed() {
    let mut m = Configuration::default().machine();
    ask_three(&mut m, "a.b");
    for body in [https(0, FAILED, &[]), aaaa(1, FAILED, &[]), a(2, FAILED, &[])] {
        assert_eq!(m.output(50 * MS), WAITING);
        feed(&mut m, 0, &body);
    }
    assert_eq!(calls(&mut m, 50 * MS), [FAILED_DNS, FAILED_DNS]);
}

#[test]
fn a_literal_listed_but_never_opened() {
    let configuration = Configuration {
        alternatives: vec![alternative(v4_host(9), None, 1)],
        ..Configuration::default()
    };
    let mut m = configuration.machine();
    ask_three(&mut m, "a.b");
    for body in [https(0, FAILED, &[]), aaaa(1, FAILED, &[]), a(2, FAILED, &[])] {
        feed(&mut m, 0, &body);
    }
    assert_eq!(m.output(0), FAILED_DNS);
    let view = m.view(0);
    assert_eq!((view.listed, view.untried, view.covered), (1, 1, false));
}

// Starting.

#[test]
fn resolution_delay_is_met_at_equality() {
    let mut m = Configuration::default().machine();
    ask_three(&mut m, "a.b");
    feed(&mut m, 1_000, &a(2, 0, &[1]));
    assert_eq!(m.output(1_000), timer(50 * MS));
    assert_eq!(m.output(1_000 + 49_999_999), timer(1));
    assert_eq!(m.output(0), timer(50 * MS));
    assert_eq!(m.output(1_000 + 50_000_000), attempt(3, 1, to_v4(1, 443)));
}

#[test]
fn the_oldest_answer_counts() {
    let mut m = Configuration::default().machine();
    ask_three(&mut m, "a.b");
    feed(&mut m, 10, &https(0, FAILED, &[]));
    feed(&mut m, 20 * MS, &a(2, 0, &[1]));
    assert_eq!(m.output(20 * MS), timer(30 * MS + 10));
    assert_eq!(m.output(50 * MS + 10), attempt(3, 1, to_v4(1, 443)));
}

#[test]
fn without_timeout_takes_all_three() {
    let bodies = [https(0, 0, &[]), aaaa(1, 0, &[]), a(2, 0, &[1])];
    for left_out in 0..3 {
        let mut m = Configuration::default().machine();
        ask_three(&mut m, "a.b");
        for (place, body) in bodies.iter().enumerate() {
            if place != left_out {
                feed(&mut m, 0, body);
            }
        }
        assert_eq!(m.output(0), timer(50 * MS));
        feed(&mut m, 0, &bodies[left_out]);
        assert_eq!(m.output(0), attempt(3, 1, to_v4(1, 443)));
    }
}

#[test]
fn wait_off_drops_the_preferred_family_only() {
    let mut m = Configuration { flags: 1, ..Configuration::default() }.machine();
    ask_three(&mut m, "a.b");
    feed(&mut m, 0, &a(2, 0, &[1]));
    assert_eq!(m.output(0), timer(50 * MS));
    feed(&mut m, 0, &https(0, FAILED, &[]));
    assert_eq!(m.output(0), attempt(3, 1, to_v4(1, 443)));
}

#[test]
fn a_preferred_hint_stands_for_the_answer() {
    for (hint_v6, started) in [(true, true), (false, false)] {
        let mut m = Configuration::default().machine();
        ask_three(&mut m, "a.b");
        let mut hinted = service("a.b");
        if hint_v6 {
            hinted.v6 = vec![1];
        } else {
            hinted.v4 = vec![1];
        }
        feed(&mut m, 0, &https(0, 0, &[hinted]));
        assert_eq!(m.output(0)[0] == 3, started);
    }
}

#[test]
fn a_forbidden_hint_opens_the_gate() {
    let configuration = Configuration {
        preference: ONLY_V4,
        alternatives: vec![alternative(v4_host(9), None, 1)],
        ..Configuration::default()
    };
    let mut m = configuration.machine();
    assert_eq!(calls(&mut m, 0), [query(0, HTTPS, "a.b"), query(1, A, "a.b")]);
    feed(&mut m, 0, &https(0, 0, &[Service { v6: vec![1], ..service("a.b") }]));
    feed(&mut m, 0, &a(1, FAILED, &[]));
    assert_eq!(m.output(0), attempt(2, 2, to_v4(9, 443)));
}

#[test]
fn the_preferred_type_counts_whatever_its_name() {
    let configuration = Configuration {
        alternatives: vec![alternative(name_host("c"), None, 1)],
        ..Configuration::default()
    };
    let mut m = configuration.machine();
    ask_three(&mut m, "a.b");
    assert_eq!(calls(&mut m, 0), [query(3, AAAA, "c"), query(4, A, "c")]);
    feed(&mut m, 0, &https(0, 0, &[]));
    feed(&mut m, 0, &aaaa(3, 0, &[1]));
    assert_eq!(m.output(0), attempt(5, 2, to_v6(1, 443)));
}

#[test]
fn by_name_with_https_waits_for_https_alone() {
    for body in [https(0, FAILED, &[]), https(0, 0, &[])] {
        let configuration = Configuration { mode: NAME_WITH_HTTPS, ..Configuration::default() };
        let mut m = configuration.machine();
        assert_eq!(calls(&mut m, 0), [query(0, HTTPS, "a.b"), WAITING.to_vec()]);
        feed(&mut m, 0, &body);
        assert_eq!(m.output(0), attempt(1, 1, to_name("a.b", 443)));
    }
}

#[test]
fn https_names() {
    for (port, name) in [(443, "a.b."), (0, "_0._https.a.b."), (65_535, "_65535._https.a.b.")] {
        let origin = name_host("a.b.");
        let mut m = Configuration { origin, port, ..Configuration::default() }.machine();
        assert_eq!(m.output(0), query(0, HTTPS, name));
        assert_eq!(m.output(0), query(1, AAAA, "a.b."));
    }
}

#[test]
fn queries_in_order() {
    let configuration = Configuration {
        preference: PREFER_V4,
        alternatives: vec![
            alternative(name_host("z"), None, 0),
            alternative(v4_host(1), None, 0),
            alternative(name_host("d"), None, 0),
        ],
        ..Configuration::default()
    };
    let mut m = configuration.machine();
    ask_three(&mut m, "a.b");
    let late = Service { priority: 9, ..service("d") };
    feed(&mut m, 0, &https(0, STALE, &[late, service("a.b"), service("e")]));
    let expected = [
        query(3, AAAA, "d"),
        query(4, A, "d"),
        query(5, AAAA, "e"),
        query(6, A, "e"),
        query(7, AAAA, "z"),
        query(8, A, "z"),
        refresh(9, HTTPS, "a.b"),
        timer(50 * MS),
    ];
    assert_eq!(calls(&mut m, 0), expected);
}

#[test]
fn targets_without_ech_are_not_asked() {
    let mut m = Configuration::default().machine();
    ask_three(&mut m, "a.b");
    let with = Service { ech: Some(vec![1]), ..service("d") };
    feed(&mut m, 0, &https(0, 0, &[service("e"), with]));
    let expected = [query(3, AAAA, "d"), query(4, A, "d"), timer(50 * MS)];
    assert_eq!(calls(&mut m, 0), expected);
}

#[test]
fn an_attempt_comes_before_a_query() {
    let mut m = Configuration::default().machine();
    assert_eq!(m.output(0), query(0, HTTPS, "a.b"));
    feed(&mut m, 0, &https(0, 0, &[Service { v6: vec![1], ..service("a.b") }]));
    assert_eq!(m.output(0), attempt(1, 1, to_v6(1, 443)));
    assert_eq!(m.output(0), query(2, AAAA, "a.b"));
}

// Output.

/// An address origin that has two alternatives: three endpoints.
fn three_endpoints() -> Configuration {
    Configuration {
        origin: v4_host(1),
        versions: H2,
        alternatives: vec![alternative(v4_host(2), None, 1), alternative(v4_host(3), None, 1)],
        ..Configuration::default()
    }
}

#[test]
fn pacing_from_the_latest_attempt() {
    let mut m = Configuration { multiplier: 2, ..three_endpoints() }.machine();
    assert_eq!(m.output(0), attempt(0, 2, to_v4(2, 443)));
    assert_eq!(m.output(1), timer(250 * MS - 1));
    assert_eq!(m.output(250 * MS), attempt(1, 2, to_v4(3, 443)));
    assert_eq!(m.output(250 * MS), timer(500 * MS));
    assert_eq!(m.output(750 * MS - 1), timer(1));
    feed(&mut m, 0, &failure(1));
    // One in progress again: the delay is 250 ms from attempt 0, long past.
    assert_eq!(m.output(750 * MS - 1), attempt(2, 2, to_v4(1, 443)));
    assert_eq!(m.output(750 * MS), timer(500 * MS - 1));
    assert_eq!(m.output(2_000 * MS), WAITING);
}

#[test]
fn the_attempt_timer_comes_before_the_resolution_timer() {
    let mut m = Configuration::default().machine();
    ask_three(&mut m, "a.b");
    feed(&mut m, 0, &https(0, 0, &[Service { v6: vec![1], ..service("a.b") }]));
    assert_eq!(calls(&mut m, 0), [attempt(3, 1, to_v6(1, 443)), timer(250 * MS)]);
    feed(&mut m, 0, &failure(3));
    assert_eq!(m.output(0), timer(50 * MS));
}

#[test]
fn another_port_is_another_endpoint() {
    let configuration = Configuration {
        origin: v4_host(1),
        versions: H2,
        delay: 0,
        alternatives: vec![
            alternative(no_host(), Some(8443), 1),
            alternative(no_host(), Some(443), 1),
        ],
        ..Configuration::default()
    };
    let mut m = configuration.machine();
    let attempts = [attempt(0, 2, to_v4(1, 8443)), attempt(1, 2, to_v4(1, 443))];
    assert_eq!(calls(&mut m, 0), attempts);
    assert_eq!(m.output(0), WAITING);
}

#[test]
fn a_clock_gone_back_waits() {
    let mut m = Configuration { delay: 10, ..three_endpoints() }.machine();
    assert_eq!(m.output(100), attempt(0, 2, to_v4(2, 443)));
    assert_eq!(m.output(0), timer(10));
    assert_eq!(m.output(109), timer(1));
    assert_eq!(m.output(110), attempt(1, 2, to_v4(3, 443)));
}

#[test]
fn delay_zero_gives_no_timer() {
    let mut m = Configuration { delay: 0, ..three_endpoints() }.machine();
    assert_eq!(m.output(100)[0], 3);
    assert_eq!(m.output(50)[0], 3);
    assert_eq!(m.output(0)[0], 3);
    assert_eq!(m.output(0), WAITING);
}

#[test]
fn cancel_in_list_order_then_succeeded() {
    let mut m = Configuration { delay: 0, ..three_endpoints() }.machine();
    for id in 0..3 {
        assert_eq!(m.output(0)[..2], [3, id]);
    }
    feed(&mut m, 0, &success(1));
    let succeeded = SUCCEEDED.to_vec();
    assert_eq!(calls(&mut m, 0), [cancel(0), cancel(2), succeeded.clone(), succeeded]);
    let view = m.view(0);
    assert_eq!((view.asks, view.cancelled, view.unanswered), (5, 2, 0));
    for body in [success(0), failure(0), ech_retry(2, &[])] {
        refused(&mut m, &body, 0);
    }
    refused(&mut m, &failure(1), 12);
    assert_eq!(m.output(0), SUCCEEDED);
}

#[test]
fn a_resolution_timer_though_nothing_can_come_of_it() {
    let configuration = Configuration {
        origin: v4_host(1),
        delay: 0,
        alternatives: vec![alternative(name_host("c"), None, 1)],
        ..Configuration::default()
    };
    let mut m = configuration.machine();
    let asked = [attempt(0, 1, to_v4(1, 443)), query(1, AAAA, "c"), query(2, A, "c")];
    assert_eq!(calls(&mut m, 0), asked);
    assert_eq!(m.output(0), WAITING);
    feed(&mut m, 0, &aaaa(1, FAILED, &[]));
    assert_eq!(m.output(0), timer(50 * MS));
    assert_eq!(m.output(50 * MS), WAITING);
}

// Refreshes.

#[test]
fn a_refresh_restarts_the_resolution_delay() {
    let mut m = Configuration::default().machine();
    ask_three(&mut m, "a.b");
    feed(&mut m, 0, &a(2, STALE, &[1]));
    assert_eq!(m.output(0), refresh(3, A, "a.b"));
    assert_eq!(m.output(0), timer(50 * MS));
    feed(&mut m, 40 * MS, &a(3, 0, &[2]));
    assert_eq!(m.output(40 * MS), timer(50 * MS));
    assert_eq!(m.output(90 * MS), attempt(4, 1, to_v4(2, 443)));
}

#[test]
fn refresh_refusals_in_order() {
    let mut m = Configuration::default().machine();
    ask_three(&mut m, "a.b");
    refused(&mut m, &a(3, 0, &[]), 7);
    refused(&mut m, &aaaa(2, 0, &[]), 9);
    feed(&mut m, 0, &a(2, STALE | FAILED, &[]));
    assert_eq!(m.output(0), refresh(3, A, "a.b"));
    // The record's own id: 8 before 9, also while its refresh flies.
    refused(&mut m, &a(2, 0, &[]), 8);
    refused(&mut m, &aaaa(2, 0, &[]), 8);
    // The refresh: 9 before 10.
    refused(&mut m, &aaaa(3, STALE, &[]), 9);
    refused(&mut m, &a(3, STALE, &[]), 10);
    refused(&mut m, &a(3, STALE | FAILED, &[]), 10);
    feed(&mut m, 0, &a(3, 0, &[1]));
    // Done: its id is unknown, and it isn't asked for again.
    refused(&mut m, &a(3, 0, &[1]), 7);
    assert_eq!(m.output(0), timer(50 * MS));
    assert_eq!(m.view(0).refreshes, 1);
}

#[test]
fn a_refresh_in_flight_leaves_its_record_complete() {
    let mut m = Configuration::default().machine();
    ask_three(&mut m, "a.b");
    feed(&mut m, 0, &https(0, FAILED, &[]));
    feed(&mut m, 0, &aaaa(1, STALE, &[1]));
    feed(&mut m, 0, &a(2, FAILED, &[]));
    assert_eq!(m.output(0), attempt(3, 1, to_v6(1, 443)));
    assert_eq!(m.output(0), refresh(4, AAAA, "a.b"));
    feed(&mut m, 0, &failure(3));
    // No resolution timer, and no Failed while the refresh flies.
    assert_eq!(m.output(0), WAITING);
    feed(&mut m, 0, &aaaa(4, 0, &[2]));
    assert_eq!(m.output(0), attempt(5, 1, to_v6(2, 443)));
    feed(&mut m, 0, &failure(5));
    assert_eq!(m.output(0), FAILED_CONNECTION);
}

// Attempts' results.

#[test]
fn attempt_refusals_in_order() {
    let mut m = Configuration { delay: 0, ..three_endpoints() }.machine();
    refused(&mut m, &success(0), 7);
    assert_eq!(m.output(0)[0], 3);
    refused(&mut m, &a(0, 0, &[]), 7);
    refused(&mut m, &ech_retry(0, b"E"), 11);
    feed(&mut m, 0, &failure(0));
    for body in [success(0), failure(0), ech_retry(0, b"E")] {
        refused(&mut m, &body, 12);
    }
    let mut m = Configuration::default().machine();
    ask_three(&mut m, "a.b");
    refused(&mut m, &success(0), 7);
}

/// A machine that has attempted 192.0.2.1 and .2 with the ECH bytes "E".
fn with_ech(delay: u64) -> Machine {
    let configuration = Configuration { preference: ONLY_V4, delay, ..Configuration::default() };
    let mut m = configuration.machine();
    assert_eq!(calls(&mut m, 0), [query(0, HTTPS, "a.b"), query(1, A, "a.b")]);
    let with = Service { ech: Some(b"E".to_vec()), v4: vec![1, 2], ..service("a.b") };
    feed(&mut m, 0, &https(0, 0, &[with]));
    feed(&mut m, 0, &a(1, FAILED, &[]));
    assert_eq!(m.output(0), attempt_ech(2, 0, 1, to_v4(1, 443), b"E"));
    assert_eq!(m.output(delay), attempt_ech(3, 0, 1, to_v4(2, 443), b"E"));
    m
}

#[test]
fn ech_retries_in_order_of_arrival_and_once() {
    let mut m = with_ech(250 * MS);
    feed(&mut m, 0, &ech_retry(3, b"F"));
    feed(&mut m, 0, &ech_retry(2, b""));
    // Past the gate: no delay is waited for.
    assert_eq!(m.output(250 * MS), attempt_ech(4, 1, 1, to_v4(2, 443), b"F"));
    assert_eq!(m.output(250 * MS), attempt_ech(5, 1, 1, to_v4(1, 443), b""));
    assert_eq!(m.output(250 * MS), timer(250 * MS));
    feed(&mut m, 0, &ech_retry(4, b"G"));
    feed(&mut m, 0, &failure(5));
    assert_eq!(m.output(250 * MS), FAILED_CONNECTION);
}

#[test]
fn an_ech_retry_comes_before_a_listed_endpoint() {
    let configuration = Configuration { preference: ONLY_V4, ..Configuration::default() };
    let mut m = configuration.machine();
    assert_eq!(calls(&mut m, 0), [query(0, HTTPS, "a.b"), query(1, A, "a.b")]);
    let with = Service { ech: Some(b"E".to_vec()), v4: vec![1, 2], ..service("a.b") };
    feed(&mut m, 0, &https(0, 0, &[with]));
    assert_eq!(m.output(0), attempt_ech(2, 0, 1, to_v4(1, 443), b"E"));
    feed(&mut m, 0, &ech_retry(2, b"F"));
    assert_eq!(m.output(0), attempt_ech(3, 1, 1, to_v4(1, 443), b"F"));
    feed(&mut m, 0, &failure(3));
    assert_eq!(m.output(0), attempt_ech(4, 0, 1, to_v4(2, 443), b"E"));
}

#[test]
fn an_ech_retry_with_the_same_bytes_is_none() {
    let mut m = with_ech(0);
    feed(&mut m, 0, &ech_retry(2, b"E"));
    feed(&mut m, 0, &failure(3));
    assert_eq!(m.output(0), FAILED_CONNECTION);
}

#[test]
fn ech_off_refuses_the_retry() {
    let mut m =
        Configuration { preference: ONLY_V4, flags: 2, ..Configuration::default() }.machine();
    assert_eq!(calls(&mut m, 0), [query(0, HTTPS, "a.b"), query(1, A, "a.b")]);
    let with = Service { ech: Some(b"E".to_vec()), v4: vec![1], ..service("a.b") };
    feed(&mut m, 0, &https(0, 0, &[with]));
    assert_eq!(m.output(0), attempt(2, 1, to_v4(1, 443)));
    refused(&mut m, &ech_retry(2, b"F"), 11);
}

// Full.

#[test]
fn full_of_attempts() {
    let mut m = Configuration { delay: 0, ..Configuration::default() }.machine();
    ask_three(&mut m, "a.b");
    let lasts = [1, 2, 3, 4, 5, 6, 7, 8];
    let many = Service { versions: 7, v6: vec![11], ..service("a.b") };
    feed(&mut m, 0, &https(0, STALE, &[many]));
    feed(&mut m, 0, &aaaa(1, 0, &lasts));
    feed(&mut m, 0, &a(2, 0, &lasts));
    for id in 3..35 {
        assert_eq!(m.output(0)[..2], [3, id]);
    }
    let before = format!("{m:?}");
    for _ in 0..3 {
        assert_eq!(m.output(0), FULL_ATTEMPTS);
    }
    assert_eq!(format!("{m:?}"), before);
    // It stands before the refresh, and failures don't free a record.
    feed(&mut m, 0, &failure(5));
    assert_eq!(m.output(0), FULL_ATTEMPTS);
    feed(&mut m, 0, &success(3));
    for id in (4..35).filter(|id| *id != 5) {
        assert_eq!(m.output(0), cancel(id));
    }
    assert_eq!(m.output(0), SUCCEEDED);
    let view = m.view(0);
    assert_eq!((view.attempts, view.cancelled, view.asks), (32, 30, 3 + 32 + 30));
}

#[test]
fn full_of_attempts_stands_for_a_retry_too() {
    let mut m = Configuration { delay: 0, ..Configuration::default() }.machine();
    ask_three(&mut m, "a.b");
    let lasts = [1, 2, 3, 4, 5, 6, 7, 8];
    let many = Service { versions: 7, ech: Some(vec![1]), ..service("a.b") };
    feed(&mut m, 0, &https(0, 0, &[many]));
    feed(&mut m, 0, &aaaa(1, 0, &lasts));
    feed(&mut m, 0, &a(2, 0, &lasts));
    for id in 3..35 {
        assert_eq!(m.output(0)[..2], [3, id]);
    }
    // Exactly 32 endpoints: no Full until one more is called for.
    assert_eq!(m.output(0), WAITING);
    feed(&mut m, 0, &ech_retry(3, &[2]));
    assert_eq!(m.output(0), FULL_ATTEMPTS);
}

#[test]
fn full_of_queries() {
    let hosts = ["h1", "h2", "h3", "h4"];
    let configuration = Configuration {
        delay: 0,
        alternatives: hosts.map(|host| alternative(name_host(host), None, 1)).to_vec(),
        ..Configuration::default()
    };
    let mut m = configuration.machine();
    ask_three(&mut m, "a.b");
    feed(&mut m, 0, &https(0, STALE, &["t1", "t2", "t3", "t4"].map(service)));
    for id in 3..16 {
        assert_eq!(m.output(0)[..2], [1, id]);
    }
    let before = format!("{m:?}");
    for _ in 0..3 {
        // It hides the refresh and the timer.
        assert_eq!(m.output(0), FULL_QUERIES);
    }
    assert_eq!(format!("{m:?}"), before);
    // An attempt still goes out before it.
    feed(&mut m, 0, &aaaa(1, 0, &[1]));
    assert_eq!(m.output(0), attempt(16, 1, to_v6(1, 443)));
    assert_eq!(m.output(0), FULL_QUERIES);
}

#[test]
fn a_refresh_needs_no_record() {
    let configuration = Configuration {
        alternatives: ["h1", "h2"].map(|host| alternative(name_host(host), None, 1)).to_vec(),
        ..Configuration::default()
    };
    let mut m = configuration.machine();
    ask_three(&mut m, "a.b");
    feed(&mut m, 0, &https(0, STALE, &["t1", "t2", "t3", "t4"].map(service)));
    for id in 3..15 {
        assert_eq!(m.output(0)[..2], [1, id]);
    }
    assert_eq!(m.output(0), refresh(15, HTTPS, "a.b"));
    // A refresh that names one target more: one record is left for its AAAA.
    let names = ["t1", "t2", "t3", "t5"].map(service);
    feed(&mut m, 0, &https(15, 0, &names));
    assert_eq!(m.output(0), query(16, AAAA, "t5"));
    assert_eq!(m.view(0).queries, 16);
    assert_eq!(m.output(0), FULL_QUERIES);
}
