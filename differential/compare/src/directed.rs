//! Tapes written for a purpose: each rule, refusal, difference and deep state of document 01.

use crate::race;
use crate::write::{
    frame, number, Alternative, Body, Configuration, History, Host, Service, V4, V6,
};

/// A tape to store, and what it shows.
pub struct Entry {
    pub name: String,
    pub tape: Vec<u8>,
    /// The answer buffer's size, where it is too short.
    pub room: Option<u64>,
    pub shows: &'static str,
}

const MS: u64 = 1_000_000;
/// Alone among the flags: ECH, and waiting for the preferred address.
const ECH: u64 = 1;
const WAIT: u64 = 2;

fn v4(n: u8) -> V4 {
    [192, 0, 2, n]
}

fn v6(n: u8) -> V6 {
    let mut address = [0; 16];
    address[..4].copy_from_slice(&[0x20, 0x01, 0x0d, 0xb8]);
    address[15] = n;
    address
}

fn named() -> Configuration {
    Configuration::named("a.b")
}

fn only_v4() -> Configuration {
    Configuration { preference: 3, ..named() }
}

fn at(address: u8) -> Configuration {
    Configuration::new(Host::V4(v4(address)), 443)
}

fn a(id: u64, items: &[u8]) -> Body {
    Body::A { id, flags: 0, items: items.iter().map(|n| v4(*n)).collect() }
}

fn aaaa(id: u64, items: &[u8]) -> Body {
    Body::Aaaa { id, flags: 0, items: items.iter().map(|n| (v6(*n), 0)).collect() }
}

fn https(id: u64, items: Vec<Service>) -> Body {
    Body::Https { id, flags: 0, items }
}

fn flagged(body: Body, set: u64) -> Body {
    match body {
        Body::Aaaa { id, items, .. } => Body::Aaaa { id, flags: set, items },
        Body::A { id, items, .. } => Body::A { id, flags: set, items },
        Body::Https { id, items, .. } => Body::Https { id, flags: set, items },
        other => other,
    }
}

fn stale(body: Body) -> Body {
    flagged(body, 1)
}

fn failed(body: Body) -> Body {
    flagged(body, 2)
}

fn retry(id: u64, ech: &[u8]) -> Body {
    Body::Retry { id, ech: ech.to_vec() }
}

fn service(priority: u64, name: &str, versions: u64) -> Service {
    Service::new(priority, name, versions)
}

fn with_ech(mut service: Service, ech: &[u8]) -> Service {
    service.ech = Some(ech.to_vec());
    service
}

fn with_hints(mut service: Service, four: &[u8], six: &[u8]) -> Service {
    service.v4 = four.iter().map(|n| v4(*n)).collect();
    service.v6 = six.iter().map(|n| v6(*n)).collect();
    service
}

fn alternative(host: Host, version: u64) -> Alternative {
    Alternative { host, port: None, version }
}

fn name(text: &str) -> Host {
    Host::Name(text.as_bytes().to_vec())
}

fn start(configuration: Configuration) -> History {
    History::new(configuration)
}

pub fn unhex(text: &str) -> Vec<u8> {
    let digits: Vec<u8> = text.bytes().filter(|b| !b.is_ascii_whitespace()).collect();
    let pairs = digits.chunks(2).map(|pair| std::str::from_utf8(pair).unwrap());
    pairs.map(|pair| u8::from_str_radix(pair, 16).unwrap()).collect()
}

/// Gathers entries, numbered inside their family.
#[derive(Default)]
struct Shelf {
    entries: Vec<Entry>,
}

impl Shelf {
    fn put(&mut self, name: &str, shows: &'static str, tape: Vec<u8>) {
        self.entries.push(Entry { name: name.into(), tape, room: None, shows });
    }

    fn history(&mut self, name: &str, shows: &'static str, history: History) {
        self.put(name, shows, history.tape());
    }

    fn room(&mut self, name: &str, shows: &'static str, room: u64, tape: Vec<u8>) {
        self.put(name, shows, tape);
        self.entries.last_mut().unwrap().room = Some(room);
    }
}

pub const EXAMPLE: &str = "15 BB 03 01 C0 00 02 01 07 00 00 80 E1 EB 17 80 E5 9A 77 01 03 00 00 01 07 00 01 07 64 02 05 00 64 01 07";

/// All of them, in a fixed order.
pub fn entries() -> Vec<Entry> {
    let mut shelf = Shelf::default();
    known(&mut shelf);
    differences(&mut shelf);
    listing(&mut shelf);
    starting(&mut shelf);
    pacing(&mut shelf);
    output(&mut shelf);
    inputs(&mut shelf);
    retries(&mut shelf);
    refreshes(&mut shelf);
    modes(&mut shelf);
    deep(&mut shelf);
    bodies(&mut shelf);
    configurations(&mut shelf);
    framing(&mut shelf);
    shelf.entries
}

fn known(shelf: &mut Shelf) {
    let example = unhex(EXAMPLE);
    shelf.put("example", "the whole tape of document 01", example.clone());
    shelf.history("race", "a whole race: ECH and hints, a retry, a cancel, a win", race::history());
    shelf.put("empty", "an empty tape is Cut", Vec::new());
    for (room, tag) in [(0, "0"), (11, "11"), (12, "12"), (18, "18"), (19, "19"), (20, "20")] {
        shelf.room(
            &format!("noroom-{tag}"),
            "13: the example with too short a buffer",
            room,
            example.clone(),
        );
    }
    for (name, moment) in [("resolution-before", 49_999_999), ("resolution-met", 50_000_000)] {
        shelf.history(
            name,
            "the resolution delay is met at equality",
            start(named()).calls(0, 3).tell(0, a(2, &[1])).call(moment),
        );
    }
    // H3 v6 a, H3 v6 b, H3 v4 c, H2 v4 d.
    let mut one = with_hints(service(1, "c.d", 1), &[3], &[1, 2]);
    let two = with_hints(service(1, "e.f", 2), &[4], &[]);
    one.port = Some(1);
    shelf.history(
        "rounds",
        "dealing rounds, not sorting: each service alone",
        start(Configuration { attempt: 0, ..named() })
            .call(0)
            .tell(0, https(0, vec![one, two]))
            .calls(0, 6),
    );
    let alternatives = vec![alternative(Host::None, 0), alternative(Host::V4(v4(9)), 1)];
    shelf.history(
        "rounds-together",
        "alternative services and origin are dealt together",
        start(Configuration { attempt: 0, alternatives, ..named() })
            .calls(0, 3)
            .tell(0, failed(https(0, vec![])))
            .tell(0, aaaa(1, &[1, 2]))
            .tell(0, a(2, &[3]))
            .calls(0, 12),
    );
}

/// Where document 01 and the original part: docs/DIFFERENCES.md cites these by name.
fn differences(shelf: &mut Shelf) {
    let hinted = || https(0, vec![with_hints(service(1, "a.b", 6), &[2], &[])]);
    shelf.history(
        "difference-hints-failed",
        "a hint is kept though A failed",
        start(only_v4()).calls(0, 2).tell(0, hinted()).tell(0, failed(a(1, &[]))).call(0),
    );
    shelf.history(
        "difference-hints-empty",
        "a hint is kept though A is empty",
        start(only_v4()).calls(0, 2).tell(0, hinted()).tell(0, a(1, &[])).call(0),
    );
    shelf.history(
        "difference-hints-after",
        "a hint comes after the addresses answered",
        start(Configuration { attempt: 0, ..only_v4() })
            .calls(0, 2)
            .tell(0, hinted())
            .tell(0, a(1, &[1]))
            .calls(0, 2),
    );
    shelf.history(
        "difference-service-by-name",
        "by name a service is reached at its target, without the dot",
        start(Configuration { mode: 2, ..named() })
            .call(0)
            .tell(0, https(0, vec![service(1, "d.e.", 4)]))
            .call(0),
    );
    shelf.history(
        "difference-alternative-dot",
        "by name an alternative's host loses its trailing dot",
        start(Configuration {
            mode: 1,
            versions: 3,
            alternatives: vec![alternative(name("c.d."), 1)],
            ..named()
        })
        .call(0),
    );
    shelf.history(
        "difference-reason-name",
        "Failed with no query and no attempt is DNS: mode Name, no version",
        start(Configuration { mode: 1, versions: 0, ..named() }).call(0),
    );
    shelf.history(
        "difference-reason-address",
        "Failed with no query and no attempt is DNS: address origin, H3 only",
        start(Configuration { versions: 1, ..at(1) }).call(0),
    );
    shelf.history(
        "difference-same-name",
        "by-name hosts are compared after the dot is dropped: one attempt for c.d. and c.d",
        start(Configuration {
            mode: 1,
            versions: 2,
            attempt: 0,
            alternatives: vec![alternative(name("c.d."), 1), alternative(name("c.d"), 1)],
            ..named()
        })
        .calls(0, 3),
    );
    shelf.history(
        "difference-same-name-origin",
        "by-name hosts are compared after the dot is dropped: one attempt for a.b. and a.b",
        start(Configuration {
            mode: 1,
            versions: 2,
            attempt: 0,
            alternatives: vec![alternative(name("a.b"), 1), alternative(Host::None, 1)],
            ..Configuration::named("a.b.")
        })
        .calls(0, 2),
    );
    let saturated = || Configuration {
        attempt: 8_589_934_592,
        multiplier: 2_147_483_648,
        alternatives: vec![alternative(Host::V4(v4(2)), 1)],
        ..at(1)
    };
    shelf.history(
        "difference-saturated",
        "a delay above 64 bits is held at 2^64-1",
        start(saturated()).call(0).calls(8_589_934_592, 2),
    );
    shelf.history(
        "difference-saturated-late",
        "what is left of a delay held at 2^64-1",
        start(saturated()).call(0).call(8_589_934_592).call(u64::MAX),
    );
    let hinted = with_hints(with_ech(service(0, "c.d", 1), &[]), &[], &[1, 2, 3]);
    shelf.history(
        "difference-saturated-end",
        "a delay held at 2^64-1 ends at that age: a retry after the clock went back to 0",
        start(Configuration { resolution: 0, attempt: u64::MAX, multiplier: 2, ..named() })
            .call(0)
            .tell(0, https(0, vec![hinted]))
            .call(0)
            .call(u64::MAX)
            .tell(0, retry(2, &[2]))
            .call(0)
            .call(u64::MAX),
    );
    shelf.history(
        "difference-target-dot",
        "a target of a lone dot is BadName",
        start(Configuration { mode: 2, ..named() })
            .call(0)
            .tell(0, https(0, vec![service(1, ".", 4)]))
            .call(0),
    );
    for (tag, text) in [("capital", "A.b"), ("hexadecimal", "a.0x1"), ("punycode", "xn--.b")] {
        shelf.history(
            &format!("difference-name-{tag}"),
            "an origin name that the URL parser doesn't give back unchanged is kept as it is",
            start(Configuration::named(text)).calls(0, 2),
        );
    }
    shelf.history(
        "difference-capitals-apart",
        "names are compared byte for byte: capitals make another name",
        start(Configuration {
            alternatives: vec![alternative(name("A.b"), 1), alternative(name("a.b"), 1)],
            ..only_v4()
        })
        .calls(0, 4)
        .tell(0, a(2, &[1]))
        .call(60 * MS),
    );
    shelf.history("listing-272", "the longest listing: 272 endpoints", longest());
}

/// 272 endpoints: 4 services of 48, alternatives of 64, the origin's 16; the first 32 are attempted.
pub fn longest() -> History {
    let all = &[1, 2, 3, 4, 5, 6, 7, 8];
    let mut history = start(Configuration {
        attempt: 0,
        alternatives: (0..4)
            .map(|n| Alternative { host: Host::None, port: Some(2000 + n), version: 1 })
            .collect(),
        ..named()
    })
    .calls(0, 3)
    .tell(0, aaaa(1, all))
    .tell(0, a(2, all));
    let services = (0..4)
        .map(|n| {
            let mut service =
                with_hints(service(n, "a.b", 7), &[11, 12, 13, 14], &[11, 12, 13, 14]);
            service.port = Some(1000 + n);
            service
        })
        .collect();
    history = history.tell(0, https(0, services));
    history.calls(0, 33)
}

fn listing(shelf: &mut Shelf) {
    let answered = |configuration: Configuration, services: Vec<Service>, calls: usize| {
        start(Configuration { attempt: 0, ..configuration })
            .calls(0, 3)
            .tell(0, https(0, services))
            .tell(0, aaaa(1, &[1]))
            .tell(0, a(2, &[2]))
            .calls(0, calls)
    };
    shelf.history(
        "listing-priority",
        "services by priority, equal ones in the answer's order",
        answered(
            named(),
            vec![
                with_hints(service(2, "a.b", 1), &[22], &[]),
                with_hints(service(1, "a.b", 2), &[21], &[]),
                with_hints(service(2, "a.b", 4), &[23], &[]),
                with_hints(service(0, "a.b", 6), &[20], &[]),
            ],
            20,
        ),
    );
    shelf.history(
        "listing-ech-only",
        "with ECH on and one service having it, the others and the origin are left out",
        answered(named(), vec![service(1, "a.b", 7), with_ech(service(2, "a.b", 6), &[7])], 8),
    );
    shelf.history(
        "listing-ech-off",
        "with ECH off its bytes are dropped and nothing is left out",
        answered(
            Configuration { flags: WAIT, ..named() },
            vec![service(1, "a.b", 7), with_ech(service(2, "a.b", 6), &[7])],
            12,
        ),
    );
    shelf.history(
        "listing-ech-useless",
        "a service with ECH and no usable version still shuts the origin out",
        answered(
            Configuration { versions: 6, ..named() },
            vec![service(1, "a.b", 7), with_ech(service(2, "a.b", 1), &[7])],
            4,
        ),
    );
    shelf.history(
        "listing-ech-empty",
        "ECH of no bytes is ECH",
        answered(named(), vec![with_ech(service(1, "a.b", 6), &[])], 6),
    );
    shelf.history(
        "listing-versions",
        "H2 and H1 are combined, else stand alone",
        answered(
            named(),
            vec![
                service(1, "a.b", 7),
                service(2, "a.b", 5),
                service(3, "a.b", 3),
                service(4, "a.b", 0),
            ],
            24,
        ),
    );
    shelf.history(
        "listing-versions-off",
        "versions that aren't enabled are left out",
        answered(Configuration { versions: 3, ..named() }, vec![service(1, "a.b", 7)], 10),
    );
    shelf.history(
        "listing-h1",
        "the origin over H1 alone",
        answered(Configuration { versions: 5, ..named() }, vec![], 8),
    );
    let mut ported = service(1, "a.b", 6);
    ported.port = Some(0);
    shelf.history("listing-port", "a service's port, 0 too", answered(named(), vec![ported], 8));
    shelf.history(
        "listing-scope",
        "a scope is handed on",
        start(Configuration { attempt: 0, preference: 2, ..named() })
            .calls(0, 2)
            .tell(0, failed(https(0, vec![])))
            .tell(
                0,
                Body::Aaaa {
                    id: 1,
                    flags: 0,
                    items: vec![(v6(1), 0), (v6(1), 4_294_967_295), (v6(1), 1)],
                },
            )
            .calls(0, 5),
    );
    let mut mapped = [0; 16];
    mapped[10..].copy_from_slice(&[255, 255, 192, 0, 2, 1]);
    shelf.history(
        "listing-mapped",
        "an IPv4 address mapped into IPv6 stays IPv6",
        start(Configuration::new(Host::V6(mapped), 443)).calls(0, 2),
    );
    let alternatives = vec![
        Alternative { host: Host::V4(v4(7)), port: Some(8443), version: 0 },
        Alternative { host: Host::V6(v6(7)), port: None, version: 1 },
        alternative(Host::None, 2),
        alternative(name("c.d"), 0),
    ];
    for (tag, preference) in [("v6", 0), ("v4", 1), ("only-v6", 2), ("only-v4", 3)] {
        shelf.history(
            &format!("listing-alternatives-{tag}"),
            "alternative services: literals of an allowed family, no host, a name",
            start(Configuration {
                attempt: 0,
                preference,
                alternatives: alternatives.clone(),
                ..at(1)
            })
            .calls(0, 12),
        );
        shelf.history(
            &format!("listing-hints-{tag}"),
            "hints of an allowed family, before any address is answered",
            start(Configuration { attempt: 0, preference, ..named() })
                .call(0)
                .tell(0, https(0, vec![with_hints(service(1, "c.d", 6), &[1, 2], &[3, 4])]))
                .calls(50 * MS, 10),
        );
    }
    shelf.history(
        "listing-other-family",
        "an address origin of a family that isn't allowed is attempted",
        start(Configuration { preference: 2, ..at(1) }).calls(0, 2),
    );
    shelf.history(
        "listing-alternative-name",
        "an alternative's host has its own addresses, without the origin's",
        start(Configuration {
            attempt: 0,
            alternatives: vec![alternative(name("c.d"), 0)],
            ..only_v4()
        })
        .calls(0, 3)
        .tell(0, failed(https(0, vec![])))
        .tell(0, a(1, &[1]))
        .tell(0, a(2, &[2, 3]))
        .calls(0, 5),
    );
    shelf.history(
        "listing-equal",
        "an endpoint listed twice is attempted once",
        start(Configuration { attempt: 0, ..only_v4() })
            .calls(0, 2)
            .tell(0, https(0, vec![with_hints(service(1, "a.b", 6), &[1, 1], &[])]))
            .tell(0, a(1, &[1, 1]))
            .calls(0, 3),
    );
}

fn starting(shelf: &mut Shelf) {
    for (tag, configuration) in [
        ("443", named()),
        ("8443", Configuration { port: 8443, ..named() }),
        ("0", Configuration { port: 0, ..named() }),
        ("65535", Configuration { port: 65535, ..Configuration::named("a.b.") }),
    ] {
        shelf.history(
            &format!("starting-https-name-{tag}"),
            "the HTTPS name: the origin at port 443, else with its prefix",
            start(configuration).calls(0, 4),
        );
    }
    shelf.history(
        "starting-preferred",
        "the preferred family's answer and HTTPS open the gate at once",
        start(named())
            .calls(0, 3)
            .tell(0, https(0, vec![]))
            .call(0)
            .tell(1, aaaa(1, &[1]))
            .calls(1, 2),
    );
    shelf.history(
        "starting-other-waits",
        "the other family's answer waits out the resolution delay",
        start(named())
            .calls(0, 3)
            .tell(0, https(0, vec![]))
            .tell(10 * MS, a(2, &[1]))
            .calls(10 * MS, 2)
            .calls(50 * MS, 2),
    );
    shelf.history(
        "starting-no-wait",
        "with the wait off the other family's answer is enough",
        start(Configuration { flags: ECH, ..named() })
            .calls(0, 3)
            .tell(0, https(0, vec![]))
            .tell(10 * MS, a(2, &[1]))
            .calls(10 * MS, 2),
    );
    shelf.history(
        "starting-no-wait-https",
        "with the wait off HTTPS is waited for all the same",
        start(Configuration { flags: ECH, ..named() })
            .calls(0, 3)
            .tell(0, a(2, &[1]))
            .calls(10 * MS, 2)
            .call(50 * MS),
    );
    shelf.history(
        "starting-preferred-hint",
        "a hint of the preferred family counts as its answer",
        start(named())
            .calls(0, 3)
            .tell(0, https(0, vec![with_hints(service(1, "c.d", 6), &[], &[1])]))
            .calls(0, 2),
    );
    shelf.history(
        "starting-other-hint",
        "a hint of the other family doesn't",
        start(named())
            .calls(0, 3)
            .tell(0, https(0, vec![with_hints(service(1, "c.d", 6), &[1], &[])]))
            .calls(0, 4)
            .calls(50 * MS, 2),
    );
    shelf.history(
        "starting-forbidden-hint",
        "a hint of a forbidden family opens the gate for an alternative's literal",
        start(Configuration { alternatives: vec![alternative(Host::V4(v4(9)), 1)], ..only_v4() })
            .calls(0, 2)
            .tell(0, failed(a(1, &[])))
            .tell(0, https(0, vec![with_hints(service(1, "a.b", 6), &[], &[1])]))
            .calls(0, 2),
    );
    shelf.history(
        "starting-any-name",
        "any answered record of the preferred type counts, whatever its name",
        start(named())
            .calls(0, 3)
            .tell(0, https(0, vec![service(1, "c.d", 6)]))
            .calls(0, 2)
            .tell(0, aaaa(3, &[1]))
            .calls(0, 2),
    );
    shelf.history(
        "starting-no-address",
        "without an address nothing is attempted, though a literal is listed",
        start(Configuration { alternatives: vec![alternative(Host::V4(v4(9)), 1)], ..only_v4() })
            .calls(0, 2)
            .tell(0, failed(https(0, vec![])))
            .tell(0, failed(a(1, &[])))
            .calls(100 * MS, 2),
    );
    shelf.history(
        "starting-clock-back",
        "elapsed is 0 when the clock goes back",
        start(named())
            .calls(100 * MS, 3)
            .tell(100 * MS, a(2, &[1, 2]))
            .call(20 * MS)
            .call(149 * MS)
            .call(150 * MS)
            .call(10 * MS)
            .call(400 * MS),
    );
    shelf.history(
        "starting-zero-delays",
        "delays of 0: no timer is given",
        start(Configuration { resolution: 0, attempt: 0, ..named() })
            .calls(0, 3)
            .tell(0, a(2, &[1, 2, 3]))
            .calls(0, 6),
    );
    shelf.history(
        "starting-attempt-before-query",
        "an attempt comes before the queries that are still to be asked",
        start(named())
            .call(0)
            .tell(0, https(0, vec![with_hints(service(1, "c.d", 6), &[], &[1])]))
            .calls(0, 7),
    );
    shelf.history(
        "starting-query-order",
        "targets in the answer's order, then alternatives; AAAA before A under PreferV4 too",
        start(Configuration {
            preference: 1,
            alternatives: vec![alternative(name("k.l"), 1), alternative(name("a.b"), 1)],
            ..named()
        })
        .call(0)
        .tell(0, https(0, vec![service(9, "e.f", 1), service(1, "c.d", 6)]))
        .calls(0, 10),
    );
    shelf.history(
        "starting-query-ech",
        "targets without ECH aren't asked for if any service has it",
        start(named())
            .call(0)
            .tell(0, https(0, vec![service(1, "c.d", 6), with_ech(service(1, "e.f", 6), &[1])]))
            .calls(0, 6),
    );
    shelf.history(
        "starting-useless-timer",
        "the resolution timer is given though nothing can come of it",
        start(Configuration {
            versions: 1,
            alternatives: vec![alternative(name("c.d"), 2)],
            ..at(1)
        })
        .calls(0, 2)
        .tell(0, aaaa(0, &[1]))
        .calls(0, 2)
        .calls(50 * MS, 2),
    );
}

fn pacing(shelf: &mut Shelf) {
    for (tag, multiplier) in
        [("1", 1), ("2", 2), ("3", 3), ("65535", 65_535), ("largest", (1 << 32) - 1)]
    {
        let mut history = start(Configuration { attempt: 10, multiplier, ..only_v4() })
            .calls(0, 2)
            .tell(0, https(0, vec![]))
            .tell(0, a(1, &[1, 2, 3, 4, 5]));
        let mut now: u64 = 0;
        for running in 0..4 {
            history = history.calls(now, 2);
            let factor = u64::saturating_pow(multiplier, running).min((1 << 32) - 1);
            now += 10 * factor;
            history = history.call(now - 1);
        }
        history = history.call(now);
        shelf.history(
            &format!("pacing-{tag}"),
            "each attempt in progress multiplies the delay",
            history,
        );
    }
    shelf.history(
        "pacing-latest",
        "the timer runs from the latest attempt in progress, not the oldest",
        start(Configuration { attempt: 100, ..only_v4() })
            .calls(0, 2)
            .tell(0, https(0, vec![]))
            .tell(0, a(1, &[1, 2, 3]))
            .calls(0, 2)
            .calls(100, 2)
            .call(150)
            .call(200),
    );
    shelf.history(
        "pacing-failed",
        "a failed attempt no longer counts, and the next leaves at once",
        start(Configuration { attempt: 100, multiplier: 10, ..only_v4() })
            .calls(0, 2)
            .tell(0, https(0, vec![]))
            .tell(0, a(1, &[1, 2, 3, 4]))
            .call(0)
            .call(100)
            .tell(150, Body::Failure(3))
            .calls(150, 3)
            .tell(150, Body::Failure(2))
            .calls(150, 2),
    );
    shelf.history(
        "pacing-back",
        "with the clock gone back an attempt is as young as can be",
        start(Configuration { attempt: 10, ..only_v4() })
            .calls(1000, 2)
            .tell(1000, https(0, vec![]))
            .tell(1000, a(1, &[1, 2]))
            .calls(1000, 2)
            .calls(0, 2)
            .call(1009)
            .call(1010),
    );
}

fn output(shelf: &mut Shelf) {
    let racing = |count: u64| {
        let mut history = start(Configuration { attempt: 10, ..only_v4() })
            .calls(0, 2)
            .tell(0, https(0, vec![]))
            .tell(0, a(1, &[1, 2, 3, 4, 5]));
        for n in 0..count {
            history = history.call(10 * n);
        }
        history
    };
    shelf.history(
        "output-cancel",
        "losers are cancelled in list order, then Succeeded on every call",
        racing(4).tell(40, Body::Success(4)).calls(40, 6),
    );
    shelf.history(
        "output-two-winners",
        "two successes before a call: the rest is cancelled",
        racing(4).tell(40, Body::Success(5)).tell(40, Body::Success(3)).calls(40, 4),
    );
    shelf.history(
        "output-winner-alone",
        "a single success needs no cancel",
        racing(1).tell(5, Body::Success(2)).calls(5, 2),
    );
    shelf.history(
        "output-waiting-query",
        "Waiting while a query is unanswered",
        start(named()).calls(0, 4).tell(0, failed(https(0, vec![]))).call(0).calls(50 * MS, 2),
    );
    shelf.history(
        "output-waiting-attempt",
        "Waiting while an attempt is unanswered",
        racing(5).calls(50, 2).calls(60, 2),
    );
    shelf.history(
        "output-waiting-refresh",
        "Waiting while a refresh is in flight",
        start(Configuration { mode: 2, versions: 0, ..named() })
            .call(0)
            .tell(0, stale(https(0, vec![])))
            .calls(0, 2)
            .tell(0, https(1, vec![]))
            .calls(0, 2),
    );
    shelf.history(
        "output-failed-dns",
        "Failed for DNS: no attempt was made",
        start(only_v4())
            .calls(0, 2)
            .tell(0, failed(https(0, vec![])))
            .tell(0, a(1, &[]))
            .calls(0, 2),
    );
    shelf.history(
        "output-failed-connection",
        "Failed for connection: an attempt was made",
        racing(1)
            .tell(5, Body::Failure(2))
            .call(5)
            .tell(5, Body::Failure(3))
            .call(5)
            .tell(5, Body::Failure(4))
            .call(5)
            .tell(5, Body::Failure(5))
            .call(5)
            .tell(5, Body::Failure(6))
            .calls(5, 2),
    );
    shelf.history(
        "output-inputs-after-end",
        "inputs stay accepted or refused by the table after Succeeded",
        racing(3)
            .tell(30, Body::Success(2))
            .calls(30, 3)
            .tell(30, Body::Failure(2))
            .tell(30, Body::Failure(3))
            .tell(30, a(1, &[1]))
            .call(30),
    );
}

fn inputs(shelf: &mut Shelf) {
    let asked = || start(named()).calls(0, 3);
    shelf.history(
        "input-unknown",
        "7: no query, no attempt has the id",
        asked()
            .tell(0, a(3, &[1]))
            .tell(0, a(u64::MAX, &[]))
            .tell(0, Body::Success(3))
            .tell(0, Body::Failure(0))
            .tell(0, retry(1, &[1]))
            .call(0),
    );
    shelf.history(
        "input-unknown-kinds",
        "7: an attempt's id in an answer, a query's id in a result",
        asked()
            .tell(0, https(0, vec![]))
            .tell(0, aaaa(1, &[1]))
            .call(0)
            .tell(0, a(3, &[1]))
            .tell(0, Body::Success(1))
            .tell(0, https(3, vec![]))
            .call(0),
    );
    shelf.history(
        "input-answered",
        "8: the query's own id with an answer held, before 9",
        asked()
            .tell(0, a(2, &[1]))
            .tell(1, a(2, &[2]))
            .tell(1, aaaa(2, &[2]))
            .tell(1, failed(a(2, &[])))
            .tell(1, stale(a(2, &[3])))
            .call(1),
    );
    shelf.history(
        "input-wrong-type",
        "9: the answer's type isn't the record's",
        asked()
            .tell(0, a(0, &[1]))
            .tell(0, a(1, &[1]))
            .tell(0, https(1, vec![]))
            .tell(0, aaaa(2, &[1]))
            .tell(0, failed(https(2, vec![])))
            .calls(60 * MS, 2),
    );
    shelf.history(
        "input-refresh",
        "a refresh tests 9, then 10; once done its id is 7, the record's own 8",
        start(only_v4())
            .calls(0, 2)
            .tell(0, stale(a(1, &[1])))
            .call(0)
            .tell(0, stale(aaaa(2, &[1])))
            .tell(0, aaaa(2, &[1]))
            .tell(0, stale(a(2, &[2])))
            .tell(0, flagged(a(2, &[]), 3))
            .tell(0, a(1, &[3]))
            .tell(0, a(2, &[4]))
            .tell(0, a(2, &[5]))
            .tell(0, https(2, vec![]))
            .tell(0, a(1, &[6]))
            .call(60 * MS),
    );
    shelf.history(
        "input-ended",
        "12: succeeded or failed before, and before 11",
        start(at(1))
            .call(0)
            .tell(0, Body::Failure(0))
            .tell(0, Body::Failure(0))
            .tell(0, Body::Success(0))
            .tell(0, retry(0, &[1]))
            .call(0),
    );
    shelf.history(
        "input-ended-won",
        "12: a success is an end too",
        start(at(1))
            .call(0)
            .tell(0, Body::Success(0))
            .tell(0, Body::Failure(0))
            .tell(0, Body::Success(0))
            .tell(0, retry(0, &[]))
            .call(0),
    );
    let raced = |flags: u64| {
        start(Configuration { attempt: 0, flags, ..only_v4() })
            .calls(0, 2)
            .tell(0, https(0, vec![with_ech(service(1, "a.b", 7), &[5])]))
            .tell(0, a(1, &[1, 2]))
            .calls(0, 4)
    };
    shelf.history(
        "input-ech-off",
        "11: ECH retry with ECH off; the attempt stays in progress",
        raced(WAIT).tell(0, retry(2, &[1])).call(0).tell(0, Body::Failure(2)).call(0),
    );
    shelf.history(
        "input-ech-none",
        "11: ECH retry though none was sent; the attempt stays in progress",
        start(at(1)).call(0).tell(0, retry(0, &[1])).call(0).tell(0, Body::Success(0)).call(0),
    );
    for (tag, flags) in [("on", ECH | WAIT), ("off", WAIT)] {
        shelf.history(
            &format!("input-cancelled-ech-{tag}"),
            "any result for a cancelled attempt is accepted and ignored",
            raced(flags)
                .tell(0, Body::Success(3))
                .calls(0, 3)
                .tell(0, retry(2, &[9]))
                .tell(0, Body::Success(2))
                .tell(0, Body::Failure(2))
                .tell(0, Body::Failure(4))
                .calls(0, 3),
        );
    }
}

fn retries(shelf: &mut Shelf) {
    let raced = |count: usize| {
        start(Configuration { attempt: 1000, ..only_v4() })
            .calls(0, 2)
            .tell(0, https(0, vec![with_ech(service(1, "a.b", 7), &[5])]))
            .tell(0, a(1, &[1, 2]))
            .calls(0, count)
    };
    shelf.history(
        "retry-other",
        "an ECH retry leaves at once, past the delay, to the same endpoint with the new bytes",
        raced(2).tell(10, retry(2, &[6, 7])).calls(10, 2),
    );
    shelf.history(
        "retry-same",
        "a retry with the bytes attempted is no retry",
        raced(1).tell(10, retry(2, &[5])).calls(10, 2),
    );
    shelf.history(
        "retry-empty",
        "a retry with no bytes is a retry",
        raced(1).tell(10, retry(2, &[])).calls(10, 2),
    );
    shelf.history(
        "retry-of-retry",
        "an ECH retry of a retry only marks it failed",
        raced(1)
            .tell(10, retry(2, &[6]))
            .call(10)
            .tell(20, retry(3, &[7]))
            .calls(20, 2)
            .tell(20, Body::Failure(3)),
    );
    shelf.history(
        "retry-order",
        "retries leave in order of arrival, not of attempts",
        raced(1)
            .call(1000)
            .call(2000)
            .tell(2000, retry(3, &[6]))
            .tell(2000, retry(2, &[7]))
            .calls(2000, 4),
    );
    shelf.history(
        "retry-all",
        "every attempt is retried before the next endpoint leaves",
        raced(1)
            .call(1000)
            .tell(1001, retry(2, &[8]))
            .tell(1001, retry(3, &[9]))
            .calls(1001, 3)
            .tell(1002, Body::Failure(4))
            .tell(1002, Body::Failure(5))
            .calls(1002, 4),
    );
    shelf.history(
        "retry-listed",
        "a retry with the bytes of a listed endpoint is the attempt of it",
        start(Configuration { attempt: 0, ..only_v4() })
            .calls(0, 2)
            .tell(
                0,
                https(
                    0,
                    vec![
                        with_ech(service(1, "a.b", 6), &[5]),
                        with_ech(service(2, "a.b", 6), &[6]),
                    ],
                ),
            )
            .tell(0, a(1, &[1]))
            .call(0)
            .tell(0, retry(2, &[6]))
            .calls(0, 2)
            .tell(0, Body::Failure(3))
            .calls(0, 2),
    );
    shelf.history(
        "retry-after-success",
        "after a success no retry leaves",
        raced(1).call(1000).tell(1000, retry(2, &[9])).tell(1000, Body::Success(3)).calls(1000, 3),
    );
}

fn refreshes(shelf: &mut Shelf) {
    shelf.history(
        "refresh-all",
        "every stale answer is refreshed once, in record order, failed ones too",
        start(named())
            .calls(0, 3)
            .tell(0, flagged(a(2, &[]), 3))
            .tell(0, stale(https(0, vec![])))
            .tell(0, stale(aaaa(1, &[1])))
            .calls(0, 5)
            .tell(1, https(4, vec![]))
            .tell(1, a(6, &[2]))
            .tell(1, aaaa(5, &[3]))
            .calls(300 * MS, 3),
    );
    shelf.history(
        "refresh-moment",
        "a refresh replaces the moment too: the resolution wait starts again",
        start(named())
            .calls(0, 3)
            .tell(0, stale(a(2, &[1])))
            .calls(0, 2)
            .tell(40 * MS, a(3, &[2]))
            .call(40 * MS)
            .call(89 * MS)
            .call(90 * MS),
    );
    shelf.history(
        "refresh-complete",
        "a refresh in flight leaves its record complete",
        start(only_v4())
            .calls(0, 2)
            .tell(0, https(0, vec![]))
            .tell(0, stale(a(1, &[1])))
            .calls(0, 3),
    );
    shelf.history(
        "refresh-https",
        "an HTTPS answer replaced: new targets, new endpoints, what was attempted stays",
        start(Configuration { attempt: 0, ..only_v4() })
            .calls(0, 2)
            .tell(0, stale(https(0, vec![with_ech(service(1, "a.b", 6), &[1])])))
            .tell(0, a(1, &[1]))
            .calls(0, 2)
            .tell(
                0,
                https(
                    3,
                    vec![
                        with_ech(service(1, "c.d", 6), &[2]),
                        with_ech(service(2, "a.b", 6), &[1]),
                    ],
                ),
            )
            .calls(0, 2)
            .tell(0, a(4, &[9]))
            .calls(0, 3)
            .tell(0, retry(2, &[3]))
            .calls(0, 2),
    );
    shelf.history(
        "refresh-takes-away",
        "a refresh that takes the last address away shuts the gate",
        start(Configuration {
            attempt: 0,
            alternatives: vec![alternative(Host::V4(v4(8)), 1), alternative(Host::V4(v4(9)), 0)],
            ..only_v4()
        })
        .calls(0, 2)
        .tell(0, https(0, vec![]))
        .tell(0, stale(a(1, &[1])))
        .call(0)
        .tell(0, Body::Failure(2))
        .call(0)
        .tell(0, Body::Failure(3))
        .calls(0, 3),
    );
    shelf.history(
        "refresh-by-name",
        "in NameWithHttpsRr the HTTPS record is refreshed",
        start(Configuration { mode: 2, attempt: 0, ..named() })
            .call(0)
            .tell(0, stale(https(0, vec![service(1, "c.d.", 6)])))
            .calls(0, 4)
            .tell(0, https(3, vec![service(1, "e.f", 7)]))
            .calls(0, 4),
    );
}

fn modes(shelf: &mut Shelf) {
    let alternatives = || {
        vec![
            alternative(name("c.d."), 0),
            alternative(Host::None, 1),
            alternative(Host::V4(v4(5)), 0),
            alternative(Host::V6(v6(5)), 2),
        ]
    };
    for mode in 0..3 {
        for (tag, host) in
            [("name", name("a.b.")), ("v4", Host::V4(v4(1))), ("v6", Host::V6(v6(1)))]
        {
            for (family, preference) in [("v6", 0), ("only-v4", 3)] {
                shelf.history(
                    &format!("mode-{mode}-{tag}-{family}"),
                    "each mode with each kind of origin",
                    start(Configuration {
                        mode,
                        preference,
                        attempt: 0,
                        alternatives: alternatives(),
                        ..Configuration::new(host.clone(), 8443)
                    })
                    .calls(0, 3)
                    .tell(0, https(0, vec![service(2, "a.b.", 6), service(1, "e.f.", 1)]))
                    .tell(0, aaaa(1, &[1]))
                    .tell(0, a(2, &[2]))
                    .calls(0, 12),
                );
            }
        }
    }
    shelf.history(
        "mode-2-failed",
        "NameWithHttpsRr falls back to the origin's name when HTTPS fails",
        start(Configuration { mode: 2, ..Configuration::named("a.b.") })
            .calls(0, 2)
            .tell(0, failed(https(0, vec![])))
            .calls(0, 2),
    );
    shelf.history(
        "mode-2-ech",
        "NameWithHttpsRr carries ECH, and its retry keeps the name",
        start(Configuration { mode: 2, ..named() })
            .call(0)
            .tell(0, https(0, vec![with_ech(service(1, "c.d.", 7), &[1, 2, 3])]))
            .call(0)
            .tell(0, retry(1, &[4]))
            .calls(0, 2),
    );
}

/// Enough distinct targets and hosts for 16 records and one more.
fn many_names() -> History {
    let alternatives = ["s.t", "u.v", "w.x", "y.z"];
    start(Configuration {
        alternatives: alternatives.iter().map(|host| alternative(name(host), 1)).collect(),
        ..named()
    })
    .call(0)
    .tell(
        0,
        stale(https(
            0,
            ["c.d", "e.f", "g.h", "i.j"].iter().map(|target| service(1, target, 6)).collect(),
        )),
    )
    .calls(0, 17)
}

/// 32 attempts of an origin with 16 addresses over the origin and two alternatives.
fn many_attempts(attempt: u64) -> History {
    start(Configuration {
        attempt,
        alternatives: vec![alternative(Host::None, 0), alternative(Host::None, 1)],
        ..named()
    })
    .calls(0, 3)
    .tell(0, stale(https(0, vec![])))
    .tell(0, aaaa(1, &[1, 2, 3, 4, 5, 6, 7, 8]))
    .tell(0, a(2, &[1, 2, 3, 4, 5, 6, 7, 8]))
}

fn deep(shelf: &mut Shelf) {
    shelf.history(
        "deep-records",
        "16 records, then Full for a query; it hides the refresh, and attempts still leave",
        many_names()
            .call(0)
            .tell(0, aaaa(1, &[1]))
            .calls(0, 3)
            .tell(0, Body::Failure(16))
            .calls(0, 2)
            .tell(0, Body::Raw(vec![]))
            .call(100 * MS),
    );
    shelf.history(
        "deep-attempts",
        "32 attempts, then Full for an attempt; it hides the refresh",
        many_attempts(0).calls(0, 33).tell(0, Body::Failure(3)).calls(0, 2),
    );
    let mut history = many_attempts(7);
    for n in 0..33 {
        history = history.call(7 * n).call(7 * n);
    }
    shelf.history("deep-attempts-timed", "32 attempts, a timer before each", history);
    let mut history = many_attempts(0).calls(0, 33).tell(0, Body::Success(20));
    for id in [3, 19, 34] {
        history = history.tell(0, Body::Failure(id));
    }
    history = history.calls(0, 30);
    for id in [5, 21, 33] {
        history = history.tell(0, Body::Success(id));
    }
    shelf.history(
        "deep-cancels",
        "31 losers, 28 of them cancelled, late results after",
        history.calls(0, 2),
    );
    shelf.history(
        "deep-all-cancelled",
        "31 cancels after one success",
        many_attempts(0).calls(0, 33).tell(0, Body::Success(34)).calls(0, 33),
    );
    let services = vec![with_ech(service(1, "a.b", 7), &[1])];
    let mut history = start(Configuration { attempt: 0, ..named() })
        .calls(0, 3)
        .tell(0, https(0, services))
        .tell(0, aaaa(1, &[1, 2, 3, 4, 5, 6, 7, 8]))
        .tell(0, a(2, &[1, 2, 3, 4]))
        .calls(0, 24);
    for id in (3..27).rev() {
        history = history.tell(0, retry(id, &[id as u8]));
    }
    shelf.history(
        "deep-retries",
        "24 retries at once: 8 leave, the ninth is Full",
        history.calls(0, 10).tell(0, Body::Success(27)).calls(0, 9),
    );
    let mut history = many_names();
    for (record, kind) in (1..16).zip([1, 2].into_iter().cycle()) {
        let body = match kind {
            1 => stale(aaaa(record, &[])),
            _ => stale(a(record, &[])),
        };
        history = history.tell(0, body);
    }
    shelf.history(
        "deep-stale-records",
        "16 records, all stale, no room for the 17th",
        history.calls(0, 4),
    );
    let mut history = start(named())
        .calls(0, 3)
        .tell(0, stale(https(0, ["c.d", "e.f", "g.h"].iter().map(|t| service(1, t, 6)).collect())))
        .calls(0, 6);
    for record in 1..9 {
        history = history.tell(
            0,
            match record % 2 {
                1 => stale(aaaa(record, &[record as u8])),
                _ => stale(a(record, &[record as u8])),
            },
        );
    }
    history = history.calls(0, 11);
    for (refresh, record) in (10..19).zip(0..9) {
        let body = match (record, record % 2) {
            (0, _) => https(refresh, vec![service(1, "c.d", 1), service(1, "k.l", 6)]),
            (_, 1) => aaaa(refresh, &[100 + record as u8]),
            _ => a(refresh, &[100 + record as u8]),
        };
        history = history.tell(5 * MS, body);
    }
    shelf.history(
        "deep-refreshes",
        "nine records refreshed, the HTTPS answer replaced",
        history.calls(300 * MS, 6),
    );
    shelf.history(
        "deep-asks",
        "94 asks: 16 records, 15 refreshes, 32 attempts, 31 cancels",
        most_asks(),
    );
}

/// 15 records, all refreshed; the HTTPS answer that a refresh brings has a new target, whose first
/// record is the sixteenth; then 32 attempts, before the Full that hides everything else.
pub fn most_asks() -> History {
    let targets = |names: &[&str]| names.iter().map(|name| service(1, name, 7)).collect();
    let mut history = start(Configuration {
        attempt: 0,
        alternatives: ["s.t", "u.v", "w.x"].iter().map(|host| alternative(name(host), 1)).collect(),
        ..named()
    })
    .call(0)
    .tell(0, stale(https(0, targets(&["c.d", "e.f", "g.h"]))))
    .calls(0, 14);
    for record in 1..15 {
        let body = match record % 2 {
            1 => stale(aaaa(record, &[])),
            _ => stale(a(record, &[])),
        };
        history = history.tell(0, body);
    }
    history =
        history.calls(0, 15).tell(0, https(15, targets(&["c.d", "e.f", "g.h", "k.l"]))).calls(0, 2);
    for (refresh, record) in (16..30).zip(1..15) {
        let items = [1, 2, 3, 4, 5, 6, 7, 8].map(|n| n + 10 * record as u8);
        let body = match record % 2 {
            1 => aaaa(refresh, &items),
            _ => a(refresh, &items),
        };
        history = history.tell(0, body);
    }
    history.calls(0, 33).tell(0, Body::Success(41)).calls(0, 33)
}

/// After its last input: 12 queries, 3 refreshes, 32 attempts, a timer behind each, one more timer.
pub fn longest_quiet() -> History {
    let all = &[1, 2, 3, 4, 5, 6, 7, 8];
    let targets = ["c.d", "e.f", "g.h", "i.j"];
    start(Configuration {
        resolution: 1_000_000,
        attempt: 1000,
        alternatives: vec![
            alternative(Host::None, 0),
            alternative(name("s.t"), 1),
            alternative(name("u.v"), 1),
        ],
        ..named()
    })
    .calls(0, 3)
    .tell(0, stale(aaaa(1, all)))
    .tell(0, stale(a(2, all)))
    .tell(0, stale(https(0, targets.iter().map(|t| service(1, t, 6)).collect())))
}

/// Bodies at and over each limit, and with each fault.
fn bodies(shelf: &mut Shelf) {
    let asked = || start(named()).calls(0, 3);
    let raw = |history: History, hex: &str| history.tell(0, Body::Raw(unhex(hex)));
    let mut history = asked();
    for hex in [
        "",
        "00",
        "08",
        "8000",
        "80",
        "87 01",
        "0700",
        "07 07",
        "FFFFFFFFFFFFFFFFFF02",
        "FFFFFFFFFFFFFFFFFF01",
    ] {
        history = raw(history, hex);
    }
    shelf.history(
        "body-kinds",
        "kinds out of range, in longer forms, a call with more bytes",
        history.call(0),
    );
    let mut history = asked();
    for hex in [
        "02",
        "02 02",
        "02 02 04",
        "02 02 00",
        "02 02 00 09",
        "02 02 00 01 C00002",
        "02 02 02 00",
        "02 8200 00 00",
        "02 02 8000",
        "02 02 00 8100",
        "02 02 00 01 C0000201 00",
        "02 63 04",
        "02 63 00 00 00",
        "02 00 00 00 00",
    ] {
        history = raw(history, hex);
    }
    shelf.history("body-a", "each fault of an A answer, fields before ids", history.call(0));
    let address = "20010DB8000000000000000000000001";
    let mut history = asked();
    for scope in ["", "80", "8000", "FFFFFFFF0F", "8080808010", "00 00", "00"] {
        history = raw(history, &format!("01 01 00 01 {address} {scope}"));
    }
    shelf.history(
        "body-aaaa",
        "each fault of an AAAA answer, scopes at and over their limit",
        history.call(0),
    );
    let service_hex = |fields: &str| format!("03 00 00 01 {fields}");
    let mut history = asked();
    for fields in [
        "",
        "80 80 04",
        "FF FF 03",
        "00 00",
        "00 FE 01",
        "00 03 61 2E",
        "00 03 61 2E 31",
        "00 03 2E 61 62",
        "00 02 2E 2E",
        "00 01 2E",
        "00 03 61 20 62",
        "00 01 61 08",
        "00 01 61 07",
        "00 01 61 07 81 80 04",
        "00 01 61 07 80 80 04",
        "00 01 61 07 00 82 04",
        "00 01 61 07 00 03 AA",
        "00 01 61 07 00 00 05",
        "00 01 61 07 00 00 00 05",
        "00 01 61 07 00 00 01 C0 00 02",
        "00 01 61 07 00 00 00 01 20",
        "00 01 61 07 00 00 00 00 00",
    ] {
        history = raw(history, &service_hex(fields));
    }
    let history = raw(history, "03 00 00 05");
    shelf.history(
        "body-https",
        "each fault of an HTTPS answer, in the order of its fields",
        history.call(0),
    );
    let long = |length: usize| {
        let mut labels = vec![b'n'; length];
        for dot in (63..length).step_by(64) {
            labels[dot] = b'.';
        }
        labels
    };
    for (tag, length) in [("253", 253), ("254", 254)] {
        let mut target = service(1, "a.b", 6);
        target.name = long(length);
        shelf.history(
            &format!("body-name-{tag}"),
            "a target's name at and over 253 bytes",
            asked().tell(0, https(0, vec![target])).calls(0, 2),
        );
    }
    for (tag, label) in [("63", 63), ("64", 64)] {
        let mut target = service(1, "a.b", 6);
        target.name = [&vec![b'x'; label][..], b".y"].concat();
        shelf.history(
            &format!("body-label-{tag}"),
            "a label at and over 63 bytes",
            asked().tell(0, https(0, vec![target])).calls(0, 2),
        );
    }
    for (tag, length) in [("512", 512), ("513", 513)] {
        shelf.history(
            &format!("body-ech-{tag}"),
            "ECH at and over 512 bytes",
            asked()
                .tell(
                    0,
                    https(
                        0,
                        vec![with_hints(
                            with_ech(service(1, "a.b", 6), &vec![7; length]),
                            &[],
                            &[1],
                        )],
                    ),
                )
                .call(0)
                .tell(0, retry(3, &vec![8; length]))
                .call(0),
        );
    }
    for (tag, count) in [("at", 8), ("over", 9)] {
        let many: Vec<u8> = (1..=count).collect();
        shelf.history(
            &format!("body-addresses-{tag}"),
            "addresses at and over 8",
            asked().tell(0, aaaa(1, &many)).tell(0, a(2, &many)).calls(60 * MS, 2),
        );
    }
    for (tag, count) in [("at", 4), ("over", 5)] {
        let many: Vec<u8> = (1..=count).collect();
        let count = count.into();
        shelf.history(
            &format!("body-services-{tag}"),
            "services at and over 4",
            asked().tell(0, https(0, vec![service(1, "c.d", 6); count])).calls(0, 3),
        );
        for (family, hinted) in [
            ("v4", with_hints(service(1, "c.d", 6), &many, &[])),
            ("v6", with_hints(service(1, "c.d", 6), &[], &many)),
        ] {
            shelf.history(
                &format!("body-hints-{family}-{tag}"),
                "hints at and over 4",
                asked().tell(0, https(0, vec![hinted])).calls(0, 3),
            );
        }
    }
    let mut history = start(at(1)).call(0);
    for hex in [
        "04",
        "04 00 00",
        "05",
        "05 8000",
        "06",
        "06 00",
        "06 00 02 01",
        "06 00 00 00",
        "06 00 81 04",
        "06 00 80 04",
        "06 00 01 01",
    ] {
        history = raw(history, hex);
    }
    shelf.history(
        "body-results",
        "each fault of a result",
        history.tell(0, Body::Failure(0)).call(0),
    );
}

fn configurations(shelf: &mut Shelf) {
    let mut put = |name: &str, configuration: Configuration| {
        let shows = "a configuration refused, or at its limits";
        shelf.history(&format!("configuration-{name}"), shows, start(configuration).call(0));
    };
    put("port-65535", Configuration { port: 65_535, ..named() });
    put("port-65536", Configuration { port: 65_536, ..named() });
    put("host-none", Configuration { host: Host::None, ..named() });
    put("versions-8", Configuration { versions: 8, ..named() });
    put("preference-4", Configuration { preference: 4, ..named() });
    put("multiplier-0", Configuration { multiplier: 0, ..named() });
    put("multiplier-over", Configuration { multiplier: 1 << 32, ..named() });
    put("flags-4", Configuration { flags: 4, ..named() });
    put("mode-3", Configuration { mode: 3, ..named() });
    put("delays-largest", Configuration { resolution: u64::MAX, attempt: u64::MAX, ..named() });
    put(
        "alternatives-4",
        Configuration { alternatives: vec![alternative(Host::None, 1); 4], ..named() },
    );
    put(
        "alternatives-5",
        Configuration { alternatives: vec![alternative(Host::None, 1); 5], ..named() },
    );
    put(
        "alternative-version-3",
        Configuration { alternatives: vec![alternative(Host::None, 3)], ..named() },
    );
    let port = |port| Alternative { host: Host::None, port: Some(port), version: 1 };
    put(
        "alternative-port-65535",
        Configuration { alternatives: vec![port(65_535)], mode: 1, ..named() },
    );
    put("alternative-port-65536", Configuration { alternatives: vec![port(65_536)], ..named() });
    for (tag, text) in [
        ("empty", ""),
        ("dot", "."),
        ("dots", "a..b"),
        ("two-dots", "a.."),
        ("first-dot", ".a"),
        ("digits", "a.1"),
        ("digits-dot", "a.12."),
        ("digits-first", "1.a"),
        ("space", "a b"),
        ("underscore", "_-.a_-"),
    ] {
        put(&format!("name-{tag}"), Configuration::named(text));
    }
    let long = |length: usize| {
        let mut bytes = vec![b'o'; length];
        for dot in [63, 127, 191] {
            bytes[dot] = b'.';
        }
        Host::Name(bytes)
    };
    put("name-239", Configuration { host: long(239), port: 65_535, ..named() });
    put("name-240", Configuration { host: long(240), ..named() });
    let body = named().body();
    let framed = |body: &[u8]| {
        let mut tape = Vec::new();
        number(&mut tape, body.len() as u64);
        tape.extend_from_slice(body);
        frame(&mut tape, 0, &[7]);
        tape
    };
    let mut longer = body.clone();
    longer.push(0);
    let shows = "a configuration refused, or at its limits";
    shelf.put("configuration-trailing", shows, framed(&longer));
    shelf.put("configuration-cut", shows, framed(&body[..body.len() - 1]));
    shelf.put("configuration-name-cut", shows, framed(&body[..6]));
    shelf.put("configuration-empty", shows, framed(&[]));
    let mut long_form = body.clone();
    let last = long_form.pop().unwrap();
    long_form.extend([last + 128, 0]);
    shelf.put("configuration-long-form", shows, framed(&long_form));
    let mut alternative_host = named();
    alternative_host.alternatives = vec![alternative(Host::None, 1)];
    let mut bytes = alternative_host.body();
    // The alternative's host kind stands behind port, host (5), versions, preference and count.
    bytes[10] = 4;
    shelf.put("configuration-alternative-host-4", shows, framed(&bytes));
}

fn framing(shelf: &mut Shelf) {
    let example = unhex(EXAMPLE);
    let shows = "a framing fault: where replay stops";
    for cut in [1, 21, 22, 23, 24, 28, 30, 31, 34] {
        shelf.put(&format!("frame-cut-{cut}"), shows, example[..cut].to_vec());
    }
    let mut put = |name: &str, tail: &[u8]| {
        shelf.put(&format!("frame-{name}"), shows, [&example[..25], tail].concat());
    };
    put("moment-long-form", &[0x80, 0x00, 1, 7]);
    put("moment-ten-bytes", &[255, 255, 255, 255, 255, 255, 255, 255, 255, 1, 1, 7]);
    put("moment-over", &[255, 255, 255, 255, 255, 255, 255, 255, 255, 2, 1, 7]);
    put("moment-tenth-goes-on", &[255, 255, 255, 255, 255, 255, 255, 255, 255, 129]);
    put("moment-tenth-zero", &[128, 128, 128, 128, 128, 128, 128, 128, 128, 0, 1, 7]);
    put("moment-nine-bytes", &[255; 9]);
    put("length-long-form", &[0, 0x81, 0x00, 7]);
    put("length-4097", &[0, 0x81, 0x20]);
    put("length-4096-cut", &[0, 0x80, 0x20, 7]);
    put("length-0", &[0, 0, 0, 1, 7]);
    put("body-ends-early", &[0, 2, 2, 0, 0, 1, 7]);
    let mut whole = vec![0, 0x80, 0x20];
    whole.extend([6, 0, 0]);
    whole.resize(3 + 4096, 9);
    whole.extend([0, 1, 7]);
    put("length-4096", &whole);
    // A body's fault before a framing fault: tape check gives the first.
    put("check-body-first", &[0, 1, 9, 0x80, 0x00]);
    put("check-call-trailing", &[0, 2, 7, 7, 0, 1, 7]);
    let mut tape = vec![0x81, 0x20];
    tape.resize(5000, 0);
    tape.truncate(40);
    shelf.put("frame-configuration-4097", shows, tape);
    shelf.put("frame-configuration-cut", shows, example[..10].to_vec());
    shelf.put("frame-configuration-long-form", shows, [&[0x95, 0x00], &example[1..]].concat());
    shelf.put("frame-configuration-alone", shows, example[..22].to_vec());
}
