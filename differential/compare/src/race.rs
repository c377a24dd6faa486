//! The example tape: one whole race, at moments that a shell would see. The origin has a service with ECH and hints; IPv6 is
//! broken on the way, and the server has changed its ECH keys since the HTTPS record was cached.

use crate::write::{Body, Configuration, History, Service, V4, V6};

/// Moments are nanoseconds from the making.
const US: u64 = 1_000;
const MS: u64 = 1_000_000;

const ORIGIN: &str = "www.example.org";

const OVER_V4: [V4; 2] = [[192, 0, 2, 80], [192, 0, 2, 81]];
const OVER_V6: V6 = [0x20, 0x01, 0x0d, 0xb8, 0, 0x50, 0, 0, 0, 0, 0, 0, 0, 0, 0, 0x80];

/// The ids that the machine hands out, in its order.
const HTTPS: u64 = 0;
const AAAA: u64 = 1;
const A: u64 = 2;
const RETRIED: u64 = 4;
const WINNER: u64 = 5;

pub fn history() -> History {
    let looked_up = 9 * MS + 412 * US;
    let offered = 23 * MS + 87 * US;
    let second = offered + 250 * MS;
    let refused = second + 31 * MS + 640 * US;
    let won = refused + 64 * MS + 905 * US;
    History::new(Configuration::named(ORIGIN))
        // Three queries leave, then there is nothing to do.
        .calls(0, 4)
        // A is there first: of the resolution delay of 50 ms something is left.
        .tell(looked_up, Body::A { id: A, flags: 0, items: OVER_V4.to_vec() })
        .call(looked_up + 35 * US)
        // HTTPS brings hints of both families, so the first attempt leaves before AAAA is answered: over IPv6.
        .tell(offered, Body::Https { id: HTTPS, flags: 0, items: vec![service()] })
        .calls(offered, 2)
        .tell(offered + 4 * MS, Body::Aaaa { id: AAAA, flags: 0, items: vec![(OVER_V6, 0)] })
        .call(offered + 4 * MS)
        // Nothing is heard of it: when the timer of 250 ms ends, an attempt over IPv4 leaves too.
        .calls(second, 2)
        // The server no longer has the key and sends another: the retry waits for no delay.
        .tell(refused, Body::Retry { id: RETRIED, ech: ech(0x5e) })
        .calls(refused, 2)
        // The retry wins, and the attempt over IPv6 is cancelled.
        .tell(won, Body::Success(WINNER))
        .calls(won, 2)
}

/// HTTP/3 and HTTP/2 at the origin's own name and port, with ECH and a hint for each family.
fn service() -> Service {
    Service {
        ech: Some(ech(0x1f)),
        v4: OVER_V4[..1].to_vec(),
        v6: vec![OVER_V6],
        ..Service::new(1, ORIGIN, 0b011)
    }
}

/// An ECHConfigList of one entry, in the form that servers publish; its key is no real one.
fn ech(config_id: u8) -> Vec<u8> {
    let public_name = b"example.org";
    let mut contents = vec![config_id, 0x00, 0x20, 0x00, 32];
    contents.extend([config_id; 32]);
    contents.extend([0x00, 0x04, 0x00, 0x01, 0x00, 0x01, 0, public_name.len() as u8]);
    contents.extend(public_name);
    contents.extend([0x00, 0x00]);
    let entry = [&[0xfe, 0x0d, 0x00, contents.len() as u8][..], &contents].concat();
    [&[0x00, entry.len() as u8][..], &entry].concat()
}
