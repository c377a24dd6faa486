//! `records`, over the entries of the crate `probes`: the host of a by-name endpoint, which names and which endpoints are the same.
//! Compared with document 01's rules on random names, ECH configurations and endpoints.

mod rng;
mod run;
mod tally;

use rng::Random;
use std::fmt::{Debug, Formatter};
use tally::Tally;

const NAMES: usize = 14;
const NAME: usize = 253;
const ECHS: usize = 40;
const ECH: usize = 512;
const ENDPOINT: usize = 7;
/// Places kept on each side of what is lent, to see a store outside of it.
const GUARD: usize = 16;

extern "C" {
    fn probe_connect_name(
        origin: *const u8,
        origin_len: usize,
        own: *const u8,
        own_len: usize,
        out: *mut u8,
        room: usize,
        words: *mut u64,
        count: usize,
    ) -> u8;
    fn probe_same_endpoint(
        list: *const u64,
        count: usize,
        names: *const u8,
        names_len: usize,
        echs: *const u8,
        echs_len: usize,
    ) -> u8;
    fn probe_same_names(lengths: *const u64, count: usize, names: *const u8, names_len: usize, words: *mut u64, room: usize);
    fn probe_same_class(lengths: *const u64, count: usize, names: *const u8, names_len: usize, p: u8, q: u8) -> u8;
}

/// Rooms of one size with the length of what each holds; a length above the room is cut at it.
struct Table {
    room: usize,
    lengths: Vec<u64>,
    bytes: Vec<u8>,
}

impl Table {
    /// Few bytes, so that much is equal; what lies past a length is as random as what lies before it.
    fn new(random: &mut Random, rooms: usize, room: usize, alphabet: &[u8]) -> Self {
        let mut table = Table { room, lengths: Vec::new(), bytes: Vec::new() };
        for _ in 0..rooms {
            let (full, over) = (room as u64, random.next());
            let lengths = [0, 1, 1, 1, 2, 2, 3, full - 1, full, full + 1, full.saturating_add(over)];
            table.lengths.push(lengths[random.below(lengths.len())]);
            // Long ones differ at most near their end.
            let start = table.bytes.len();
            table.bytes.extend(vec![alphabet[0]; room]);
            for at in (0..3).chain(room - 3..room) {
                table.bytes[start + at] = alphabet[random.below(alphabet.len())];
            }
        }
        table
    }

    /// What lies at a place; nothing outside the table.
    fn at(&self, place: u64) -> &[u8] {
        match self.lengths.get(place as usize) {
            Some(length) => &self.bytes[self.room * place as usize..][..(*length).min(self.room as u64) as usize],
            None => &[],
        }
    }
}

/// What each room holds.
impl Debug for Table {
    fn fmt(&self, f: &mut Formatter) -> std::fmt::Result {
        (0..self.lengths.len() as u64)
            .try_for_each(|p| write!(f, "\n    {p}: \"{}\" (length {:x})", self.at(p).escape_ascii(), self.lengths[p as usize]))
    }
}

fn names(random: &mut Random) -> Table {
    Table::new(random, NAMES, NAME, b"ab.")
}

fn undotted(name: &[u8]) -> &[u8] {
    name.strip_suffix(b".").unwrap_or(name)
}

/// Document 01: a service's or alternative's own name, or else the origin's, without one trailing dot.
fn host<'a>(origin: &'a [u8], own: &'a [u8]) -> &'a [u8] {
    [own, origin].into_iter().map(undotted).find(|name| !name.is_empty()).unwrap_or(&[])
}

fn connect(origin: &[u8], own: &[u8], out: &mut [u8], words: &mut [u64]) -> u8 {
    // Four slices, of which the last two overlap with none, each with its own length.
    unsafe {
        probe_connect_name(
            origin.as_ptr(),
            origin.len(),
            own.as_ptr(),
            own.len(),
            out.as_mut_ptr(),
            out.len(),
            words.as_mut_ptr(),
            words.len(),
        )
    }
}

/// Room and words lie inside larger ones, with random bytes in them before the call.
fn connect_names(random: &mut Random) -> Tally {
    let outcomes = &["its own", "its own without a dot", "the origin's", "none", "no room"];
    let mut t = Tally::new("hosts", outcomes);
    for _ in 0..200_000 {
        let table = names(random);
        let (origin, own) = (table.at(random.below(NAMES) as u64), table.at(random.below(NAMES) as u64));
        let found = host(origin, own);
        let room = [found.len(), NAME, found.len().saturating_sub(1), random.below(4)][random.below(4)];
        let mut out: Vec<u8> = (0..room + 2 * GUARD).map(|_| random.next() as u8).collect();
        let lent = random.below(3);
        let mut words: Vec<u64> = (0..lent + 2 * GUARD).map(|_| random.next()).collect();
        let (mut out_after, mut words_after) = (out.clone(), words.clone());
        let fits = found.len() <= room;
        if fits {
            out_after[GUARD..][..found.len()].copy_from_slice(found);
            words_after[GUARD..][..lent.min(1)].fill(found.len() as u64);
        }
        let number = connect(origin, own, &mut out[GUARD..GUARD + room], &mut words[GUARD..GUARD + lent]);
        let outcome = match found {
            _ if !fits => 4,
            [] => 3,
            _ if undotted(own).is_empty() => 2,
            _ => usize::from(found != own),
        };
        let input = format_args!("origin \"{}\", own \"{}\", room {room:x}", origin.escape_ascii(), own.escape_ascii());
        let rust = (if fits { 0 } else { 13 }, out_after, words_after);
        t.compare(input, (number, out, words), rust, outcome);
    }
    t
}

/// The first place with the same name; 14 for an empty one.
fn class(table: &Table, place: usize) -> u64 {
    let name = table.at(place as u64);
    match name {
        [] => NAMES as u64,
        _ => (0..).find(|p| table.at(*p) == name).unwrap(),
    }
}

/// The class of every place, counted by that of one.
fn classes(random: &mut Random) -> Tally {
    let mut t = Tally::new("classes", &["the first", "an earlier one", "empty", "fewer words"]);
    for _ in 0..100_000 {
        let table = names(random);
        let room = [NAMES, NAMES, NAMES + 1, random.below(NAMES)][random.below(4)];
        let mut words: Vec<u64> = (0..room + 2 * GUARD).map(|_| random.next()).collect();
        let mut rust = words.clone();
        for place in 0..room.min(NAMES) {
            rust[GUARD + place] = class(&table, place);
        }
        // Three slices that don't overlap, each with its own length.
        unsafe {
            let words = &mut words[GUARD..GUARD + room];
            let (lengths, bytes) = (&table.lengths, &table.bytes);
            probe_same_names(lengths.as_ptr(), lengths.len(), bytes.as_ptr(), bytes.len(), words.as_mut_ptr(), words.len());
        }
        let place = random.below(NAMES);
        let outcome = match class(&table, place) {
            _ if room < NAMES => 3,
            14 => 2,
            class => usize::from(class != place as u64),
        };
        t.compare(format_args!("{table:?}"), words, rust, outcome);
    }
    t
}

/// Any place of a table, and some outside it.
fn place(random: &mut Random, rooms: usize) -> u64 {
    [random.below(rooms), random.below(rooms), random.below(rooms), rooms, rooms + 1, 255][random.below(6)] as u64
}

fn same_classes(random: &mut Random) -> Tally {
    let outcomes = &["different", "the same, twice one place", "the same at two places", "both empty", "both outside"];
    let mut t = Tally::new("same names", outcomes);
    for _ in 0..100_000 {
        let table = names(random);
        let (p, q) = (place(random, NAMES), place(random, NAMES));
        let (a, b) = (table.at(p), table.at(q));
        let outcome = match (a, b) {
            _ if p.min(q) >= NAMES as u64 => 4,
            ([], []) => 3,
            _ if a != b => 0,
            _ => 1 + usize::from(p != q),
        };
        // Two slices, each with its own length.
        let rattle = unsafe {
            let (lengths, bytes) = (&table.lengths, &table.bytes);
            probe_same_class(lengths.as_ptr(), lengths.len(), bytes.as_ptr(), bytes.len(), p as u8, q as u8)
        };
        t.compare(format_args!("places {p:x} and {q:x} of {table:?}"), rattle, u8::from(a == b), outcome);
    }
    t
}

/// An endpoint with its bytes, for document 01's "target, rank and ECH bytes".
#[derive(PartialEq)]
struct Shown<'a> {
    target: Target<'a>,
    port: u16,
    rank: u64,
    ech: Option<&'a [u8]>,
}

#[derive(PartialEq)]
enum Target<'a> {
    Four(u32),
    Six(u64, u64, u32),
    Host(&'a [u8]),
}

type Numbers = [u64; ENDPOINT];

/// A number outside its range is a remainder.
fn shown<'a>(names: &'a Table, echs: &'a Table, numbers: &Numbers) -> Shown<'a> {
    let [case, high, low, scope, port, rank, ech] = *numbers;
    let target = match case % 3 {
        0 => Target::Four(low as u32),
        1 => Target::Six(high, low, scope as u32),
        _ => Target::Host(host(names.at(0), names.at(low % 256))),
    };
    let ech = ech.checked_sub(1).map(|place| echs.at(place % 256));
    Shown { target, port: port as u16, rank: rank % 4, ech }
}

const OUTCOMES: [&str; 16] = [
    "the same IPv4",
    "the same IPv6",
    "the same name",
    "a name from two places",
    "a name but for its dot",
    "the origin's name",
    "ECH from two places",
    "another port",
    "another rank",
    "another case",
    "another IPv4",
    "another IPv6",
    "another name",
    "ECH and none",
    "ECH of length 0 and none",
    "another ECH",
];

/// What the answer rests on: the first difference, or else how they are the same.
fn outcome(names: &Table, a: &Numbers, b: &Numbers, x: &Shown, y: &Shown) -> usize {
    match (&x.target, &y.target) {
        _ if x.port != y.port => 7,
        _ if x.rank != y.rank => 8,
        (Target::Four(v), Target::Four(w)) if v != w => 10,
        (Target::Six(..), Target::Six(..)) if x.target != y.target => 11,
        (Target::Host(v), Target::Host(w)) if v != w => 12,
        (v, w) if v != w => 9,
        _ if x.ech != y.ech => match (x.ech, y.ech) {
            (None, Some([])) | (Some([]), None) => 14,
            (None, _) | (_, None) => 13,
            _ => 15,
        },
        _ if a[6] % 256 != b[6] % 256 => 6,
        (Target::Four(_), _) => 0,
        (Target::Six(..), _) => 1,
        _ => same_name(names, a[2], b[2]),
    }
}

fn same_name(names: &Table, p: u64, q: u64) -> usize {
    let (p, q) = (p % 256, q % 256);
    match (names.at(p), names.at(q)) {
        _ if p == q => 2,
        (v, w) if v == w => 3,
        (v, w) if undotted(v) == undotted(w) => 4,
        _ => 5,
    }
}

/// Now and then a number from anywhere.
fn any_or(random: &mut Random, n: u64) -> u64 {
    if random.once_in(64) {
        random.next()
    } else {
        n
    }
}

fn endpoint(random: &mut Random) -> Numbers {
    let ech = if random.once_in(2) { 0 } else { 1 + place(random, ECHS) };
    let case = random.below(3) as u64;
    let low = if case == 2 { place(random, NAMES) } else { random.below(2) as u64 };
    let few = |random: &mut Random| random.below(2) as u64;
    let numbers = [case, few(random), low, few(random), few(random), few(random), ech];
    numbers.map(|n| any_or(random, n))
}

/// One endpoint, and the same with some of its numbers taken from another.
fn pair(random: &mut Random) -> (Numbers, Numbers) {
    let (a, other) = (endpoint(random), endpoint(random));
    let mut b = a;
    for _ in 0..random.below(3) {
        let k = random.below(ENDPOINT);
        b[k] = other[k];
    }
    (a, b)
}

fn same_endpoints(random: &mut Random) -> Tally {
    let mut t = Tally::new("same endpoints", &OUTCOMES);
    for _ in 0..2_000 {
        let (names, echs) = (names(random), Table::new(random, ECHS, ECH, &[0, 1]));
        for _ in 0..50 {
            let (a, b) = pair(random);
            let list = [&a[..], &b, &names.lengths, &echs.lengths].concat();
            let (x, y) = (shown(&names, &echs, &a), shown(&names, &echs, &b));
            // Three slices, each with its own length.
            let rattle = unsafe {
                let (n, e) = (&names.bytes, &echs.bytes);
                probe_same_endpoint(list.as_ptr(), list.len(), n.as_ptr(), n.len(), e.as_ptr(), e.len())
            };
            let input = format_args!("{a:x?} and {b:x?}\n  names: {names:?}\n  ECH: {echs:?}");
            t.compare(input, rattle, u8::from(x == y), outcome(&names, &a, &b, &x, &y));
        }
    }
    t
}

fn main() {
    let compare = |random: &mut Random| tally::run("records", &[connect_names, classes, same_classes, same_endpoints], random);
    run::run(compare, |_| println!("records: nothing here is timed"));
}
