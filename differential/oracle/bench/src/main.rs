//! Times the proved code against the original, whole races and the listing: see differential/README.md.

mod long;
mod proved;
mod races;
mod states;

use compare::play::ask;
use compare::read::{answer, Answer, Reader};
use happy_eyeballs::{Endpoint, EndpointTarget, HappyEyeballs};
use judge::adapter::Oracle;
use listing::{in_bytes, list_rounds, list_state, MOST};
use model::flat::{Flat, PLACES, QUERIES, QUERY};
use states::State;
use std::time::Instant;

/// Calls in which every query is asked for: at most 16, and an attempt among them.
const CALLS: usize = 20;
/// Each state comes up so many times, for so many batches of each side.
const TURNS: usize = 8;
const BATCHES: usize = 300;
/// How long a batch of the original's lasts.
const BATCH_NS: f64 = 200_000.0;

fn main() {
    races::run();
    println!();
    long::run();
    println!();
    listings();
}

fn listings() {
    assert!(listing::THERE, "no archive of the proved listing: `tests/native probes`");
    let mut races: Vec<Race> = states::all().iter().map(Race::at).collect();
    for _ in 0..TURNS {
        races.iter_mut().for_each(Race::run);
    }
    println!("{:44} {:>9} {:>8} {:>8} {:>6}", "state", "endpoints", "Rust ns", "ours ns", "ratio");
    races.iter().for_each(Race::print);
    println!(
        "ns for one listing, the origin's port another each time: the least of {} batches of {} us, the sides in turn.",
        TURNS * BATCHES,
        BATCH_NS / 1000.0
    );
    println!("The Rust's frees its listing; ours leaves out reading the flat state, which is timed apart and subtracted.");
}

/// A state on both sides, and the least times so far.
struct Race {
    name: &'static str,
    machine: HappyEyeballs,
    flat: Flat,
    endpoints: usize,
    rounds: usize,
    original: f64,
    ours: f64,
    /// Of reading the flat state alone.
    read: f64,
}

impl Race {
    /// Plays the state's history on both sides; stops unless the two listings agree.
    fn at(state: &State) -> Race {
        let body = state.configuration.body();
        let mut oracle = Oracle::new(&body).expect("inside the domain");
        let mut machine = model::Machine::new(&body).expect("a sound configuration");
        for _ in 0..CALLS {
            let said = ask(&mut oracle, 0, &[7]);
            assert_eq!(ask(&mut machine, 0, &[7]), said);
            if let Some(Answer::Query { id, kind, name, .. }) = answer(&mut Reader::new(&said)) {
                let body = state.answer(id, kind, &name).bytes();
                assert_eq!(ask(&mut oracle, 0, &body), [8, 0]);
                assert_eq!(ask(&mut machine, 0, &body), [8, 0]);
            }
        }
        let mut flat = model::flat(&machine, 0);
        first_places(&mut flat);
        let listed = list_state(&flat.numbers, &flat.names).expect("the archive");
        assert_eq!(in_bytes(&flat, &listed), oracle.listing(), "{}: they differ", state.name);
        let mut machine = oracle.into_machine();
        let (_, ns) = clocked(|| original_rounds(&mut machine, 100));
        Race {
            name: state.name,
            machine,
            flat,
            endpoints: listed.len(),
            rounds: (100.0 * BATCH_NS / ns) as usize + 1,
            original: f64::MAX,
            ours: f64::MAX,
            read: f64::MAX,
        }
    }

    fn run(&mut self) {
        let Race { name, machine, flat, rounds, .. } = self;
        let ours = |rounds| list_rounds(&flat.numbers, &flat.names, rounds).expect("the archive");
        for _ in 0..BATCHES {
            let (sum, ns) = clocked(|| original_rounds(machine, *rounds));
            self.original = self.original.min(ns);
            let (again, ns) = clocked(|| ours(*rounds));
            self.ours = self.ours.min(ns);
            assert_eq!(sum, again, "{name}: they differ at another port");
            let (_, ns) = clocked(|| ours(0));
            self.read = self.read.min(ns);
        }
    }

    fn print(&self) {
        let original = self.original / self.rounds as f64;
        let ours = (self.ours - self.read) / self.rounds as f64;
        let ratio = ours / original;
        println!("{:44} {:9} {original:8.0} {ours:8.0} {ratio:6.2}", self.name, self.endpoints);
    }
}

/// Puts each record's name at the first place that holds it: the origin's records are at 0 even
/// where a service has the origin's name. The choice sets how many names are compared by bytes.
fn first_places(flat: &mut Flat) {
    for i in 0..flat.numbers[QUERIES] as usize {
        let at = QUERIES + 1 + QUERY * i + 1;
        let name = flat.name(flat.numbers[at] as usize);
        let first = (0..PLACES).find(|place| flat.name(*place) == name);
        flat.numbers[at] = first.expect("its own place") as u64;
    }
}

/// What `list_rounds` does and sums, by the original.
fn original_rounds(machine: &mut HappyEyeballs, rounds: usize) -> u64 {
    let mut sum = 0;
    for left in (1..=rounds).rev() {
        let listed = machine.shown_listing_at(left as u16);
        sum += listed.len() as u64 + listed.get(left % MOST).map_or(0, port);
    }
    sum
}

fn port(endpoint: &Endpoint) -> u64 {
    match &endpoint.target {
        EndpointTarget::Address(address) => address.port().into(),
        EndpointTarget::Name { port, .. } => (*port).into(),
    }
}

fn clocked<T>(run: impl FnOnce() -> T) -> (T, f64) {
    let start = Instant::now();
    let value = run();
    (value, start.elapsed().as_nanos() as f64)
}
