//! How many histories, and how deep.

use crate::book::Depth;
use crate::play::{Shape, SHAPES};
use crate::read::{answer, Answer, Reader};
use crate::subject::Outcome;

#[derive(Default)]
pub struct Tally {
    pub histories: u64,
    pub events: u64,
    pub calls: u64,
    pub deep: u64,
    counts: [u64; ROWS.len()],
    shapes: [(u64, u64); SHAPES.len()],
    refused: [u64; 14],
    asks: u64,
}

type Row = (&'static str, fn(&Depth) -> bool);

const ROWS: [Row; 19] = [
    ("8 attempts or more", |d| d.attempts >= 8),
    ("16 attempts or more", |d| d.attempts >= 16),
    ("32 attempts", |d| d.attempts >= 32),
    ("8 records or more", |d| d.records >= 8),
    ("16 records", |d| d.records >= 16),
    ("Full for a query", |d| d.full[0] > 0),
    ("Full for an attempt", |d| d.full[1] > 0),
    ("both kinds of Full", |d| d.full[0] > 0 && d.full[1] > 0),
    ("an ECH retry", |d| d.retries > 0),
    ("4 ECH retries or more", |d| d.retries >= 4),
    ("a refresh", |d| d.refreshes > 0),
    ("4 refreshes or more", |d| d.refreshes >= 4),
    ("an HTTPS answer replaced", |d| d.replaced > 0),
    ("a cancel", |d| d.cancels > 0),
    ("8 cancels or more", |d| d.cancels >= 8),
    ("a late result of a cancelled attempt", |d| d.late > 0),
    ("a refused input", |d| d.refused.iter().any(|n| *n > 0)),
    ("a timer", |d| d.timers > 0),
    ("Succeeded or Failed", |d| d.ended),
];

impl Tally {
    pub fn add(&mut self, depth: &Depth, shape: Shape) {
        self.histories += 1;
        self.events += depth.events;
        self.calls += depth.calls;
        self.deep += u64::from(depth.is_deep());
        self.asks = self.asks.max(depth.asks());
        for (count, (_, is)) in self.counts.iter_mut().zip(ROWS) {
            *count += u64::from(is(depth));
        }
        let at = SHAPES.iter().position(|s| *s == shape).unwrap();
        self.shapes[at].0 += 1;
        self.shapes[at].1 += u64::from(depth.is_deep());
        for (sum, n) in self.refused.iter_mut().zip(depth.refused) {
            *sum += n;
        }
    }

    pub fn print(&self) {
        let share = |n: u64| 100.0 * n as f64 / self.histories.max(1) as f64;
        println!("{} histories, {} events, {} calls", self.histories, self.events, self.calls);
        println!("{:6.2} %  deep", share(self.deep));
        for (count, (name, _)) in self.counts.iter().zip(ROWS) {
            println!("{:6.2} %  {name}", share(*count));
        }
        let shapes = self.shapes.iter().zip(SHAPES);
        let shapes: Vec<String> = shapes
            .map(|((n, deep), s)| format!("{s:?} {n} ({} %)", 100 * deep / n.max(&1)))
            .collect();
        println!("by aim, and how many of them deep: {}", shapes.join(", "));
        let refused = self.refused.iter().enumerate().skip(1).take(12);
        let refused: Vec<String> = refused.map(|(i, n)| format!("{i}: {n}")).collect();
        println!("inputs refused, by number: {}", refused.join(", "));
        println!("most asks (queries, attempts, cancels) in one history: {}", self.asks);
    }
}

/// How often a program gave each refusal: as a status, as tape check's number, in an answer.
#[derive(Default)]
pub struct Refusals {
    given: [u64; 14],
}

impl Refusals {
    pub fn add(&mut self, outcome: &Outcome) {
        self.count(outcome.status);
        self.count(outcome.check);
        let mut reader = Reader::new(&outcome.answers);
        while let Some(answer) = answer(&mut reader) {
            if let Answer::Input(number) = answer {
                self.count(number);
            }
        }
    }

    fn count(&mut self, number: u64) {
        if let Some(count) = self.given.get_mut(number as usize) {
            *count += 1;
        }
    }

    pub fn print(&self) {
        let given: Vec<String> =
            self.given.iter().enumerate().skip(1).map(|(i, n)| format!("{i}: {n}")).collect();
        println!("refusals given by the program, by number: {}", given.join(", "));
    }
}
