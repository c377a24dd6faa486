//! The original, driven by the bytes of document 01 and answering in them, under its limits.

use crate::decode;
use compare::play::Referee;
use compare::write::number;
use happy_eyeballs::{
    ConnectionAttemptHttpVersions, ConnectionState, DnsRecordType, DnsResult, Endpoint,
    EndpointTarget, FailureReason, HappyEyeballs, Id, Input, Output,
};
use std::cell::Cell;
use std::net::SocketAddr;
use std::panic::{catch_unwind, AssertUnwindSafe};
use std::time::{Duration, Instant};

const QUERIES: usize = 16;
const ATTEMPTS: usize = 32;

/// How often an answer was set by document 01 against the original: docs/DIFFERENCES.md.
#[derive(Clone, Default)]
pub struct Exceptions {
    /// Failed with no query and no attempt: document 01 says DNS, the original connection.
    pub reason: u64,
    /// An attempt delay above 64 bits: document 01 holds it at 2^64-1.
    pub saturated: u64,
}

#[derive(Clone)]
pub struct Oracle {
    machine: HappyEyeballs,
    start: Instant,
    over: bool,
    /// Answers that the original gave itself.
    pub spoken: u64,
    /// Answers that only document 01's numbers and limits give: refusals and Full.
    pub silent: u64,
    /// What the original did instead of the last of these.
    pub note: Option<String>,
    pub exceptions: Exceptions,
}

/// What the original makes of a configuration.
pub enum Made {
    Machine(Box<Oracle>),
    Refused(u8),
    /// The URL parser doesn't give the origin's name back unchanged; what it gives.
    Outside(String),
}

impl Oracle {
    pub fn make(body: &[u8]) -> Made {
        let made = match decode::configuration(body) {
            Ok(made) => made,
            Err(refusal) => return Made::Refused(refusal),
        };
        let machine = HappyEyeballs::new_with_network_config(&made.host, made.port, made.network);
        let machine = match machine {
            Ok(machine) => machine,
            Err(error) => return Made::Outside(error.to_string()),
        };
        let name = made.is_name.then_some(made.host.as_str());
        if machine.shown_name() != name {
            return Made::Outside(format!("the origin is {:?}", machine.shown_name()));
        }
        Made::Machine(Box::new(Oracle {
            machine,
            start: base(),
            over: false,
            spoken: 0,
            silent: 0,
            note: None,
            exceptions: Exceptions::default(),
        }))
    }

    /// The machine of a sound configuration inside the domain.
    pub fn new(body: &[u8]) -> Option<Oracle> {
        match Oracle::make(body) {
            Made::Machine(oracle) => Some(*oracle),
            Made::Refused(_) | Made::Outside(_) => None,
        }
    }

    /// The endpoints to attempt, as bytes: rank, target, ECH.
    pub fn listing(&self) -> Vec<Vec<u8>> {
        let mut listing = Vec::new();
        for endpoint in self.machine.shown_listing() {
            let mut out = Vec::new();
            write_endpoint(&mut out, &endpoint);
            listing.push(out);
        }
        listing
    }

    pub fn into_machine(self) -> HappyEyeballs {
        self.machine
    }

    fn at(&self, moment: u64) -> Instant {
        self.start + Duration::from_nanos(moment)
    }

    /// Whether the answer's type isn't the one of the record that waits for it.
    fn is_wrong_type(&self, input: &Input) -> bool {
        let Input::DnsResult { id, result, .. } = input else {
            return false;
        };
        let answered = match result {
            DnsResult::Https(_) => DnsRecordType::Https,
            DnsResult::Aaaa(_) => DnsRecordType::Aaaa,
            DnsResult::A(_) => DnsRecordType::A,
        };
        self.machine.shown_queries().iter().any(|query| {
            let waits = query.refresh == Some(*id) || query.id == *id && !query.answered;
            waits && query.record_type != answered
        })
    }

    /// The answer by document 01 where it is kept against the original, else none.
    fn exception(&mut self, output: &Option<Output>) -> Option<Vec<u8>> {
        match output {
            Some(Output::Failed(FailureReason::Connection))
                if self.machine.shown_queries().is_empty()
                    && self.machine.shown_attempts().is_empty() =>
            {
                self.exceptions.reason += 1;
                self.note = Some(format!("says {output:?}"));
                Some(vec![6, 0])
            }
            Some(Output::Timer { duration }) => {
                let delay = self.machine.shown_delay().as_nanos();
                let most = u128::from(u64::MAX);
                if delay <= most || !self.has_running() {
                    return None;
                }
                let elapsed = delay - duration.as_nanos();
                self.exceptions.saturated += 1;
                self.note = Some(format!("gives a timer of {} ns", duration.as_nanos()));
                let mut out = vec![2];
                number(&mut out, most.saturating_sub(elapsed) as u64);
                Some(out)
            }
            _ => None,
        }
    }

    /// A delay above 64 bits is over by document 01 when every attempt in progress has the age
    /// 2^64-1, and never so early in the original: here the two part for good.
    fn parts(&self, now: Instant) -> bool {
        let most = Duration::from_nanos(u64::MAX);
        let attempts = self.machine.shown_attempts().iter();
        let mut running = attempts.filter(|a| a.state == ConnectionState::InProgress);
        self.has_running()
            && self.machine.shown_delay() > most
            && running.all(|a| now.duration_since(a.started) >= most)
    }

    fn has_running(&self) -> bool {
        let attempts = self.machine.shown_attempts();
        attempts.iter().any(|a| a.state == ConnectionState::InProgress)
    }
}

impl Referee for Oracle {
    /// The input is tried on a copy: a failed debug assertion is a refusal and leaves no trace.
    fn input(&mut self, moment: u64, body: &[u8]) -> u8 {
        let input = match decode::input(body) {
            Ok(input) => input,
            Err(refusal) => {
                self.silent += 1;
                self.note = Some("has no such body".into());
                return refusal;
            }
        };
        if self.is_wrong_type(&input) {
            self.silent += 1;
            self.note = Some("doesn't test the type".into());
            return 9;
        }
        let now = self.at(moment);
        let mut next = self.machine.clone();
        match quiet(|| next.process_input(input, now)) {
            Ok(()) => {
                self.machine = next;
                self.spoken += 1;
                0
            }
            Err(message) => {
                self.silent += 1;
                let number = refusal(&message);
                self.note = Some(format!("stops: {message}"));
                number
            }
        }
    }

    /// A call. With a table at its limit it is tried on a copy, and what needs one more is Full.
    fn output(&mut self, moment: u64) -> Vec<u8> {
        let now = self.at(moment);
        self.over |= self.parts(now);
        let queries = self.machine.shown_queries().len();
        let attempts = self.machine.shown_attempts().len();
        let output = if queries < QUERIES && attempts < ATTEMPTS {
            self.machine.process_output(now)
        } else {
            let mut next = self.machine.clone();
            let output = next.process_output(now);
            let full = match output {
                Some(Output::SendDnsQuery { allow_stale: true, .. }) if queries == QUERIES => {
                    Some(0)
                }
                Some(Output::AttemptConnection { .. }) if attempts == ATTEMPTS => Some(1),
                _ => None,
            };
            if let Some(kind) = full {
                self.silent += 1;
                self.note = Some("asks for one more".into());
                return vec![7, kind];
            }
            self.machine = next;
            output
        };
        if let Some(answer) = self.exception(&output) {
            self.silent += 1;
            return answer;
        }
        self.spoken += 1;
        let mut out = Vec::new();
        write_output(&mut out, output);
        out
    }

    fn over(&self) -> bool {
        self.over
    }
}

/// The number of document 01 for a failed debug assertion of the original.
fn refusal(message: &str) -> u8 {
    let known = [
        ("got a stale response for refresh query", 10),
        ("for unknown id", 7),
        ("for already completed", 8),
        ("attempt is in unexpected state", 12),
        ("but ECH is disabled", 11),
        ("but ECH was not sent", 11),
    ];
    match known.iter().find(|(words, _)| message.contains(words)) {
        Some((_, number)) => *number,
        None => panic!("the original stopped for another reason: {message}"),
    }
}

thread_local! {
    static QUIET: Cell<bool> = const { Cell::new(false) };
}

/// Keeps the expected panics of `quiet` off the screen.
pub fn install_hook() {
    let usual = std::panic::take_hook();
    std::panic::set_hook(Box::new(move |info| {
        if !QUIET.get() {
            usual(info);
        }
    }));
}

/// Runs it, and gives the message of a panic.
fn quiet(run: impl FnOnce()) -> Result<(), String> {
    QUIET.set(true);
    let result = catch_unwind(AssertUnwindSafe(run));
    QUIET.set(false);
    result.map_err(|payload| match payload.downcast::<String>() {
        Ok(message) => *message,
        Err(payload) => {
            payload.downcast::<&str>().map_or_else(|_| String::new(), |message| message.to_string())
        }
    })
}

thread_local! {
    static BASE: Instant = Instant::now();
}

/// Moment 0.
fn base() -> Instant {
    BASE.with(|base| *base)
}

fn write_id(out: &mut Vec<u8>, id: Id) {
    number(out, id.into());
}

fn write_output(out: &mut Vec<u8>, output: Option<Output>) {
    match output {
        None => out.push(0),
        Some(Output::SendDnsQuery { id, hostname, record_type, allow_stale }) => {
            out.push(1);
            write_id(out, id);
            out.push(match record_type {
                DnsRecordType::Https => 0,
                DnsRecordType::Aaaa => 1,
                DnsRecordType::A => 2,
            });
            out.push(u8::from(allow_stale));
            write_text(out, String::from(hostname).as_bytes());
        }
        Some(Output::Timer { duration }) => {
            out.push(2);
            number(out, u64::try_from(duration.as_nanos()).expect("a timer inside the domain"));
        }
        Some(Output::AttemptConnection { id, endpoint, is_ech_retry }) => {
            out.push(3);
            write_id(out, id);
            out.push(u8::from(is_ech_retry));
            write_endpoint(out, &endpoint);
        }
        Some(Output::CancelConnection { id }) => {
            out.push(4);
            write_id(out, id);
        }
        Some(Output::Succeeded) => out.push(5),
        Some(Output::Failed(FailureReason::DnsResolution)) => out.extend([6, 0]),
        Some(Output::Failed(FailureReason::Connection)) => out.extend([6, 1]),
    }
}

fn write_text(out: &mut Vec<u8>, text: &[u8]) {
    number(out, text.len() as u64);
    out.extend_from_slice(text);
}

/// Rank, target, ECH.
fn write_endpoint(out: &mut Vec<u8>, endpoint: &Endpoint) {
    out.push(match endpoint.http_version {
        ConnectionAttemptHttpVersions::H3 => 0,
        ConnectionAttemptHttpVersions::H2OrH1 => 1,
        ConnectionAttemptHttpVersions::H2 => 2,
        ConnectionAttemptHttpVersions::H1 => 3,
    });
    match &endpoint.target {
        EndpointTarget::Address(SocketAddr::V4(address)) => {
            out.push(0);
            out.extend(address.ip().octets());
            number(out, address.port().into());
        }
        EndpointTarget::Address(SocketAddr::V6(address)) => {
            out.push(1);
            out.extend(address.ip().octets());
            number(out, address.scope_id().into());
            number(out, address.port().into());
        }
        EndpointTarget::Name { host, port } => {
            out.push(2);
            write_text(out, host.as_bytes());
            number(out, (*port).into());
        }
    }
    match &endpoint.ech_config {
        None => out.push(0),
        Some(ech) => {
            number(out, ech.as_ref().len() as u64 + 1);
            out.extend_from_slice(ech.as_ref());
        }
    }
}
