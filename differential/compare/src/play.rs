//! Random histories. A player chooses each event from the answers so far, so that most
//! histories go deep: many attempts, many records, refreshes, retries, cancels, both kinds of Full.

use crate::book::{Book, Depth, Ending};
use crate::read::Answer;
use crate::rng::Rng;
use crate::write::{Alternative, Body, Configuration, Event, History, Host, Service, V4, V6};

/// What a history is played against: it gives the answers that are expected.
pub trait Referee {
    /// An input's number.
    fn input(&mut self, moment: u64, body: &[u8]) -> u8;
    /// The answer to a call.
    fn output(&mut self, moment: u64) -> Vec<u8>;
    /// Nothing can be said from here on: the history has left the domain.
    fn over(&self) -> bool {
        false
    }
}

impl Referee for model::Machine {
    fn input(&mut self, moment: u64, body: &[u8]) -> u8 {
        model::Machine::input(self, moment, body)
    }

    fn output(&mut self, moment: u64) -> Vec<u8> {
        model::Machine::output(self, moment)
    }
}

/// The referee's answer to one event, as a tape's replay writes it.
pub fn ask(referee: &mut impl Referee, moment: u64, body: &[u8]) -> Vec<u8> {
    if body == [7] {
        return referee.output(moment);
    }
    let number = referee.input(moment, body);
    // Kind 7 is sound at the head of a tape's body, so what follows it is Trailing.
    let number = if body.first() == Some(&7) { 6 } else { number };
    vec![8, number]
}

/// What a history aims at.
#[derive(Clone, Copy, PartialEq, Debug)]
pub enum Shape {
    Attempts,
    Records,
    Refreshes,
    Retries,
    Winners,
    ByName,
    Address,
    Wild,
}

pub const SHAPES: [Shape; 8] = [
    Shape::Attempts,
    Shape::Records,
    Shape::Refreshes,
    Shape::Retries,
    Shape::Winners,
    Shape::ByName,
    Shape::Address,
    Shape::Wild,
];

#[derive(Clone, Copy, PartialEq)]
pub enum Clock {
    /// Goes on, mostly to the end of each timer.
    On,
    /// As `On`, and at times back.
    Back,
    Frozen,
    /// Anywhere at each event.
    Wild,
}

/// Chances in per cent, drawn once for a history.
pub struct Profile {
    pub shape: Shape,
    pub clock: Clock,
    /// Long address lists.
    rich: u64,
    /// Many services.
    wide: u64,
    stale: u64,
    failed: u64,
    empty: u64,
    ech: u64,
    hints: u64,
    retry: u64,
    /// An input rather than a call, when both are possible.
    eager: u64,
    /// Time rather than an input, when a timer runs.
    patient: u64,
    /// A result rather than a DNS answer.
    results: u64,
    /// An input that will be refused, or bytes that can't be read.
    rude: u64,
    raw: u64,
    /// No success before so many attempts; none at all above 32.
    goal: usize,
    length: usize,
    addresses: u64,
}

/// The largest tape a player writes: the program takes 65,536 bytes.
const TAPE: usize = 60_000;

pub struct Player {
    pub rng: Rng,
    pub configuration: Configuration,
    pub profile: Profile,
    pub book: Book,
    names: Vec<Vec<u8>>,
    echs: Vec<Vec<u8>>,
    now: u64,
    idle: usize,
    written: usize,
}

/// A whole history, the answers expected and what it reached.
pub struct Played {
    pub history: History,
    pub answers: Vec<u8>,
    pub depth: Depth,
    pub shape: Shape,
}

/// Plays one history against a referee of the player's configuration.
/// `look` sees the referee after each event.
pub fn play<R: Referee>(
    player: &mut Player,
    referee: &mut R,
    mut look: impl FnMut(&R, &Event),
) -> Played {
    let mut history = History::new(player.configuration.clone());
    let mut answers = Vec::new();
    while let Some(event) = player.choose() {
        let answer = ask(referee, event.moment, &event.body.bytes());
        if referee.over() {
            break;
        }
        look(referee, &event);
        player.hear(&event, &answer);
        answers.extend_from_slice(&answer);
        history.events.push(event);
    }
    Played { history, answers, depth: player.book.depth.clone(), shape: player.profile.shape }
}

impl Player {
    pub fn new(rng: Rng) -> Player {
        let mut rng = rng;
        let shape = shape(&mut rng);
        Player::of(rng, shape)
    }

    pub fn of(mut rng: Rng, shape: Shape) -> Player {
        let profile = profile(&mut rng, shape);
        let origin = origin(&mut rng);
        let names = names(&mut rng, shape, &origin);
        let echs = echs(&mut rng);
        let configuration = configuration(&mut rng, &profile, origin, &names);
        let now = match profile.clock {
            Clock::Wild => rng.draw(),
            _ => rng.pick(&[0, 0, 0, 1, 1_000_000_000, 1 << 40]),
        };
        Player {
            rng,
            configuration,
            profile,
            book: Book::default(),
            names,
            echs,
            now,
            idle: 0,
            written: 0,
        }
    }

    /// No reading precedes an earlier one, as demand 3 asks; and the book follows every input.
    pub fn onward(&mut self) {
        self.profile.clock = Clock::On;
        self.profile.raw = 0;
        self.now = self.rng.pick(&[0, 0, 7, 1_000_000_000]);
    }

    pub fn now(&self) -> u64 {
        self.now
    }

    pub fn hear(&mut self, event: &Event, answer: &[u8]) {
        self.written += event.body.bytes().len() + 12;
        self.book.hear(event, answer);
    }

    /// The next event, none at the history's end.
    pub fn choose(&mut self) -> Option<Event> {
        if self.book.depth.events as usize >= self.profile.length || self.written > TAPE {
            return None;
        }
        if self.rng.chance(self.profile.rude) {
            if let Some(body) = self.rude() {
                return Some(self.event(body));
            }
        }
        if self.rng.chance(self.profile.raw) {
            let body = self.raw();
            return Some(self.event(body));
        }
        if let Some(body) = self.won() {
            return Some(self.event(body));
        }
        let body = match self.book.last.clone() {
            Some(Answer::Timer(left)) => self.during(left),
            Some(Answer::Waiting | Answer::Full(_)) => {
                self.idle += 1;
                match self.told() {
                    Some(body) if !self.rng.chance(3) => body,
                    _ if self.idle > 6 => return None,
                    _ => Body::Call,
                }
            }
            Some(Answer::Succeeded | Answer::Failed(_)) => {
                self.idle += 1;
                if self.idle > 5 {
                    return None;
                }
                let late = self.late();
                late.filter(|_| self.rng.chance(60)).unwrap_or(Body::Call)
            }
            _ => {
                if self.rng.chance(self.profile.eager) {
                    self.told().unwrap_or(Body::Call)
                } else {
                    Body::Call
                }
            }
        };
        Some(self.event(body))
    }

    /// A success, where the history aims at one and enough attempts were made.
    fn won(&mut self) -> Option<Body> {
        let running = self.book.running();
        let due = self.book.attempts.len() >= self.profile.goal
            && self.profile.shape == Shape::Winners
            && self.book.attempts_where(|a| a.ending == Ending::Succeeded).is_empty();
        if !due || running.is_empty() || !self.rng.chance(40) {
            return None;
        }
        let at = self.rng.pick(&running);
        Some(Body::Success(self.book.attempts[at].id))
    }

    /// The clock's step before an event.
    fn event(&mut self, body: Body) -> Event {
        match self.profile.clock {
            Clock::On => {
                if self.rng.chance(15) {
                    self.ahead(1_000_000);
                }
            }
            Clock::Back => {
                if self.rng.chance(8) {
                    let back = self.rng.below(600_000_000);
                    self.now = self.now.saturating_sub(back);
                } else if self.rng.chance(20) {
                    self.ahead(400_000_000);
                }
            }
            Clock::Frozen => {}
            Clock::Wild => {
                if self.rng.chance(40) {
                    self.now = match self.rng.below(4) {
                        0 => self.rng.draw(),
                        1 => 0,
                        2 => u64::MAX,
                        _ => self.rng.below(1_000_000_000),
                    };
                }
            }
        }
        Event { moment: self.now, body }
    }

    fn ahead(&mut self, most: u64) {
        self.now = self.now.saturating_add(self.rng.below(most));
    }

    /// While a timer runs: its end, a moment near it, or an input.
    fn during(&mut self, left: u64) -> Body {
        let end = self.now.checked_add(left);
        if let (Some(end), true) = (end, self.rng.chance(self.profile.patient)) {
            self.now = match self.rng.below(10) {
                0 => end - 1,
                1 => end.saturating_add(self.rng.below(1_000_000)),
                2 => self.now + self.rng.below(left),
                _ => end,
            };
            return Body::Call;
        }
        match self.told() {
            Some(body) => body,
            None => {
                self.idle += usize::from(self.profile.clock == Clock::Frozen || end.is_none());
                if self.idle > 6 {
                    self.profile.length = 0;
                }
                self.now = end.unwrap_or(self.now);
                Body::Call
            }
        }
    }

    /// An input that the machine waits for.
    fn told(&mut self) -> Option<Body> {
        let asked = self.book.asked();
        let running = self.book.running();
        if asked.is_empty() && running.is_empty() {
            return self.late();
        }
        let result = asked.is_empty() || self.rng.chance(self.profile.results);
        if result && !running.is_empty() {
            let at = self.rng.pick(&running);
            return Some(self.result(at));
        }
        if asked.is_empty() {
            return None;
        }
        let at = self.rng.pick(&asked);
        let query = &self.book.queries[at];
        let (id, kind, refresh) = (query.id, query.kind, query.refresh);
        let flags = self.flags(!refresh);
        Some(self.dns(id, kind, flags))
    }

    fn flags(&mut self, stale: bool) -> u64 {
        u64::from(stale && self.rng.chance(self.profile.stale))
            + 2 * u64::from(self.rng.chance(self.profile.failed))
    }

    fn result(&mut self, at: usize) -> Body {
        let attempt = &self.book.attempts[at];
        let id = attempt.id;
        let ech = attempt.ech.clone();
        let on = self.configuration.flags % 2 == 1;
        if let (Some(sent), true, true) = (ech, on, self.rng.chance(self.profile.retry)) {
            let ech = match self.rng.below(8) {
                0 => sent,
                1 => Vec::new(),
                _ => self.some_ech(),
            };
            return Body::Retry { id, ech };
        }
        if self.book.attempts.len() >= self.profile.goal && self.rng.chance(50) {
            return Body::Success(id);
        }
        Body::Failure(id)
    }

    /// A result that comes after the attempt was cancelled.
    fn late(&mut self) -> Option<Body> {
        let cancelled = self.book.attempts_where(|a| a.ending == Ending::Cancelled);
        if cancelled.is_empty() {
            return None;
        }
        let id = self.book.attempts[self.rng.pick(&cancelled)].id;
        Some(match self.rng.below(3) {
            0 => Body::Success(id),
            1 => Body::Failure(id),
            _ => Body::Retry { id, ech: self.some_ech() },
        })
    }

    /// An answer to a query.
    pub fn dns(&mut self, id: u64, kind: u64, flags: u64) -> Body {
        let share = if kind == 0 { self.profile.wide } else { self.profile.rich };
        let rich = self.rng.chance(share);
        let empty = flags >= 2 || self.rng.chance(self.profile.empty);
        let most = match (kind, rich) {
            (0, true) if self.profile.shape == Shape::Records => 4,
            (0, true) => self.rng.between(3, 4),
            (0, false) => self.rng.between(1, 2),
            (_, true) => self.rng.between(6, 8),
            (_, false) => self.rng.between(1, 3),
        };
        let count = if empty { 0 } else { most };
        match kind {
            0 => Body::Https { id, flags, items: self.services(count) },
            1 => {
                let items = (0..count).map(|_| (self.v6(), self.scope())).collect();
                Body::Aaaa { id, flags, items }
            }
            _ => Body::A { id, flags, items: (0..count).map(|_| self.v4()).collect() },
        }
    }

    fn services(&mut self, count: u64) -> Vec<Service> {
        let apart = self.profile.shape == Shape::Records || self.rng.chance(30);
        let first = self.rng.index(self.names.len());
        (0..count as usize)
            .map(|i| {
                let name = if apart {
                    self.names[(first + i) % self.names.len()].clone()
                } else {
                    self.rng.pick(&self.names)
                };
                let priority = self.rng.pick(&[0, 1, 1, 1, 2, 3, 65535]);
                let versions = self.rng.pick(&[7, 7, 7, 6, 5, 4, 3, 2, 1, 0]);
                let port = match self.rng.below(8) {
                    0 => Some(self.rng.pick(&[0, 443, 8443, 65535])),
                    _ => None,
                };
                let ech = self.rng.chance(self.profile.ech).then(|| self.some_ech());
                let hints = self.rng.chance(self.profile.hints);
                let most = if hints { 4 } else { 0 };
                let v4 = (0..self.rng.between(0, most)).map(|_| self.v4()).collect();
                let v6 = (0..self.rng.between(0, most)).map(|_| self.v6()).collect();
                Service { priority, name, versions, port, ech, v4, v6 }
            })
            .collect()
    }

    fn some_ech(&mut self) -> Vec<u8> {
        if self.rng.chance(1) {
            return vec![self.rng.draw() as u8; 512];
        }
        self.rng.pick(&self.echs)
    }

    fn v4(&mut self) -> V4 {
        [192, 0, 2, self.rng.below(self.profile.addresses) as u8]
    }

    fn v6(&mut self) -> V6 {
        let mut address = [0; 16];
        if self.rng.chance(2) {
            // An IPv4 address mapped into IPv6 stays IPv6.
            address[10] = 255;
            address[11] = 255;
        } else {
            address[..4].copy_from_slice(&[0x20, 0x01, 0x0d, 0xb8]);
        }
        address[15] = self.rng.below(self.profile.addresses) as u8;
        address
    }

    fn scope(&mut self) -> u64 {
        match self.rng.below(12) {
            0 => self.rng.pick(&[1, 2, u64::from(u32::MAX)]),
            _ => 0,
        }
    }

    /// An input that document 01 refuses with 7 to 12, if there is one to be had.
    fn rude(&mut self) -> Option<Body> {
        let body = match self.rng.below(7) {
            0 => {
                let id = self.rng.pick(&[u64::MAX, 64, self.book.depth.asks()]);
                let kind = self.rng.below(6);
                self.input(kind, id)
            }
            // A query's id for an attempt, an attempt's for a query.
            1 => {
                let id = self.book.queries.last()?.id;
                let kind = self.rng.between(3, 5);
                self.input(kind, id)
            }
            2 => {
                let id = self.book.attempts.last()?.id;
                let kind = self.rng.below(3);
                self.input(kind, id)
            }
            // Answered already, a refresh done among them.
            3 => {
                let answered = self.book.queries_where(|q| q.answered);
                let at = *answered.get(self.rng.index(answered.len().max(1)))?;
                let id = self.book.queries[at].id;
                let kind = self.rng.below(3);
                self.input(kind, id)
            }
            // The wrong type, or a refresh answered as stale.
            4 => {
                let asked = self.book.asked();
                let at = *asked.get(self.rng.index(asked.len().max(1)))?;
                let query = &self.book.queries[at];
                let (id, own, refresh) = (query.id, query.kind, query.refresh);
                let kind = if refresh && self.rng.chance(60) {
                    own
                } else {
                    (own + self.rng.between(1, 2)) % 3
                };
                let flags = u64::from(refresh);
                self.dns(id, kind, flags)
            }
            // ECH retry where none was sent.
            5 => {
                let running = self.book.running();
                let at = *running.get(self.rng.index(running.len().max(1)))?;
                let attempt = &self.book.attempts[at];
                if attempt.ech.is_some() && self.configuration.flags % 2 == 1 {
                    return None;
                }
                Body::Retry { id: attempt.id, ech: self.some_ech() }
            }
            _ => {
                let ended = self
                    .book
                    .attempts_where(|a| matches!(a.ending, Ending::Succeeded | Ending::Failed));
                let at = *ended.get(self.rng.index(ended.len().max(1)))?;
                let id = self.book.attempts[at].id;
                let kind = self.rng.between(3, 5);
                self.input(kind, id)
            }
        };
        Some(body)
    }

    fn input(&mut self, kind: u64, id: u64) -> Body {
        match kind {
            0..=2 => {
                let flags = self.flags(true);
                self.dns(id, kind, flags)
            }
            3 => Body::Success(id),
            4 => Body::Failure(id),
            _ => Body::Retry { id, ech: self.some_ech() },
        }
    }

    /// A body with its bytes cut, changed or continued.
    fn raw(&mut self) -> Body {
        let id = self.rng.below(8);
        let kind = self.rng.below(6);
        let mut bytes = match self.told() {
            Some(body) if self.rng.chance(50) => body.bytes(),
            _ => self.input(kind, id).bytes(),
        };
        if self.rng.chance(10) {
            bytes = vec![7];
        }
        crate::damage::spoil(&mut self.rng, &mut bytes);
        // The book doesn't follow raw bodies: one that is still accepted makes a later input refused.
        Body::Raw(bytes)
    }
}

fn shape(rng: &mut Rng) -> Shape {
    match rng.below(100) {
        0..=17 => Shape::Attempts,
        18..=36 => Shape::Records,
        37..=51 => Shape::Refreshes,
        52..=67 => Shape::Retries,
        68..=82 => Shape::Winners,
        83..=91 => Shape::ByName,
        92..=94 => Shape::Address,
        _ => Shape::Wild,
    }
}

fn profile(rng: &mut Rng, shape: Shape) -> Profile {
    let clock = match rng.below(100) {
        0..=54 => Clock::On,
        55..=74 => Clock::Back,
        75..=84 => Clock::Frozen,
        _ => Clock::Wild,
    };
    let mut profile = Profile {
        shape,
        clock,
        rich: 75,
        wide: 75,
        stale: rng.pick(&[0, 10, 30]),
        failed: rng.pick(&[0, 5, 15]),
        empty: rng.pick(&[0, 5, 15]),
        ech: rng.pick(&[0, 0, 30]),
        hints: rng.pick(&[0, 40, 80]),
        retry: 40,
        eager: rng.pick(&[10, 25, 50]),
        patient: rng.pick(&[20, 50, 80]),
        results: rng.pick(&[30, 50, 70]),
        rude: rng.pick(&[0, 0, 2, 6]),
        raw: rng.pick(&[0, 0, 0, 3]),
        goal: 33,
        length: rng.between(60, 220) as usize,
        addresses: rng.pick(&[12, 30, 250]),
    };
    match shape {
        Shape::Attempts => {
            profile.rich = 95;
            profile.addresses = 250;
            profile.results = 75;
            profile.length = rng.between(120, 260) as usize;
            profile.goal = rng.pick(&[33, 33, 33, 32]);
        }
        Shape::Records => {
            profile.rich = rng.pick(&[5, 50]);
            profile.wide = 95;
            profile.results = 15;
            profile.eager = rng.pick(&[25, 50, 70]);
            profile.stale = rng.pick(&[0, 20, 80]);
            profile.failed = rng.pick(&[0, 0, 15]);
            profile.empty = rng.pick(&[0, 0, 15]);
            profile.ech = rng.pick(&[0, 0, 100]);
            profile.length = rng.between(80, 240) as usize;
        }
        Shape::Refreshes => {
            profile.stale = rng.pick(&[60, 80, 100]);
            profile.results = rng.pick(&[10, 30, 50]);
            profile.ech = rng.pick(&[0, 30, 60]);
        }
        Shape::Retries => {
            profile.ech = rng.pick(&[60, 100]);
            profile.retry = rng.pick(&[50, 90]);
            profile.results = 60;
            profile.stale = rng.pick(&[0, 30, 60]);
            profile.goal = rng.pick(&[33, 33, 20]);
        }
        Shape::Winners => {
            profile.patient = 90;
            profile.results = rng.pick(&[5, 20]);
            profile.eager = rng.pick(&[5, 15]);
            profile.goal = rng.pick(&[5, 8, 12, 20, 32]);
            profile.length = rng.between(80, 260) as usize;
        }
        Shape::ByName => {
            profile.stale = rng.pick(&[50, 100, 100]);
            profile.ech = rng.pick(&[0, 50, 100]);
            profile.retry = 70;
            profile.failed = rng.pick(&[0, 0, 10]);
        }
        Shape::Address => profile.goal = rng.pick(&[5, 33]),
        Shape::Wild => {
            profile.rich = rng.below(101);
            profile.wide = rng.below(101);
            profile.stale = rng.below(101);
            profile.failed = rng.below(40);
            profile.empty = rng.below(40);
            profile.ech = rng.below(101);
            profile.hints = rng.below(101);
            profile.goal = rng.between(1, 33) as usize;
            profile.rude = rng.below(20);
            profile.addresses = rng.between(1, 40);
        }
    }
    profile
}

/// An origin's name that the original's URL parser gives back unchanged.
fn origin(rng: &mut Rng) -> Vec<u8> {
    let mut name: Vec<u8> = match rng.below(20) {
        0 => {
            let mut long = Vec::new();
            for length in [63, 63, 63, 46] {
                long.extend(std::iter::repeat_n(b'a' + rng.below(26) as u8, length));
                long.push(b'.');
            }
            long.pop();
            long
        }
        1 => b"1.0.a_-9".to_vec(),
        2 => b"-x.y-.a--b".to_vec(),
        3..=6 => {
            let alphabet = b"abcdefghijklmnopqrstuvwyz0123456789-_";
            let labels = rng.between(1, 4);
            let mut name = Vec::new();
            for label in 0..labels {
                // The first letter keeps the last label from being a number.
                name.push(b'a' + rng.below(20) as u8);
                name.extend((0..rng.below(9)).map(|_| rng.pick(alphabet)));
                if label + 1 < labels {
                    name.push(b'.');
                }
            }
            name
        }
        _ => b"a.b".to_vec(),
    };
    if rng.chance(20) && name.len() < 239 {
        name.push(b'.');
    }
    name
}

/// Names for targets and alternatives: the origin, others, and each so written that only bytes tell.
fn names(rng: &mut Rng, shape: Shape, origin: &[u8]) -> Vec<Vec<u8>> {
    let mut names = vec![origin.to_vec()];
    let bare = origin.strip_suffix(b".").unwrap_or(origin);
    match rng.below(3) {
        0 => names.push(bare.to_vec()),
        1 => names.push([bare, b"."].concat()),
        _ => {}
    }
    if rng.chance(20) {
        let port = rng.pick(&["443", "8443", "0"]);
        names.push([b"_", port.as_bytes(), b"._https.", bare].concat());
    }
    if rng.chance(20) {
        names.push(origin.to_ascii_uppercase());
    }
    let others: [&[u8]; 10] =
        [b"c.d", b"c.d.", b"C.d", b"e.f", b"g.h", b"i.j", b"k.l.", b"m.0x1", b"xn--.n", b"o"];
    let first = rng.index(others.len());
    let fewest = if shape == Shape::Records { 6 } else { 2 };
    let count = rng.between(fewest, 8) as usize;
    names.extend((0..count).map(|i| others[(first + i) % others.len()].to_vec()));
    if rng.chance(3) {
        names.push([&[b'q'; 63][..]; 4].join(&b'.')[..253].to_vec());
    }
    names.truncate(9);
    names
}

fn echs(rng: &mut Rng) -> Vec<Vec<u8>> {
    let count = rng.between(1, 12);
    let mut echs: Vec<Vec<u8>> =
        (0..count).map(|i| (0..rng.between(1, 3)).map(|_| i as u8).collect()).collect();
    if rng.chance(30) {
        echs.push(Vec::new());
    }
    echs
}

fn configuration(
    rng: &mut Rng,
    profile: &Profile,
    origin: Vec<u8>,
    names: &[Vec<u8>],
) -> Configuration {
    let shape = profile.shape;
    let deep = !matches!(shape, Shape::Wild);
    let mut configuration = Configuration::new(Host::Name(origin), 443);
    if rng.chance(30) {
        configuration.port = rng.pick(&[0, 80, 443, 8443, 65535]);
    }
    let address = match shape {
        Shape::Address => 100,
        Shape::Wild => 15,
        _ => 0,
    };
    if rng.chance(address) {
        configuration.host = if rng.chance(50) {
            Host::V4([192, 0, 2, rng.below(250) as u8])
        } else {
            let mut v6 = [0; 16];
            v6[0] = 0x20;
            v6[15] = rng.below(250) as u8;
            Host::V6(v6)
        };
    }
    configuration.versions = match rng.below(100) {
        0..=79 => 7,
        _ if deep => rng.pick(&[3, 5, 6, 7]),
        _ => rng.below(8),
    };
    configuration.preference = match shape {
        Shape::Attempts | Shape::Records if rng.chance(90) => rng.below(2),
        _ => rng.below(4),
    };
    configuration.mode = match shape {
        Shape::ByName => rng.pick(&[1, 2, 2, 2, 2, 2, 2]),
        Shape::Address => rng.pick(&[0, 0, 0, 0, 1, 2]),
        Shape::Wild => rng.below(3),
        _ => 0,
    };
    configuration.flags = match shape {
        Shape::Retries => 1 + 2 * rng.below(2),
        _ => rng.pick(&[3, 3, 2, 1, 0]),
    };
    let count = match shape {
        Shape::Records => 4,
        Shape::Address => rng.between(2, 4),
        Shape::ByName => rng.between(1, 4),
        _ => rng.below(5),
    };
    configuration.alternatives =
        (0..count).map(|i| alternative(rng, shape, names, i as usize)).collect();
    configuration.resolution = match rng.below(20) {
        0..=9 => 50_000_000,
        10..=13 => 0,
        14 => 1,
        15 => rng.pick(&[u64::MAX, 1 << 63, 1 << 40]),
        _ => rng.below(300_000_000),
    };
    configuration.attempt = match rng.below(20) {
        0..=9 => 250_000_000,
        10..=13 => 0,
        14 => 1,
        15 => rng.pick(&[u64::MAX, 1 << 63, 1 << 40]),
        16 => configuration.resolution,
        _ => rng.below(300_000_000),
    };
    if shape == Shape::Records && rng.chance(80) {
        // Without a pause the attempts leave first, and their Full hides the queries.
        configuration.attempt = configuration.attempt.max(250_000_000);
        configuration.flags |= 2;
    }
    configuration.multiplier = match rng.below(20) {
        0..=11 => 1,
        12..=15 => 2,
        16 => 3,
        _ => rng.pick(&[1, 2, 10, 65_535, 65_536, (1 << 32) - 1]),
    };
    configuration
}

fn alternative(rng: &mut Rng, shape: Shape, names: &[Vec<u8>], at: usize) -> Alternative {
    let host = match rng.below(10) {
        _ if matches!(shape, Shape::Records | Shape::Address) && rng.chance(85) => {
            // Apart from the names that the targets begin with.
            Host::Name(format!("alt{at}.test").into_bytes())
        }
        0..=5 => Host::Name(rng.pick(names)),
        6 => Host::V4([192, 0, 2, rng.below(250) as u8]),
        7 => {
            let mut v6 = [0; 16];
            v6[0] = 0xfe;
            v6[15] = rng.below(250) as u8;
            Host::V6(v6)
        }
        _ => Host::None,
    };
    let port = rng.chance(30).then(|| rng.pick(&[0, 443, 8443, 65535]));
    Alternative { host, port, version: rng.below(3) }
}
