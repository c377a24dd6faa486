//! What a host knows from the answers it got: the generator's own book, and how deep a history went.

use crate::read::{answer, Answer, Reader};
use crate::write::{Body, Event};

#[derive(Clone, Copy, PartialEq)]
pub enum Ending {
    Running,
    Succeeded,
    Failed,
    Cancelled,
}

#[derive(Clone)]
pub struct Query {
    pub id: u64,
    /// 0 HTTPS, 1 AAAA, 2 A.
    pub kind: u64,
    pub name: Vec<u8>,
    pub refresh: bool,
    pub answered: bool,
}

#[derive(Clone)]
pub struct Attempt {
    pub id: u64,
    pub retry: bool,
    pub ech: Option<Vec<u8>>,
    pub ending: Ending,
    /// The endpoint's bytes: all that follows id and retry flag in the answer.
    pub endpoint: Vec<u8>,
}

#[derive(Clone, Default)]
pub struct Book {
    pub queries: Vec<Query>,
    pub attempts: Vec<Attempt>,
    pub last: Option<Answer>,
    pub depth: Depth,
}

/// What a history reached.
#[derive(Clone, Default, Debug)]
pub struct Depth {
    pub events: u64,
    pub calls: u64,
    pub records: u64,
    pub attempts: u64,
    pub retries: u64,
    pub refreshes: u64,
    /// HTTPS answers replaced by a refresh.
    pub replaced: u64,
    pub cancels: u64,
    pub late: u64,
    pub timers: u64,
    pub full: [u64; 2],
    pub refused: [u64; 14],
    pub ended: bool,
}

impl Depth {
    /// Queries, attempts and cancels together.
    pub fn asks(&self) -> u64 {
        self.records + self.refreshes + self.attempts + self.cancels
    }

    /// Far from the first steps, by one road or another.
    pub fn is_deep(&self) -> bool {
        self.attempts >= 12
            || self.records >= 11
            || self.full != [0, 0]
            || self.replaced > 0
            || self.retries >= 2
            || self.cancels >= 4
            || self.refreshes >= 3
    }
}

impl Book {
    /// Queries without an answer, refreshes in flight among them.
    pub fn asked(&self) -> Vec<usize> {
        self.queries_where(|q| !q.answered)
    }

    pub fn queries_where(&self, is: impl Fn(&Query) -> bool) -> Vec<usize> {
        places(&self.queries, is)
    }

    pub fn attempts_where(&self, is: impl Fn(&Attempt) -> bool) -> Vec<usize> {
        places(&self.attempts, is)
    }

    pub fn running(&self) -> Vec<usize> {
        self.attempts_where(|a| a.ending == Ending::Running)
    }

    /// Takes an event and the answer to it into the book.
    pub fn hear(&mut self, event: &Event, bytes: &[u8]) {
        let Some(heard) = answer(&mut Reader::new(bytes)) else {
            return;
        };
        self.depth.events += 1;
        match &heard {
            Answer::Input(0) => self.accepted(&event.body),
            Answer::Input(number) => {
                self.depth.refused[(*number).min(13) as usize] += 1;
            }
            call => {
                self.depth.calls += 1;
                self.called(call, bytes);
            }
        }
        if !matches!(heard, Answer::Input(_)) || heard == Answer::Input(0) {
            self.last = Some(heard);
        }
    }

    fn accepted(&mut self, body: &Body) {
        match body {
            Body::Aaaa { id, .. } | Body::A { id, .. } | Body::Https { id, .. } => {
                if let Some(query) = self.queries.iter_mut().find(|q| q.id == *id) {
                    query.answered = true;
                    if query.refresh && query.kind == 0 {
                        self.depth.replaced += 1;
                    }
                }
            }
            Body::Success(id) => self.result(*id, Ending::Succeeded),
            Body::Failure(id) | Body::Retry { id, .. } => self.result(*id, Ending::Failed),
            Body::Call | Body::Raw(_) => {}
        }
    }

    fn result(&mut self, id: u64, ending: Ending) {
        if let Some(attempt) = self.attempts.iter_mut().find(|a| a.id == id) {
            if attempt.ending == Ending::Cancelled {
                self.depth.late += 1;
            } else {
                attempt.ending = ending;
            }
        }
    }

    fn called(&mut self, heard: &Answer, bytes: &[u8]) {
        match heard {
            Answer::Query { id, kind, allow_stale, name } => {
                let refresh = *allow_stale == 0;
                self.queries.push(Query {
                    id: *id,
                    kind: *kind,
                    name: name.clone(),
                    refresh,
                    answered: false,
                });
                if refresh {
                    self.depth.refreshes += 1;
                } else {
                    self.depth.records += 1;
                }
            }
            Answer::Attempt { id, retry, ech, .. } => {
                let mut reader = Reader::new(bytes);
                for _ in 0..3 {
                    reader.number();
                }
                self.attempts.push(Attempt {
                    id: *id,
                    retry: *retry == 1,
                    ech: ech.clone(),
                    ending: Ending::Running,
                    endpoint: reader.rest().to_vec(),
                });
                self.depth.attempts += 1;
                self.depth.retries += *retry;
            }
            Answer::Cancel(id) => {
                self.depth.cancels += 1;
                if let Some(attempt) = self.attempts.iter_mut().find(|a| a.id == *id) {
                    attempt.ending = Ending::Cancelled;
                }
            }
            Answer::Timer(_) => self.depth.timers += 1,
            Answer::Full(kind) => self.depth.full[(*kind).min(1) as usize] += 1,
            Answer::Succeeded | Answer::Failed(_) => self.depth.ended = true,
            Answer::Waiting | Answer::Input(_) => {}
        }
    }
}

fn places<T>(of: &[T], is: impl Fn(&T) -> bool) -> Vec<usize> {
    (0..of.len()).filter(|&i| is(&of[i])).collect()
}
