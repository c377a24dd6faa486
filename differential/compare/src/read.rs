//! Reads tapes and answers for the generator and for the printer of words.
//! It is lenient: what breaks a rule of document 01 but can be read is read.

pub struct Reader<'a> {
    pub bytes: &'a [u8],
    pub at: usize,
}

impl<'a> Reader<'a> {
    pub fn new(bytes: &'a [u8]) -> Reader<'a> {
        Reader { bytes, at: 0 }
    }

    pub fn rest(&self) -> &'a [u8] {
        &self.bytes[self.at..]
    }

    pub fn done(&self) -> bool {
        self.at == self.bytes.len()
    }

    pub fn number(&mut self) -> Option<u64> {
        let mut value: u64 = 0;
        for place in 0..10 {
            let byte = *self.bytes.get(self.at)?;
            self.at += 1;
            let group = u64::from(byte % 128);
            if place == 9 && group > 1 {
                return None;
            }
            value |= group << (7 * place);
            if byte < 128 {
                return Some(value);
            }
        }
        None
    }

    pub fn take(&mut self, count: u64) -> Option<&'a [u8]> {
        let rest = self.rest();
        if count > rest.len() as u64 {
            return None;
        }
        self.at += count as usize;
        Some(&rest[..count as usize])
    }

    pub fn array<const N: usize>(&mut self) -> Option<[u8; N]> {
        Some(self.take(N as u64)?.try_into().unwrap())
    }

    /// A length and that many bytes.
    pub fn counted(&mut self) -> Option<&'a [u8]> {
        let length = self.number()?;
        self.take(length)
    }

    /// 0 for none, else a number one too large.
    pub fn option(&mut self) -> Option<Option<u64>> {
        Some(self.number()?.checked_sub(1))
    }

    pub fn ech(&mut self) -> Option<Option<Vec<u8>>> {
        match self.option()? {
            None => Some(None),
            Some(length) => Some(Some(self.take(length)?.to_vec())),
        }
    }
}

#[derive(Clone, Debug, PartialEq)]
pub enum Target {
    V4([u8; 4], u64),
    V6([u8; 16], u64, u64),
    Name(Vec<u8>, u64),
}

#[derive(Clone, Debug, PartialEq)]
pub enum Answer {
    Waiting,
    Query { id: u64, kind: u64, allow_stale: u64, name: Vec<u8> },
    Timer(u64),
    Attempt { id: u64, retry: u64, rank: u64, target: Target, ech: Option<Vec<u8>> },
    Cancel(u64),
    Succeeded,
    Failed(u64),
    Full(u64),
    Input(u64),
}

impl Answer {
    /// What demand 3 counts: queries, refreshes among them, attempts and cancels.
    pub fn is_ask(&self) -> bool {
        matches!(self, Answer::Query { .. } | Answer::Attempt { .. } | Answer::Cancel(_))
    }

    /// What demand 3 calls an end.
    pub fn is_end(&self) -> bool {
        matches!(self, Answer::Succeeded | Answer::Failed(_) | Answer::Waiting | Answer::Full(_))
    }
}

/// The answer at the head of some bytes.
pub fn answer(reader: &mut Reader) -> Option<Answer> {
    Some(match reader.number()? {
        0 => Answer::Waiting,
        1 => Answer::Query {
            id: reader.number()?,
            kind: reader.number()?,
            allow_stale: reader.number()?,
            name: reader.counted()?.to_vec(),
        },
        2 => Answer::Timer(reader.number()?),
        3 => Answer::Attempt {
            id: reader.number()?,
            retry: reader.number()?,
            rank: reader.number()?,
            target: target(reader)?,
            ech: reader.ech()?,
        },
        4 => Answer::Cancel(reader.number()?),
        5 => Answer::Succeeded,
        6 => Answer::Failed(reader.number()?),
        7 => Answer::Full(reader.number()?),
        8 => Answer::Input(reader.number()?),
        _ => return None,
    })
}

fn target(reader: &mut Reader) -> Option<Target> {
    Some(match reader.number()? {
        0 => Target::V4(reader.array()?, reader.number()?),
        1 => Target::V6(reader.array()?, reader.number()?, reader.number()?),
        2 => Target::Name(reader.counted()?.to_vec(), reader.number()?),
        _ => return None,
    })
}

/// A tape's whole frames, before the first fault.
pub struct Frames<'a> {
    pub configuration: Option<&'a [u8]>,
    /// Moment and body of each event.
    pub events: Vec<(u64, &'a [u8])>,
    /// Where they end.
    pub place: usize,
}

pub fn frames(tape: &[u8]) -> Frames<'_> {
    let mut reader = Reader::new(tape);
    let mut frames = Frames { configuration: framed(&mut reader), events: Vec::new(), place: 0 };
    if frames.configuration.is_none() {
        return frames;
    }
    frames.place = reader.at;
    while !reader.done() {
        let Some(moment) = reader.number() else { break };
        let Some(body) = framed(&mut reader) else { break };
        frames.events.push((moment, body));
        frames.place = reader.at;
    }
    frames
}

fn framed<'a>(reader: &mut Reader<'a>) -> Option<&'a [u8]> {
    let length = reader.number()?;
    if length > 4096 {
        return None;
    }
    reader.take(length)
}
