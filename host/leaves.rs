//! Runs the Rattle leaves (numbers, fields, refusals, names, delays, ids) against an independent Rust version of document 01.
//!
//! `leaves [SEED]` compares them on boundary and random inputs, counts what it compared, and ends with 1 at the first difference.
//! `leaves --speed` times a delay call against the same in Rust.

mod rng;
mod run;
mod tally;

use rng::Random;
use std::fmt::{Debug, Formatter};
use std::hint::black_box;
use std::time::Instant;
use tally::Tally;

/// What the words hold before an entry stores into them, and after it where it stores nothing.
const UNTOUCHED: u64 = 0x5a5a_a5a5_0f0f_f0f0;
/// As many words as the longest outcome has, and one to see a store too far.
const WORDS: usize = 4;

/// What an entry says: the outcome's number, 0 or the refusal's, and the words that it was lent.
#[derive(Debug, PartialEq)]
struct Answer {
    number: u8,
    words: [u64; WORDS],
}

impl Answer {
    /// The values fill the first words; a refusal fills none.
    fn new(outcome: Result<impl AsRef<[u64]>, u8>) -> Self {
        let mut words = [UNTOUCHED; WORDS];
        match outcome {
            Ok(values) => {
                let values = values.as_ref();
                words[..values.len()].copy_from_slice(values);
                Answer { number: 0, words }
            }
            Err(number) => Answer { number, words },
        }
    }
}

/// Bytes that were read: where they start, how many they are, and the place after them.
type Span = [u64; 3];

/// Document 01's table: the outcome of number 0, and the refusals by their numbers.
const REFUSALS: [&str; 14] = [
    "read",
    "Cut",
    "BadNumber",
    "OutOfRange",
    "BadName",
    "TooMany",
    "Trailing",
    "UnknownId",
    "AlreadyAnswered",
    "WrongType",
    "StaleRefresh",
    "EchNotSent",
    "AlreadyEnded",
    "NoRoom",
];

/// Up to this length every place of a slice is tried.
const SHORT: usize = 24;
/// Longest buffer that is lent to a writer; past 32 bytes the compiled code copies in wide steps.
const ROOM: usize = 128;
/// Bytes kept on each side of it, to see a store outside of what was lent.
const GUARD: usize = 16;

/// A lent buffer of `len` bytes with the memory around it.
#[derive(Clone, Copy, PartialEq)]
struct Buffer {
    memory: [u8; ROOM + 2 * GUARD],
    len: usize,
}

/// All the memory, the lent part between bars.
impl Debug for Buffer {
    fn fmt(&self, f: &mut Formatter) -> std::fmt::Result {
        for (k, b) in self.memory.iter().enumerate() {
            let bar = (k == GUARD) as usize + (k == GUARD + self.len) as usize;
            write!(f, "{}{b:02x}", &"||"[..bar])?;
        }
        Ok(())
    }
}

impl Buffer {
    fn lent(&mut self) -> &mut [u8] {
        &mut self.memory[GUARD..GUARD + self.len]
    }
}

/// The Rattle side: the entries of the crate `probes`.
mod rattle {
    use super::{Answer, Buffer, UNTOUCHED, WORDS};

    extern "C" {
        fn probe_read_number(s: *const u8, len: usize, at: usize, words: *mut u64, room: usize) -> u8;
        fn probe_number_len(n: u64) -> usize;
        fn probe_write_number(out: *mut u8, len: usize, at: usize, n: u64, words: *mut u64, room: usize) -> u8;
        fn probe_put_bytes(
            out: *mut u8,
            len: usize,
            at: usize,
            bytes: *const u8,
            count: usize,
            words: *mut u64,
            room: usize,
        ) -> u8;
        fn probe_read_at_most(s: *const u8, len: usize, at: usize, limit: u64, over: usize, words: *mut u64, room: usize) -> u8;
        fn probe_read_bytes(s: *const u8, len: usize, at: usize, count: usize, words: *mut u64, room: usize) -> u8;
        fn probe_name_ok(s: *const u8, len: usize) -> u8;
        fn probe_read_name(s: *const u8, len: usize, at: usize, words: *mut u64, room: usize) -> u8;
        fn probe_read_origin(s: *const u8, len: usize, at: usize, words: *mut u64, room: usize) -> u8;
        fn probe_factor(multiplier: u32, in_progress: u64) -> u32;
        fn probe_product(delay: u64, factor: u32) -> u64;
        fn probe_attempt_delay(delay: u64, multiplier: u32, in_progress: u64) -> u64;
        fn probe_first_id() -> u64;
        fn probe_next_id(id: u64, words: *mut u64, room: usize);
    }

    // Safety of all calls: a pointer goes with the length of the live slice that it came from, and no entry keeps it.

    /// What an entry says that is lent words.
    fn answer(entry: impl FnOnce(*mut u64, usize) -> u8) -> Answer {
        let mut words = [UNTOUCHED; WORDS];
        let number = entry(words.as_mut_ptr(), words.len());
        Answer { number, words }
    }

    pub fn read_number(s: &[u8], at: usize) -> Answer {
        answer(|words, room| unsafe { probe_read_number(s.as_ptr(), s.len(), at, words, room) })
    }

    pub fn read_name(s: &[u8], at: usize) -> Answer {
        answer(|words, room| unsafe { probe_read_name(s.as_ptr(), s.len(), at, words, room) })
    }

    pub fn read_origin(s: &[u8], at: usize) -> Answer {
        answer(|words, room| unsafe { probe_read_origin(s.as_ptr(), s.len(), at, words, room) })
    }

    pub fn number_len(n: u64) -> usize {
        unsafe { probe_number_len(n) }
    }

    pub fn write_number(mut buffer: Buffer, at: usize, n: u64) -> (Answer, Buffer) {
        let out = buffer.lent();
        let said = answer(|words, room| unsafe { probe_write_number(out.as_mut_ptr(), out.len(), at, n, words, room) });
        (said, buffer)
    }

    pub fn put_bytes(mut buffer: Buffer, at: usize, bytes: &[u8]) -> (Answer, Buffer) {
        let out = buffer.lent();
        let said = answer(|words, room| unsafe {
            probe_put_bytes(out.as_mut_ptr(), out.len(), at, bytes.as_ptr(), bytes.len(), words, room)
        });
        (said, buffer)
    }

    pub fn name_ok(s: &[u8]) -> u8 {
        unsafe { probe_name_ok(s.as_ptr(), s.len()) }
    }

    /// A number above the limit gets the refusal with the number `over`.
    pub fn read_at_most(s: &[u8], at: usize, limit: u64, over: u8) -> Answer {
        let place = usize::from(over - 1);
        answer(|words, room| unsafe { probe_read_at_most(s.as_ptr(), s.len(), at, limit, place, words, room) })
    }

    pub fn read_bytes(s: &[u8], at: usize, count: usize) -> Answer {
        answer(|words, room| unsafe { probe_read_bytes(s.as_ptr(), s.len(), at, count, words, room) })
    }

    pub fn factor(multiplier: u32, in_progress: u64) -> u32 {
        unsafe { probe_factor(multiplier, in_progress) }
    }

    pub fn product(delay: u64, factor: u32) -> u64 {
        unsafe { probe_product(delay, factor) }
    }

    pub fn attempt_delay(delay: u64, multiplier: u32, in_progress: u64) -> u64 {
        unsafe { probe_attempt_delay(delay, multiplier, in_progress) }
    }

    pub fn first_id() -> u64 {
        unsafe { probe_first_id() }
    }

    pub fn next_id(id: u64) -> Answer {
        answer(|words, room| {
            unsafe { probe_next_id(id, words, room) };
            0
        })
    }
}

/// The Rust side, written from document 01's sentences and by other ways than the Rattle code: values in 128 bits, a form held
/// against its own encoding, names by splitting, powers by squaring.
mod rust {
    use super::{Buffer, Span};

    pub const CUT: u8 = 1;
    pub const BAD_NUMBER: u8 = 2;
    pub const OUT_OF_RANGE: u8 = 3;
    pub const BAD_NAME: u8 = 4;
    pub const TOO_MANY: u8 = 5;
    pub const NO_ROOM: u8 = 13;

    /// The shortest form. Of 128 bits, so that the tests can also make forms that are too large.
    pub fn encoded(n: u128) -> Vec<u8> {
        let bits = 128 - n.leading_zeros();
        let groups = bits.div_ceil(7).max(1);
        let group = |k: u32| (n >> (7 * k)) as u8 & 0x7f;
        (0..groups).map(|k| if k + 1 < groups { group(k) | 0x80 } else { group(k) }).collect()
    }

    pub fn read_number(s: &[u8], at: usize) -> Result<(u64, usize), u8> {
        let rest = s.get(at..).unwrap_or(&[]);
        let form = &rest[..rest.len().min(10)];
        let Some(last) = form.iter().position(|b| *b < 0x80) else {
            // a tenth byte with the eighth bit set is above 1
            return Err(if form.len() == 10 { BAD_NUMBER } else { CUT });
        };
        let form = &form[..=last];
        let value = form.iter().rev().fold(0u128, |v, b| v * 128 + u128::from(b % 128));
        match u64::try_from(value) {
            Ok(v) if encoded(value) == form => Ok((v, at + form.len())),
            _ => Err(BAD_NUMBER),
        }
    }

    /// Whether `count` places from `at` on lie within `len`.
    fn within(at: usize, count: u64, len: usize) -> bool {
        at as u128 + u128::from(count) <= len as u128
    }

    pub fn read_at_most(s: &[u8], at: usize, limit: u64, over: u8) -> Result<(u64, usize), u8> {
        match read_number(s, at) {
            Ok((v, _)) if v > limit => Err(over),
            read => read,
        }
    }

    pub fn read_bytes(s: &[u8], at: usize, count: usize) -> Result<Span, u8> {
        if within(at, count as u64, s.len()) {
            Ok([at, count, at + count].map(|n| n as u64))
        } else {
            Err(CUT)
        }
    }

    /// The place after the bytes, and the buffer with them.
    pub fn put_bytes(mut buffer: Buffer, at: usize, bytes: &[u8]) -> (Result<usize, u8>, Buffer) {
        if !within(at, bytes.len() as u64, buffer.len) {
            return (Err(NO_ROOM), buffer);
        }
        let next = at + bytes.len();
        buffer.lent()[at..next].copy_from_slice(bytes);
        (Ok(next), buffer)
    }

    pub fn name_ok(s: &[u8]) -> bool {
        let undotted = s.strip_suffix(b".").unwrap_or(s);
        let labels: Vec<&[u8]> = undotted.split(|b| *b == b'.').collect();
        let lawful = |b: &u8| b.is_ascii_alphanumeric() || b"-_".contains(b);
        let numeric = |label: &[u8]| label.iter().all(u8::is_ascii_digit);
        labels.iter().all(|label| (1..=63).contains(&label.len()) && label.iter().all(lawful))
            && !labels.last().is_some_and(|label| numeric(label))
    }

    pub fn read_name(s: &[u8], at: usize, limit: u64) -> Result<Span, u8> {
        let (len, start) = read_at_most(s, at, limit, TOO_MANY)?;
        if len == 0 {
            return Err(BAD_NAME);
        }
        let span = read_bytes(s, start, len as usize)?;
        if name_ok(&s[start..][..len as usize]) {
            Ok(span)
        } else {
            Err(BAD_NAME)
        }
    }

    /// By squaring; cutting at the cap after each product is sound, since no factor is below 1.
    pub fn factor(multiplier: u32, in_progress: u64) -> u32 {
        let capped = |n: u128| n.min(u128::from(u32::MAX));
        let mut power = 1;
        let mut square = u128::from(multiplier.max(1));
        let mut exponent = in_progress.saturating_sub(1);
        while exponent > 0 {
            if exponent % 2 == 1 {
                power = capped(power * square);
            }
            square = capped(square * square);
            exponent /= 2;
        }
        power as u32
    }

    pub fn product(delay: u64, factor: u32) -> u64 {
        let exact = u128::from(delay) * u128::from(factor);
        exact.min(u128::from(u64::MAX)) as u64
    }

    pub fn attempt_delay(delay: u64, multiplier: u32, in_progress: u64) -> u64 {
        product(delay, factor(multiplier, in_progress))
    }

    pub fn next_id(id: u64) -> u64 {
        ((u128::from(id) + 1) % (1 << 64)) as u64
    }
}

impl Random {
    /// Numbers of every bit length alike.
    fn number(&mut self) -> u64 {
        self.next() >> self.below(64)
    }

    fn pick<T: Copy>(&mut self, from: &[T]) -> T {
        from[self.below(from.len())]
    }

    fn byte(&mut self) -> u8 {
        self.next() as u8
    }

    /// Mostly with the eighth bit set, so that long forms are common.
    fn group(&mut self) -> u8 {
        let low = if self.once_in(4) { self.pick(&[0, 1, 2, 0x7f]) } else { self.byte() & 0x7f };
        if self.once_in(8) {
            low
        } else {
            low | 0x80
        }
    }

    fn buffer(&mut self, len: usize) -> Buffer {
        Buffer { memory: std::array::from_fn(|_| self.byte()), len }
    }
}

/// All powers of 2, so all of 2^7, and the numbers beside them.
fn boundaries() -> Vec<u64> {
    let mut all: Vec<u64> = (0..64).map(|k| 1 << k).flat_map(|p: u64| [p - 1, p, p + 1]).collect();
    all.extend([u64::MAX - 1, u64::MAX]);
    all.sort();
    all.dedup();
    all
}

/// Every place of a slice, places past its end, and those from which a sum with a small length wraps.
fn places(len: usize) -> impl Iterator<Item = usize> {
    let far = [usize::MAX / 2, usize::MAX / 2 + 1];
    (0..=len + 2).chain(far).chain(usize::MAX - SHORT - 2..=usize::MAX)
}

/// A number that was read, or its refusal, as an entry says it.
fn number_said(read: Result<(u64, usize), u8>) -> Answer {
    Answer::new(read.map(|(v, next)| [v, next as u64]))
}

fn compare_read(t: &mut Tally, s: &[u8], at: usize) {
    let rust = number_said(rust::read_number(s, at));
    let outcome = rust.number as usize;
    t.compare(format_args!("bytes {s:02x?} at {at:x}"), rattle::read_number(s, at), rust, outcome);
}

fn read_everywhere(t: &mut Tally, s: &[u8]) {
    for at in places(s.len()) {
        compare_read(t, s, at);
    }
}

/// Every slice of at most two bytes; then runs of 3 to 12 that end with any byte.
fn read_short(t: &mut Tally) {
    read_everywhere(t, &[]);
    for a in 0..=u8::MAX {
        read_everywhere(t, &[a]);
        for b in 0..=u8::MAX {
            read_everywhere(t, &[a, b]);
        }
        for len in 2..=11 {
            for run in [0x80, 0x81, 0xff] {
                let mut s = vec![run; len];
                s.push(a);
                read_everywhere(t, &s);
            }
        }
    }
}

/// Every ninth byte with every tenth, over several firsts, with and without bytes after them.
fn read_tenth(t: &mut Tally, random: &mut Random) {
    for pair in 0..=u16::MAX {
        let firsts = [[0x80; 8], [0xff; 8], std::array::from_fn(|_| random.byte() | 0x80)];
        for first in firsts {
            for after in [&[][..], &[0], &[1], &[0x80], &[0xff, 0]] {
                let lead = random.below(3);
                let s = [&[0x80, 0][..lead], &first, &pair.to_le_bytes(), after].concat();
                compare_read(t, &s, lead);
            }
        }
    }
}

/// A number with some groups of 0 too many.
fn longer_form(n: u128, by: usize) -> Vec<u8> {
    let mut form = rust::encoded(n);
    for _ in 0..by {
        if let Some(last) = form.last_mut() {
            *last |= 0x80;
        }
        form.push(0);
    }
    form
}

/// Numbers at the boundaries and above 64 bits: the shortest form, longer ones, and each of these cut short.
fn read_forms(t: &mut Tally) {
    let above = (64..=72).flat_map(|k| [(1 << k) - 1, 1 << k, (1 << k) + 1]);
    for n in boundaries().into_iter().map(u128::from).chain(above) {
        for longer in 0..=10 {
            let mut s = longer_form(n, longer);
            for end in 0..=s.len() {
                compare_read(t, &s[..end], 0);
            }
            s.extend([0x80, 0x80, 1]);
            read_everywhere(t, &s);
        }
    }
}

fn read_random(t: &mut Tally, random: &mut Random) {
    for _ in 0..1_000_000 {
        let s: Vec<u8> = (0..random.below(SHORT + 1)).map(|_| random.group()).collect();
        compare_read(t, &s, random.below(s.len() + 2));
        compare_read(t, &s, 0);
    }
}

fn numbers_read(random: &mut Random) -> Tally {
    let mut t = Tally::new("numbers read", &["read", "Cut", "BadNumber"]);
    read_short(&mut t);
    read_tenth(&mut t, random);
    read_forms(&mut t);
    read_random(&mut t, random);
    t
}

fn number_lengths(random: &mut Random) -> Tally {
    let names = &["", "1", "2", "3", "4", "5", "6", "7", "8", "9", "10"];
    let mut t = Tally::new("number lengths", names);
    let some: Vec<u64> = (0..1_000_000).map(|_| random.number()).collect();
    for n in boundaries().into_iter().chain(some) {
        let len = rust::encoded(n.into()).len();
        t.compare(format_args!("{n:x}"), rattle::number_len(n), len, len);
    }
    t
}

/// The place after what was written, or the refusal.
fn place_said(next: Result<usize, u8>) -> Answer {
    Answer::new(next.map(|next| [next as u64]))
}

fn compare_write(t: &mut Tally, buffer: Buffer, at: usize, n: u64) {
    let (next, after) = rust::put_bytes(buffer, at, &rust::encoded(n.into()));
    let outcome = usize::from(next.is_err());
    let rust = (place_said(next), after);
    t.compare(format_args!("{n:x} at {at:x} of {buffer:x?}"), rattle::write_number(buffer, at, n), rust, outcome);
}

fn numbers_written(random: &mut Random) -> Tally {
    let mut t = Tally::new("numbers written", &["written", "NoRoom"]);
    for len in 0..=SHORT {
        let buffer = random.buffer(len);
        for at in places(len) {
            for n in boundaries() {
                compare_write(&mut t, buffer, at, n);
            }
        }
        for _ in 0..20_000 {
            let (at, n) = (random.below(len + 2), random.number());
            compare_write(&mut t, buffer, at, n);
        }
    }
    t
}

fn bytes_put(random: &mut Random) -> Tally {
    let mut t = Tally::new("bytes put", &["put", "NoRoom"]);
    let mut compare = |len: usize, at: usize, count: usize| {
        let buffer = random.buffer(len);
        let bytes: Vec<u8> = (0..count).map(|_| random.byte()).collect();
        let (next, after) = rust::put_bytes(buffer, at, &bytes);
        let outcome = usize::from(next.is_err());
        let rust = (place_said(next), after);
        let input = format_args!("{bytes:02x?} at {at:x} of {buffer:x?}");
        t.compare(input, rattle::put_bytes(buffer, at, &bytes), rust, outcome);
    };
    for len in 0..=SHORT {
        for count in 0..=SHORT + 2 {
            places(len).for_each(|at| compare(len, at, count));
        }
    }
    for len in 0..=ROOM {
        for at in 0..=len {
            // around what is left after the place, and some less
            (0..=len + 2 - at).rev().step_by(1 + at % 7).take(24).for_each(|count| compare(len, at, count));
        }
    }
    t
}

fn compare_at_most(t: &mut Tally, s: &[u8], at: usize, limit: u64, over: u8) {
    let rust = number_said(rust::read_at_most(s, at, limit, over));
    let outcome = rust.number as usize;
    let input = format_args!("bytes {s:02x?} at {at:x}, limit {limit:x}, over {over:x}");
    t.compare(input, rattle::read_at_most(s, at, limit, over), rust, outcome);
}

/// Every two boundaries as number and limit; then random forms against random limits. A number above its limit is refused as the table's
/// order says, with each of the thirteen.
fn numbers_at_most(random: &mut Random) -> Tally {
    let mut t = Tally::new("numbers at most", &REFUSALS);
    for n in boundaries() {
        let mut s = rust::encoded(n.into());
        s.push(0);
        for limit in boundaries().into_iter().chain([239, 253, 4096, n]) {
            for over in [rust::OUT_OF_RANGE, rust::TOO_MANY] {
                compare_at_most(&mut t, &s, 0, limit, over);
            }
        }
        for at in places(s.len()) {
            (1..=13).for_each(|over| compare_at_most(&mut t, &s, at, n, over));
        }
    }
    for _ in 0..1_000_000 {
        let s: Vec<u8> = (0..random.below(SHORT + 1)).map(|_| random.group()).collect();
        let over = 1 + random.below(13) as u8;
        compare_at_most(&mut t, &s, random.below(s.len() + 2), random.number(), over);
    }
    t
}

fn raw_bytes(random: &mut Random) -> Tally {
    let mut t = Tally::new("raw bytes", &["read", "Cut"]);
    let memory: Vec<u8> = (0..5_000).map(|_| random.byte()).collect();
    let mut compare = |len: usize, at: usize, count: usize| {
        let rust = Answer::new(rust::read_bytes(&memory[..len], at, count));
        let outcome = rust.number as usize;
        let input = format_args!("{count:x} bytes at {at:x} of {len:x}");
        t.compare(input, rattle::read_bytes(&memory[..len], at, count), rust, outcome);
    };
    for len in 0..=SHORT {
        for at in places(len) {
            for count in places(len) {
                compare(len, at, count);
            }
        }
    }
    for _ in 0..500_000 {
        let len = random.below(memory.len() + 1);
        let at = random.below(len + 2);
        // around what is left after the place
        compare(len, at, (len + random.below(5)).saturating_sub(at + 2));
        compare(len, at, random.number() as usize);
    }
    t
}

/// A name of n bytes: labels of 63, the last of what is left.
fn long_name(n: usize) -> Vec<u8> {
    (1..=n).map(|k| if k % 64 == 0 { b'.' } else { b'x' }).collect()
}

fn random_label(random: &mut Random) -> Vec<u8> {
    let longest = if random.once_in(4) { 64 } else { 63 };
    let len = random.pick(&[1, 1, 2, 3, 5, 8, 13, 30, 62, 63, 63, longest]);
    let alphabet: &[u8] = if random.once_in(3) { b"0123456789" } else { b"azAZ09-_bcdefghQRSTUVWXY12345678" };
    (0..len).map(|_| random.pick(alphabet)).collect()
}

/// One to four labels, at times with a dot too many or too few, a trailing dot, or one byte spoiled.
fn random_name(random: &mut Random) -> Vec<u8> {
    let labels: Vec<Vec<u8>> = (0..=random.below(4)).map(|_| random_label(random)).collect();
    let mut name = labels.join(&b"."[..]);
    if random.once_in(3) {
        name.push(b'.');
    }
    if random.once_in(12) {
        name.insert(random.below(name.len() + 1), b'.');
    }
    if random.once_in(8) {
        let at = random.below(name.len());
        name[at] = random.byte();
    }
    name
}

fn compare_name(t: &mut Tally, s: &[u8]) {
    let rust = u8::from(rust::name_ok(s));
    t.compare(format_args!("\"{}\"", s.escape_ascii()), rattle::name_ok(s), rust, rust as usize);
}

/// Every slice of at most `left` bytes of an alphabet with each class of byte, and those beside the digits and letters.
fn name_short(t: &mut Tally, name: &mut Vec<u8>, left: usize) {
    compare_name(t, name);
    if left > 0 {
        for b in b".09aZ-_/:" {
            name.push(*b);
            name_short(t, name, left - 1);
            name.pop();
        }
    }
}

/// Every byte value at every place of some names.
fn name_bytes(t: &mut Tally) {
    let long = long_name(130);
    for name in [&b"a"[..], b"1", b"a.", b"a.b", b"1.2", b"1.2.", b"ab.cd.ef.", b"a.0x1", b"7.8.9a", &long] {
        for at in 0..name.len() {
            for b in 0..=u8::MAX {
                let mut spoiled = name.to_vec();
                spoiled[at] = b;
                compare_name(t, &spoiled);
            }
        }
    }
}

/// Labels around 63 bytes, of letters or of digits, at each place of up to three, with each kind of end.
fn name_labels(t: &mut Tally) {
    let lens = [0, 1, 2, 61, 62, 63, 64, 65, 126, 127];
    let label = |len: usize| [vec![b'x'; len], vec![b'5'; len]];
    let labels: Vec<Vec<u8>> = lens.into_iter().flat_map(label).collect();
    let mut ended = |name: &[u8]| {
        for end in [&b""[..], b".", b"..", b"...", b".1", b".1.", b".1a", b"\0"] {
            compare_name(t, &[name, end].concat());
        }
    };
    for a in &labels {
        ended(a);
        for b in &labels {
            ended(&[&a[..], b].join(&b"."[..]));
            for c in &labels {
                ended(&[&a[..], b, c].join(&b"."[..]));
            }
        }
    }
}

fn name_rule(random: &mut Random) -> Tally {
    let mut t = Tally::new("name rule", &["refused", "a name"]);
    name_short(&mut t, &mut Vec::new(), 6);
    name_bytes(&mut t);
    name_labels(&mut t);
    for _ in 0..500_000 {
        compare_name(&mut t, &random_name(random));
    }
    t
}

fn compare_name_read(t: &mut Tally, s: &[u8], at: usize) {
    for (whose, limit, rattle) in [("any", 253, rattle::read_name(s, at)), ("the origin's", 239, rattle::read_origin(s, at))] {
        let rust = Answer::new(rust::read_name(s, at, limit));
        let outcome = rust.number as usize;
        t.compare(format_args!("bytes {s:02x?} at {at:x}, {whose}"), rattle, rust, outcome);
    }
}

/// Lengths at the limits and far above them, before names that are whole, unlawful, cut short, and with more bytes after them.
fn name_read_lengths(t: &mut Tally) {
    let lens = [0, 1, 2, 63, 64, 127, 128, 238, 239, 240, 241, 252, 253, 254, 255, 256, 1 << 14, 1 << 32, 1 << 63];
    for len in lens.into_iter().chain(u64::MAX - 20..=u64::MAX) {
        let held = len.min(300) as usize;
        let name = long_name(held);
        let mut bad = name.clone();
        if let Some(last) = bad.last_mut() {
            *last = b'*';
        }
        for body in [name, bad, vec![b'8'; held]] {
            for lead in 0..3 {
                let s = [&[0x80, 0x80][..lead], &rust::encoded(len.into()), &body, b"x."].concat();
                for cut in [0, 1, 2, 3, body.len() + 1, body.len() + 2, s.len() - lead] {
                    compare_name_read(t, &s[..s.len() - cut], lead);
                }
            }
        }
    }
}

fn names_read(random: &mut Random) -> Tally {
    let mut t = Tally::new("names read", &["read", "Cut", "BadNumber", "", "BadName", "TooMany"]);
    name_read_lengths(&mut t);
    for at in places(3) {
        compare_name_read(&mut t, b"\x02ab", at);
    }
    for _ in 0..500_000 {
        let name = random_name(random);
        // a length that is one off, or a longer form of it, at times
        let len = (name.len() + random.pick(&[1, 1, 1, 1, 0, 2])).saturating_sub(1);
        let mut s = if random.once_in(10) { longer_form(len as u128, 1) } else { rust::encoded(len as u128) };
        s.extend(name);
        let end = if random.once_in(6) { random.below(s.len()) } else { s.len() };
        compare_name_read(&mut t, &s[..end], 0);
        compare_name_read(&mut t, &s[..end], random.below(s.len() + 1));
    }
    t
}

const MULTIPLIERS: [u32; 18] =
    [0, 1, 2, 3, 4, 5, 10, 255, 256, 257, 1625, 1626, 65_535, 65_536, 65_537, 1 << 31, u32::MAX - 1, u32::MAX];

fn in_progress() -> impl Iterator<Item = u64> {
    (0..=36).chain([1 << 31, (1 << 32) - 1, 1 << 32, (1 << 32) + 1, (1 << 32) + 2, 1 << 63, u64::MAX - 1, u64::MAX])
}

fn factors(random: &mut Random) -> Tally {
    let mut t = Tally::new("factors", &["exact", "at the cap"]);
    let mut compare = |multiplier: u32, n: u64| {
        let rust = rust::factor(multiplier, n);
        let input = format_args!("multiplier {multiplier:x}, in progress {n:x}");
        t.compare(input, rattle::factor(multiplier, n), rust, usize::from(rust == u32::MAX));
    };
    // every root of 2^32 lies here
    for multiplier in (0..=65_600).chain(MULTIPLIERS) {
        in_progress().for_each(|n| compare(multiplier, n));
    }
    for _ in 0..500_000 {
        compare(random.number() as u32, random.number());
        compare(random.number() as u32, random.below(40) as u64);
    }
    t
}

/// Delays at 0, at the largest, and around the last that a factor leaves below the cap.
fn delays_around(factor: u32) -> impl Iterator<Item = u64> {
    let last = u64::MAX / u64::from(factor.max(1));
    let around = (-3i64..=3).map(move |off| last.saturating_add_signed(off));
    [0, 1, 2, 250_000_000, u64::MAX / 2, u64::MAX - 1].into_iter().chain(around)
}

fn products(random: &mut Random) -> Tally {
    let mut t = Tally::new("products", &["exact", "at the cap"]);
    let mut compare = |delay: u64, factor: u32| {
        let rust = rust::product(delay, factor);
        let input = format_args!("delay {delay:x}, factor {factor:x}");
        t.compare(input, rattle::product(delay, factor), rust, usize::from(rust == u64::MAX));
    };
    for factor in (0..=1_000).chain(MULTIPLIERS) {
        delays_around(factor).for_each(|delay| compare(delay, factor));
    }
    for _ in 0..500_000 {
        let factor = random.number() as u32;
        compare(random.number(), factor);
        let last = u64::MAX / u64::from(factor.max(1));
        compare(last.saturating_add(random.below(2) as u64), factor);
    }
    t
}

fn delays(random: &mut Random) -> Tally {
    let mut t = Tally::new("delays", &["exact", "at the cap"]);
    let mut compare = |delay: u64, multiplier: u32, n: u64| {
        let rust = rust::attempt_delay(delay, multiplier, n);
        let input = format_args!("delay {delay:x}, multiplier {multiplier:x}, in progress {n:x}");
        t.compare(input, rattle::attempt_delay(delay, multiplier, n), rust, usize::from(rust == u64::MAX));
    };
    for multiplier in (0..=300).chain(MULTIPLIERS) {
        for n in in_progress() {
            delays_around(rust::factor(multiplier, n)).for_each(|delay| compare(delay, multiplier, n));
        }
    }
    for _ in 0..500_000 {
        compare(random.number(), random.number() as u32, random.number());
        compare(random.number(), random.number() as u32, random.below(40) as u64);
    }
    t
}

fn ids(random: &mut Random) -> Tally {
    let mut t = Tally::new("ids", &["first", "0 again", "next"]);
    t.compare(format_args!("the first"), rattle::first_id(), 0, 0);
    let some: Vec<u64> = (0..1_000_000).map(|_| random.number()).collect();
    for id in boundaries().into_iter().chain(some) {
        let next = rust::next_id(id);
        let rust = Answer::new(Ok([id, next]));
        t.compare(format_args!("{id:x} is next"), rattle::next_id(id), rust, 1 + usize::from(next != 0));
    }
    t
}

fn compare_all(random: &mut Random) {
    let kinds: [tally::Kind; 12] = [
        numbers_read,
        number_lengths,
        numbers_written,
        bytes_put,
        numbers_at_most,
        raw_bytes,
        name_rule,
        names_read,
        factors,
        products,
        delays,
        ids,
    ];
    tally::run("leaves", &kinds, random);
}

type Call = (u64, u32, u64);

/// The delay as a Rust author would write it, with `connection_attempt_delay`'s own `checked_pow`.
#[inline(never)]
fn natural_delay(delay: u64, multiplier: u32, in_progress: u64) -> u64 {
    let exponent = u32::try_from(in_progress).unwrap_or(u32::MAX).saturating_sub(1);
    let factor = multiplier.max(1).checked_pow(exponent).unwrap_or(u32::MAX);
    delay.saturating_mul(factor.into())
}

/// The nanoseconds of a call, and the sum of the answers.
fn timed(calls: &[Call], delay: impl Fn(u64, u32, u64) -> u64) -> (f64, u64) {
    let start = Instant::now();
    let sum = calls.iter().fold(0u64, |sum, (d, m, n)| sum.wrapping_add(delay(*d, *m, *n)));
    (start.elapsed().as_nanos() as f64 / calls.len() as f64, black_box(sum))
}

/// The fastest of many batches of each side in turn, so that noise of the machine falls on both.
fn speed_of(title: &str, calls: &[Call]) {
    let (mut rattle, mut rust) = (f64::MAX, f64::MAX);
    for _ in 0..2_000 {
        let (ours, ours_sum) = timed(black_box(calls), rattle::attempt_delay);
        let (theirs, theirs_sum) = timed(black_box(calls), natural_delay);
        assert_eq!(ours_sum, theirs_sum, "{title}");
        rattle = rattle.min(ours);
        rust = rust.min(theirs);
    }
    println!("{title:46} Rattle {rattle:6.2} ns, Rust {rust:6.2} ns, ratio {:.2}", rattle / rust);
}

fn speed(random: &mut Random) {
    let usual: Vec<Call> = (0..4096).map(|_| (250_000_000, 1 + random.below(3) as u32, random.below(8) as u64)).collect();
    let mixed: Vec<Call> = (0..4096)
        .map(|_| {
            (random.number(), random.number() as u32, if random.once_in(4) { random.number() } else { random.below(36) as u64 })
        })
        .collect();
    speed_of("usual: 250 ms, multiplier 1 to 3, 0 to 7", &usual);
    speed_of("mixed: any delay and multiplier", &mixed);
    for (multiplier, n) in [(1, 1), (2, 32), (2, 33), (3, 21), (1, u64::MAX), (2, u64::MAX)] {
        speed_of(&format!("multiplier {multiplier}, in progress {n}"), &[(250_000_000, multiplier, n); 4096]);
    }
}

fn main() {
    run::run(compare_all, speed);
}
