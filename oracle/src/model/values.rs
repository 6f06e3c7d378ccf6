//! The figures of single values, as include/yugerzat.h lists them, and the bytes that are written for them.
use super::{word_at, Fault, Model};
use crate::answers::{Refusal, Took, BOUND, WIDE_NUMBER};
use crate::shapes::{kind, Reading, AUTH_UNIX};
use crate::values::{Value, Writer};

/// What a reading of one value gives: all figures of the function, and the largest length or count that was claimed.
pub struct ValueRead {
    pub answer: Result<Vec<u64>, Refusal>,
    pub claim: u32,
}

impl Model {
    /// Reads a value at a place of a message.
    pub fn value(self, value: Value, message: &[u8], at: usize) -> ValueRead {
        let kind = kind(value.kind()).expect("the kind is known");
        let read = self.read(kind, message, at, &mut Vec::new());
        let answer = read.answer.map(|took| self.figures(value, message, at, &took));
        ValueRead { answer, claim: read.claim }
    }

    /// Reads an `auth_unix` in a credential's body, whose end is the end. A body that is not inside is as an empty one.
    pub fn auth_unix_in(self, message: &[u8], at: usize, count: usize) -> ValueRead {
        if message.len() > BOUND {
            return ValueRead { answer: Err(Refusal::plain(3)), claim: 0 };
        }
        if !self.is_inside(message, at, count) {
            let wanting = if self.has(Fault::WantingOutside) { 0 } else { 4 };
            let refusal = if self.has(Fault::UnixOutside) { Refusal::plain(9) } else { Refusal::ended(0, wanting) };
            return ValueRead { answer: Err(refusal), claim: 0 };
        }
        let end = at + count;
        let read = self.read_shape(&AUTH_UNIX, &message[..end], at, &mut Vec::new());
        let mut answer = read.answer.map(|took| self.figures(Value::AuthUnix, message, at, &took));
        if let (Err(refusal), true) = (&mut answer, self.has(Fault::WantingOfMessage)) {
            refusal.wanting = refusal.wanting.saturating_sub((message.len() - end) as u64);
        }
        ValueRead { answer, claim: read.claim }
    }

    /// Whether a piece of bytes lies in a message. In 128 bits: the sum must not wrap.
    pub fn is_inside(self, message: &[u8], at: usize, count: usize) -> bool {
        if self.has(Fault::PartWraps) {
            return at.wrapping_add(count) <= message.len();
        }
        at as u128 + count as u128 <= message.len() as u128
    }

    /// The figures of a value that was read at a place.
    fn figures(self, value: Value, message: &[u8], at: usize, took: &Took) -> Vec<u64> {
        let plain = took.plain || (matches!(value, Value::Message(_)) && self.has(Fault::HeaderPlain));
        let mut taken = Taken { model: self, message, at, figures: vec![took.next as u64, u64::from(plain)] };
        match value {
            Value::Message(reading) => taken.message(reading),
            Value::AuthUnix => taken.auth_unix(at),
            Value::Fattr3 => taken.fattr3(),
            Value::Sattr3 => taken.sattr3(),
            Value::Diropargs3 => taken.diropargs3(),
        }
        taken.figures.resize(value.figures(), 0);
        taken.figures
    }

    /// What a writer makes of fields; or 253, 3 for a source, 4, and 3 for the bytes, in that order.
    pub fn written(self, writer: Writer, sources: [&[u8]; 2], fields: &[u64]) -> Result<Vec<u8>, u32> {
        let mut written = Written { model: self, sources, fields, at: 0, bytes: Vec::new(), wide: false, outside: false };
        match writer {
            Writer::Call => written.call(),
            Writer::Reply(reading) => written.reply(reading),
            Writer::AuthUnix => written.auth_unix(),
            Writer::Fattr3 => written.fattr3(),
            Writer::Sattr3 => written.sattr3(),
            Writer::Diropargs3 => written.diropargs3(),
        }
        let looked_at = if self.has(Fault::SecondTooLong) { writer.sources().min(1) } else { writer.sources() };
        if written.wide {
            Err(WIDE_NUMBER)
        } else if written.outside && self.has(Fault::PieceBeforeSource) {
            Err(4)
        } else if sources[..looked_at].iter().any(|source| source.len() > BOUND) {
            Err(3)
        } else if written.outside {
            Err(4)
        } else if written.bytes.len() > BOUND && !self.has(Fault::LongWritten) {
            Err(3)
        } else {
            Ok(written.bytes)
        }
    }
}

/// A value that was taken, gone through once more. (What a planted fault lets pass may end early: words are then 0.)
struct Taken<'a> {
    model: Model,
    message: &'a [u8],
    at: usize,
    figures: Vec<u64>,
}

impl Taken<'_> {
    fn word(&mut self) -> u64 {
        let word = word_at(self.message, self.at);
        self.at += 4;
        u64::from(word)
    }

    fn words(&mut self, count: usize) {
        for _ in 0..count {
            let word = self.word();
            self.figures.push(word);
        }
    }

    fn hyper(&mut self) {
        let number = self.word() << 32 | self.word();
        self.figures.push(number);
    }

    /// An opaque: place and count.
    fn piece(&mut self) {
        let count = self.word();
        self.figures.extend([self.at as u64, count]);
        self.at += (count as usize).next_multiple_of(4);
    }

    fn message(&mut self, reading: Reading) {
        self.words(1);
        match self.word() {
            0 => {
                self.figures.push(0);
                self.words(4);
                self.auth();
                self.auth();
                if self.model.has(Fault::VerifierPlace) {
                    self.figures[12] -= 4;
                }
            },
            1 => self.reply(reading),
            // A call of zeros, whose pieces are the empty ones at the start.
            _ if self.model.has(Fault::DefaultPlace) => {
                let at = self.at as u64;
                self.figures.extend([0, 0, 0, 0, 0, 0, at, 0, 0, at, 0]);
            },
            _ => {},
        }
    }

    fn auth(&mut self) {
        self.words(1);
        self.piece();
    }

    fn reply(&mut self, reading: Reading) {
        let tag = self.word();
        if tag == 1 {
            let reason = self.word();
            return if reason == 1 {
                self.figures.push(3);
                self.words(1);
            } else {
                self.figures.push(2);
                if reason == 0 {
                    self.words(2);
                }
            };
        }
        self.figures.push(1);
        if tag > 1 {
            return;
        }
        self.auth();
        let status = self.word();
        let is_told = self.model.has(Fault::AcceptStatKept) || is_in(status, self.accept_stats_told(reading));
        self.figures.push(if is_told { status } else { 4 });
        if status == 2 {
            self.words(2);
        }
    }

    /// The statuses that are told as they came. All others are told as GARBAGE_ARGS, 4.
    fn accept_stats_told(&self, reading: Reading) -> &'static [u32] {
        let other = match reading {
            Reading::Crate => self.model.has(Fault::CrateTellsFive),
            Reading::Current => self.model.has(Fault::CurrentTellsFour),
        };
        if other { reading.other() } else { reading }.accept_stats()
    }

    fn auth_unix(&mut self, body: usize) {
        self.words(1);
        self.piece();
        self.words(2);
        let count = self.word();
        let width = if self.model.has(Fault::GidsInBytes) { 4 } else { 1 };
        self.figures.extend([self.at as u64, count * width]);
        if self.model.has(Fault::UnixPlaceInBody) {
            self.figures[3] -= body as u64;
        }
    }

    fn fattr3(&mut self) {
        self.words(5);
        self.hyper();
        self.hyper();
        self.words(2);
        self.hyper();
        self.hyper();
        self.words(6);
        if self.model.has(Fault::TimesSwapped) {
            self.figures.swap(15, 17);
        }
    }

    fn sattr3(&mut self) {
        for _ in 0..3 {
            if self.flag() {
                self.words(1);
            } else {
                self.figures.push(0);
            }
        }
        if self.flag() {
            self.hyper();
        } else {
            self.figures.push(0);
        }
        for _ in 0..2 {
            let how = self.word();
            self.figures.push(how);
            if how == 2 {
                self.words(2);
            } else {
                let unset = if self.model.has(Fault::TimeUnset) { how } else { 0 };
                self.figures.extend([unset, 0]);
            }
        }
    }

    fn flag(&mut self) -> bool {
        let number = self.word();
        let is_set = number != 0;
        self.figures.push(if self.model.has(Fault::FlagKept) { number } else { u64::from(is_set) });
        is_set
    }

    fn diropargs3(&mut self) {
        self.piece();
        self.piece();
        if self.model.has(Fault::PiecesSwapped) {
            self.figures[2..].rotate_left(2);
        }
    }
}

/// Whether a field has one of these numbers.
fn is_in(number: u64, declared: &[u32]) -> bool {
    u32::try_from(number).is_ok_and(|number| declared.contains(&number))
}

/// Bytes that are written for fields; whether a number did not fit, and whether a piece was not inside.
struct Written<'a> {
    model: Model,
    sources: [&'a [u8]; 2],
    fields: &'a [u64],
    at: usize,
    bytes: Vec<u8>,
    wide: bool,
    outside: bool,
}

impl Written<'_> {
    fn next(&mut self) -> u64 {
        self.at += 1;
        self.fields[self.at - 1]
    }

    fn put(&mut self, number: u64) {
        self.wide |= number >> 32 != 0 && !self.model.has(Fault::WideCut);
        self.bytes.extend_from_slice(&(number as u32).to_be_bytes());
    }

    fn words(&mut self, count: usize) {
        for _ in 0..count {
            let number = self.next();
            self.put(number);
        }
    }

    fn hypers(&mut self, count: usize) {
        for _ in 0..count {
            let number = self.next();
            self.bytes.extend_from_slice(&number.to_be_bytes());
        }
    }

    /// A number of a closed enumeration.
    fn declared(&mut self, declared: &[u32]) {
        let number = self.next();
        self.wide |= !is_in(number, declared) && !self.model.has(Fault::UndeclaredWritten);
        self.put(number);
    }

    /// A piece of one of the sources, counted in items of so many bytes.
    fn piece(&mut self, source: usize, width: usize) {
        let (at, count) = (self.next() as usize, self.next() as usize);
        let (model, from) = (self.model, self.sources[source]);
        let wrapped = count.wrapping_mul(width);
        let length = if model.has(Fault::WordsWrap) { Some(wrapped) } else { count.checked_mul(width) };
        let tested = if model.has(Fault::GidsInsideInBytes) { Some(count) } else { length };
        let is_inside = |source| tested.is_some_and(|length| model.is_inside(source, at, length));
        let is_taken = is_inside(from) || (model.has(Fault::SecondOutside) && is_inside(self.sources[0]));
        if !is_taken {
            self.outside = true;
            return;
        }
        // What only a planted fault takes is written as far as it goes.
        let end = at.saturating_add(wrapped).min(from.len());
        let content = &from[at.min(end)..end];
        let told = if model.has(Fault::GidsWrittenInBytes) { wrapped } else { count };
        self.bytes.extend_from_slice(&(told as u32).to_be_bytes());
        self.bytes.extend_from_slice(content);
        let pad = if model.has(Fault::WritePadDirty) { 0xA5 } else { 0 };
        self.bytes.resize(self.bytes.len().next_multiple_of(4), pad);
    }

    /// The source of a writer's second piece.
    fn second_unless(&self, fault: Fault) -> usize {
        usize::from(!self.model.has(fault))
    }

    fn call(&mut self) {
        self.words(1);
        self.put(0);
        self.words(4);
        for source in [0, self.second_unless(Fault::VerifierFromFirst)] {
            self.declared(&[0, 1, 2, 3]);
            self.piece(source, 1);
        }
    }

    fn reply(&mut self, reading: Reading) {
        self.words(1);
        self.put(1);
        match self.next() {
            0 if self.model.has(Fault::ReplyTakesCall) => self.accepted(reading),
            1 => self.accepted(reading),
            2 => {
                self.put(1);
                self.put(0);
                self.words(2);
            },
            3 => {
                self.put(1);
                self.put(1);
                self.declared(match reading {
                    Reading::Crate if self.model.has(Fault::ReplyReasonSix) => &[1, 2, 3, 4, 5, 6],
                    Reading::Current if self.model.has(Fault::ReplyReasonFive) => Reading::Crate.auth_stats(),
                    _ => reading.auth_stats(),
                });
            },
            _ => self.wide = true,
        }
    }

    fn accepted(&mut self, reading: Reading) {
        self.put(0);
        self.declared(&[0, 1, 2, 3]);
        self.piece(0, 1);
        let status = self.fields[self.at];
        self.declared(match reading {
            Reading::Crate if self.model.has(Fault::ReplyTakesFive) => Reading::Current.accept_stats(),
            _ => reading.accept_stats(),
        });
        if status == 5 && reading == Reading::Current && self.model.has(Fault::SystemErrWrittenFour) {
            self.bytes.truncate(self.bytes.len() - 4);
            self.put(4);
        }
        if status == 2 {
            self.words(2);
        } else if status == 1 && self.model.has(Fault::ReplyLowAlways) {
            self.words(1);
        } else if self.model.has(Fault::ReplyUnusedLookedAt) {
            self.wide |= (self.next() | self.next()) >> 32 != 0;
        }
    }

    fn auth_unix(&mut self) {
        self.words(1);
        self.piece(0, 1);
        self.words(2);
        self.piece(self.second_unless(Fault::GidsFromFirst), 4);
    }

    fn diropargs3(&mut self) {
        self.piece(0, 1);
        self.piece(self.second_unless(Fault::NameFromFirst), 1);
    }

    fn fattr3(&mut self) {
        self.declared(&[1, 2, 3, 4, 5, 6, 7]);
        self.words(4);
        self.hypers(2);
        self.words(2);
        self.hypers(2);
        self.words(6);
        if self.model.has(Fault::WriteOrder) {
            // uid and gid.
            self.bytes[12..20].rotate_left(4);
        }
    }

    fn sattr3(&mut self) {
        for value in 0..4 {
            let flag = self.next();
            let is_set = if self.model.has(Fault::SetIfOne) { flag == 1 } else { flag != 0 };
            self.put(u64::from(is_set));
            match (is_set, value) {
                (true, 3) => self.hypers(1),
                (true, _) => self.words(1),
                (false, _) => {
                    let unset = self.next();
                    self.wide |= unset >> 32 != 0 && value < 3 && self.model.has(Fault::UnsetLookedAt);
                },
            }
        }
        for _ in 0..2 {
            let how = self.fields[self.at];
            self.declared(&[0, 1, 2]);
            if how == 2 {
                self.words(2);
            } else {
                self.at += 2;
            }
        }
    }
}
