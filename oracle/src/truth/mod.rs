//! What the answers must be. The crate is asked wherever it can tell; the rules of docs/SCOPE.md (the bound, places past
//! the end, room) stand in front of it; and the model fills in what the crate has no word for: the places of refusals and
//! of pieces, how many bytes are wanting, kinds that it lacks, and the current reading.
mod mounting;
mod values;

use nfsserve::{Handler, Records, Wire};

use crate::answers::{Choice, Marks, Refusal, Took, Unwritten, Wrote, BOUND, REPLY};
use crate::model::Model;
use crate::shapes::{kind, Reading, KINDS, LACKED, MOUNTING};
use crate::tally::Judged;
use crate::yielded::Yielded;

/// The crate allocates by the claimed length or count before it looks whether so much is there. Above this (and above
/// what the message holds) it is not asked, and the answer must be refusal 1.
const LARGEST_CLAIM: usize = 70_000;

/// Where the model and the crate differ, no place can be told, nor what is wanting; no answer has this one.
const NO_PLACE: usize = usize::MAX;

pub struct Truth {
    wire: Wire,
    /// For each kind its number in the crate's list, and none if the crate lacks it.
    in_crate: Vec<Option<usize>>,
    /// What the message last read is written as, where it was taken: by the crate, or by the model if the crate lacks the kind.
    pub rewriting: Vec<u8>,
    from_model: Vec<u8>,
    reply: Vec<u8>,
    sent: Vec<u8>,
    /// Who was asked about what was read.
    pub judged: Judged,
    /// Of the last message that was read and taken: the marks of its pieces, which the model alone has.
    pub marks: Marks,
}

impl Truth {
    pub fn new() -> Truth {
        Truth {
            wire: Wire::new().expect("a runtime and a pair of sockets can be made"),
            in_crate: in_crate(),
            rewriting: Vec::new(),
            from_model: Vec::new(),
            reply: Vec::new(),
            sent: Vec::new(),
            judged: Judged::default(),
            marks: Marks::default(),
        }
    }

    /// The answer to reading; `rewriting` then holds the rewriting.
    pub fn read(&mut self, kind: usize, source: &[u8], at: usize) -> Result<Took, Refusal> {
        let model = Model::FAULTLESS.read(kind, source, at, &mut self.from_model);
        self.marks = model.marks;
        if let Err(Refusal { number: 3 | 9, .. }) = model.answer {
            return model.answer;
        }
        let number = self.in_crate[kind];
        let is_mounting = MOUNTING.contains(&KINDS[kind].0);
        if number.is_none() && !is_mounting {
            self.judged.by_model += 1;
            std::mem::swap(&mut self.rewriting, &mut self.from_model);
            return model.answer.map(|took| self.took(source, at, took.next));
        }
        if too_large(model.claim, source) {
            self.judged.unasked += 1;
            return Err(placed(nfsserve::Reading::Short, model.answer.err()));
        }
        let Some(number) = number else { return self.read_by_items(kind, source, at, model.answer) };
        self.judged.by_crate += 1;
        match nfsserve::read(number, &source[at..], &mut self.rewriting) {
            nfsserve::Reading::Took(used) => Ok(self.took(source, at, at + used)),
            refused => Err(placed(refused, model.answer.err())),
        }
    }

    /// What was taken, from one place to the next; `rewriting` holds what it is written as.
    fn took(&self, source: &[u8], at: usize, next: usize) -> Took {
        assert!(self.rewriting.len() <= (next - at).max(40), "a rewriting is not longer than that");
        Took { next, plain: source[at..next] == self.rewriting, length: self.rewriting.len() }
    }

    /// The answer of the choice of program, and what it leaves in `out`.
    pub fn choose(&mut self, reading: Reading, message: &[u8], seen: bool, out: &mut [u8]) -> Choice {
        match reading {
            Reading::Crate => self.choose_by_crate(message, seen, out),
            // The crate has no such choice.
            Reading::Current => {
                self.judged.by_model += 1;
                Model::FAULTLESS.choose(reading, message, seen, out).choice
            },
        }
    }

    fn choose_by_crate(&mut self, message: &[u8], seen: bool, out: &mut [u8]) -> Choice {
        let model = Model::FAULTLESS.choose(Reading::Crate, message, seen, &mut []);
        let refusal = match model.choice {
            Choice::Refused(refusal) => Some(refusal),
            _ => None,
        };
        if message.len() > BOUND {
            return model.choice;
        }
        if too_large(model.claim, message) {
            self.judged.unasked += 1;
            return Choice::Refused(placed(nfsserve::Reading::Short, refusal));
        }
        self.judged.by_crate += 1;
        let choice = self.wire.choose(message, seen, &mut self.reply);
        let replied = matches!(choice, nfsserve::Choice::Replied);
        assert_eq!(replied, !self.reply.is_empty(), "the crate writes exactly if it replies");
        match choice {
            nfsserve::Choice::HandedOver(noted) => {
                let program = match noted.handler {
                    Handler::Nfs => 100_003,
                    Handler::Portmap => 100_000,
                    Handler::Mount => 100_005,
                };
                assert_eq!(noted.program, program, "each handler has its program");
                Choice::HandOver {
                    program,
                    version: noted.version,
                    procedure: noted.procedure,
                    arguments: message.len() - noted.left,
                    auth_unix: noted.auth_unix.map(|bytes| values::auth_unix(&bytes, message, &model.choice)),
                }
            },
            nfsserve::Choice::Replied if out.len() < REPLY => Choice::Refused(Refusal::plain(5)),
            nfsserve::Choice::Replied => {
                out[..REPLY].copy_from_slice(&self.reply);
                Choice::Reply
            },
            nfsserve::Choice::Silent => Choice::Silence,
            nfsserve::Choice::NotACall => Choice::Refused(Refusal::plain(8)),
            nfsserve::Choice::Refused(refused) => Choice::Refused(placed(refused, refusal)),
        }
    }

    /// The answer of `write_fragment`, and what it leaves in `out`.
    pub fn fragment(&mut self, message: &[u8], out: &mut [u8], start: usize) -> Wrote {
        if start > out.len() {
            return Err(Unwritten::plain(9));
        }
        if message.len() > BOUND {
            return Err(Unwritten::plain(3));
        }
        self.wire.fragment(message, &mut self.sent);
        put(&self.sent, out, start)
    }

    /// The records of a stream, as far as its fragments fit into a buffer of that capacity, and the place of the header
    /// of the first that doesn't. The crate has no capacity: it is asked only for what stands before.
    pub fn records(&self, stream: &[u8], capacity: usize) -> (Records, Option<usize>) {
        let too_long = first_too_long(stream, capacity);
        (self.wire.records(&stream[..too_long.unwrap_or(stream.len())]), too_long)
    }

    /// What a stream must yield, however it is cut: the crate reads it whole. All of it is used, or all up to and with the
    /// header of a fragment that does not fit.
    pub fn yielded(&self, stream: &[u8], capacity: usize) -> Yielded {
        let (records, too_long) = self.records(stream, capacity);
        let refused = too_long.map(|header| (7, header + 4));
        Yielded { records: records.complete, refused, used: refused.map_or(stream.len(), |(_, after)| after) }
    }
}

/// For each kind its number in the crate's list. The crate must have all kinds, in the same order, but for those that it is
/// known to lack: none of the others may pass without it.
fn in_crate() -> Vec<Option<usize>> {
    let names = || KINDS.iter().map(|(name, _)| *name);
    let had = names().filter(|name| !LACKED.contains(name));
    assert!(had.eq(nfsserve::KINDS.iter().copied()), "the crate has the kinds that it does not lack, in the same order");
    assert!(LACKED.iter().all(|name| kind(name).is_some()), "what the crate lacks are kinds");
    assert!(MOUNTING.iter().all(|name| LACKED.contains(name)), "what is asked item by item is not in its list");
    names().map(|name| nfsserve::KINDS.iter().position(|had| *had == name)).collect()
}

/// Bytes of the crate, put into a buffer from a place inside it on, if they fit.
fn put(bytes: &[u8], out: &mut [u8], start: usize) -> Wrote {
    let next = start + bytes.len();
    let place = out.get_mut(start..next).ok_or(Unwritten::no_room(bytes.len()))?;
    place.copy_from_slice(bytes);
    Ok(next)
}

fn too_large(claim: u32, source: &[u8]) -> bool {
    claim as usize > LARGEST_CLAIM.max(source.len())
}

/// The crate's refusal, with the place and the count that the model has for it. A model that refuses otherwise gives none.
fn placed(refused: nfsserve::Reading, model: Option<Refusal>) -> Refusal {
    let number = match refused {
        nfsserve::Reading::Short => 1,
        nfsserve::Reading::Undeclared => 2,
        other => panic!("docs/SCOPE.md has no refusal for the crate's answer {other:?}"),
    };
    let nowhere = Refusal { number, place: NO_PLACE, wanting: NO_PLACE as u64 };
    model.filter(|refusal| refusal.number == number).unwrap_or(nowhere)
}

/// The place of the first header whose fragment doesn't fit behind what its record has before it.
fn first_too_long(stream: &[u8], capacity: usize) -> Option<usize> {
    let (mut at, mut placed) = (0, 0);
    while let Some(header) = stream.get(at..).and_then(|rest| rest.first_chunk()) {
        let header = u32::from_be_bytes(*header);
        let length = (header & 0x7FFF_FFFF) as usize;
        if length > capacity - placed {
            return Some(at);
        }
        at += 4 + length;
        placed = if header >> 31 == 1 { 0 } else { placed + length };
    }
    None
}
