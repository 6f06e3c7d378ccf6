//! Reading a message of any kind, and writing it again.
use super::{word_at, Fault, Model};
use crate::answers::{Marks, Refusal, Took, BOUND};
use crate::shapes::{Reading, Shape, Undeclared, KINDS, MNTPATHLEN, MOUNTSTAT3, NFSSTAT3, NOTHING, TWO_WORDS};

/// How a reading went, and what lengths and counts the message claimed on the way.
#[derive(Clone, Copy, Debug)]
pub struct Read {
    pub answer: Result<Took, Refusal>,
    /// Of a message that was taken: the marks of its pieces.
    pub marks: Marks,
    /// The largest length or count met. The crate allocates by it before it looks whether the bytes are there.
    pub claim: u32,
    /// How many bytes of the rewriting are padding. Only a planted fault asks.
    #[cfg_attr(not(feature = "model"), allow(dead_code))]
    pub pad: usize,
}

impl Read {
    fn refused(number: u32) -> Read {
        Read { answer: Err(Refusal::plain(number)), marks: Marks::default(), claim: 0, pad: 0 }
    }
}

impl Model {
    /// Reads a message of the kind at a place. Its rewriting is put into `rewriting`.
    pub fn read(self, kind: usize, source: &[u8], at: usize, rewriting: &mut Vec<u8>) -> Read {
        self.read_whole(&KINDS[kind].1, source, at, rewriting)
    }

    /// Reads a message of the shape at a place of a source that is not yet known to be short enough.
    pub(super) fn read_whole(self, shape: &Shape, source: &[u8], at: usize, rewriting: &mut Vec<u8>) -> Read {
        rewriting.clear();
        let bound = if self.has(Fault::BoundOffByOne) { BOUND - 1 } else { BOUND };
        if source.len() > bound {
            return Read::refused(3);
        }
        if at > source.len() {
            return Read::refused(9);
        }
        self.read_shape(shape, source, at, rewriting)
    }

    /// The same without refusals 3 and 9. The end of `source` is the end of the message.
    pub(super) fn read_shape(self, shape: &Shape, source: &[u8], at: usize, rewriting: &mut Vec<u8>) -> Read {
        let mut reader = Reader {
            model: self,
            source,
            at,
            plain: true,
            marks: Marks::default(),
            chains: 0,
            chain_clean: true,
            claim: 0,
            pad: 0,
            long: None,
            rewriting,
        };
        let mut answer = reader.shape(shape);
        // A path over the bound comes after all other faults of the message.
        if let (Ok(()), Some(place)) = (answer, reader.long) {
            answer = Err(Refusal::long_path(place));
        }
        let took = Took { next: reader.at, plain: reader.plain, length: reader.rewriting.len() };
        Read { answer: answer.map(|()| took), marks: reader.marks, claim: reader.claim, pad: reader.pad }
    }
}

struct Reader<'a> {
    model: Model,
    source: &'a [u8],
    at: usize,
    plain: bool,
    marks: Marks,
    /// Inside how many chains the reader is, and whether all padding in the outermost was zero: that is one piece.
    chains: usize,
    chain_clean: bool,
    claim: u32,
    pad: usize,
    /// Where the length word of the first path over the bound stands.
    long: Option<usize>,
    rewriting: &'a mut Vec<u8>,
}

impl Reader<'_> {
    fn shape(&mut self, shape: &Shape) -> Result<(), Refusal> {
        match shape {
            Shape::Word => self.bytes(4),
            Shape::Eight if self.has_inside(Fault::VerifierCounted) => self.opaque(),
            Shape::Hyper | Shape::Eight => self.bytes(8),
            Shape::Flag => self.flag(self.has_inside(Fault::EofEqualsOne)).map(|_| ()),
            Shape::Opaque => self.opaque(),
            Shape::WordList => self.list(),
            Shape::Closed(declared) => self.closed(declared),
            Shape::Record(fields) => {
                let answer = fields.iter().try_for_each(|field| self.shape(field));
                answer.map_err(|refusal| self.passed_up(refusal))
            },
            Shape::Optional(value) => {
                if self.flag(false)? {
                    self.shape(value)?;
                }
                Ok(())
            },
            Shape::Union { arms, undeclared } => self.union(arms, undeclared),
            Shape::Status { of, ok, fail } => self.result(of, ok, fail),
            Shape::Path => self.path(),
            Shape::Chain(value) => self.chain(value),
        }
    }

    /// Whether a fault is planted that shows only where something stands before: in a field, and not in a kind of its own.
    fn has_inside(&self, fault: Fault) -> bool {
        self.model.has(fault) && !self.rewriting.is_empty()
    }

    /// The bytes that are there, from a place on.
    fn there(&self, at: usize) -> u64 {
        (self.source.len() - at) as u64
    }

    /// What a field is refused with is what its record is refused with.
    fn passed_up(&self, refusal: Refusal) -> Refusal {
        if self.model.has(Fault::WantingInWords) {
            return Refusal { wanting: refusal.wanting.next_multiple_of(4), ..refusal };
        }
        refusal
    }

    /// An item of `count` bytes: refusal 1 at its first byte if they are not all there.
    fn bytes(&mut self, count: usize) -> Result<(), Refusal> {
        let there = self.there(self.at);
        if there < count as u64 {
            return Err(Refusal::ended(self.at, count as u64 - there));
        }
        self.rewriting.extend_from_slice(&self.source[self.at..self.at + count]);
        self.at += count;
        Ok(())
    }

    /// A word that is read, but not yet written: what it is written as depends on it.
    fn number(&mut self) -> Result<u32, Refusal> {
        let number = self.peek()?;
        self.at += 4;
        Ok(number)
    }

    fn peek(&self) -> Result<u32, Refusal> {
        let there = self.there(self.at);
        if there < 4 {
            return Err(Refusal::ended(self.at, 4 - there));
        }
        Ok(word_at(self.source, self.at))
    }

    /// The length word that an opaque or a list begins with. Where it is cut, only its own rest is wanting.
    fn length(&mut self) -> Result<u32, Refusal> {
        let answer = self.peek();
        if let (Err(refusal), true) = (answer, self.model.has(Fault::WantingCutLength)) {
            let begun = self.source[self.at..].iter().fold(0, |number, byte| number * 256 + u64::from(*byte));
            return Err(Refusal { wanting: begun, ..refusal });
        }
        let length = answer?;
        self.claim = self.claim.max(length);
        Ok(length)
    }

    /// Refusal 1 of an opaque or a list that has its length word: so much content and pad should follow it.
    fn short(&self, content: u64, pad: u64) -> Refusal {
        let there = self.there(self.at + 4);
        let has = |fault| self.model.has(fault);
        let due = if has(Fault::WantingNoPad) { content } else { content + pad };
        let wanting = match due.saturating_sub(there) {
            // All of that word is there.
            _ if has(Fault::WantingLengthWord) => 0,
            _ if has(Fault::WantingLengthCounted) => due.saturating_sub(there + 4),
            wanting if has(Fault::WantingWraps) => wanting % (1 << 32),
            wanting => wanting,
        };
        Refusal::ended(self.at, wanting)
    }

    fn write(&mut self, number: u32) {
        self.rewriting.extend_from_slice(&number.to_be_bytes());
    }

    /// A flag; `equals_one` is what a planted fault takes for true.
    fn flag(&mut self, equals_one: bool) -> Result<bool, Refusal> {
        let number = self.number()?;
        let flag = if equals_one || self.model.has(Fault::FlagEqualsOne) { number == 1 } else { number != 0 };
        self.plain &= number == u32::from(flag);
        self.write(u32::from(flag));
        Ok(flag)
    }

    /// A piece whose padding was all zero, or not.
    fn piece(&mut self, clean: bool) {
        if self.chains == 0 {
            self.marks.push(clean);
        } else {
            self.chain_clean = clean && (self.chain_clean || self.model.has(Fault::MarkLast));
        }
    }

    fn opaque(&mut self) -> Result<(), Refusal> {
        let first = self.at;
        let length = self.length()?;
        // In 64 bits: a length near 2^32 must not wrap.
        let pad = (4 - u64::from(length) % 4) % 4;
        let mut bytes = u64::from(length) + pad;
        if self.model.has(Fault::LengthWraps) {
            bytes %= 1 << 32;
        }
        let short = Err(self.short(u64::from(length), pad));
        let content = first + 4;
        if self.there(content) < bytes {
            return short;
        }
        let next = content + bytes as usize;
        let end = next.min(content + length as usize);
        let dirty = self.source[end..next].iter().any(|b| *b != 0);
        if dirty && self.model.has(Fault::PadMustBeZero) {
            return short;
        }
        self.plain &= !dirty || self.model.has(Fault::PadUnseen);
        self.piece(!dirty || self.model.has(Fault::MarkUnseen));
        self.write(length);
        self.rewriting.extend_from_slice(&self.source[content..end]);
        self.rewriting.extend(std::iter::repeat_n(0, next - end));
        self.pad += next - end;
        self.at = if self.model.has(Fault::PadNotSkipped) { end } else { next };
        Ok(())
    }

    fn list(&mut self) -> Result<(), Refusal> {
        let first = self.at;
        let count = self.length()?;
        let there = self.there(first + 4);
        if there < 4 * u64::from(count) || (count > 16 && self.model.has(Fault::ListBounded)) {
            let mut refusal = self.short(4 * u64::from(count), 0);
            if self.model.has(Fault::PlaceOfWord) {
                refusal.place = first + 4 + there as usize / 4 * 4;
            }
            if self.model.has(Fault::WantingOneWord) {
                refusal.wanting = 4 - there % 4;
            }
            return Err(refusal);
        }
        self.bytes(4 + 4 * count as usize)?;
        if !self.model.has(Fault::WordsUnmarked) {
            self.piece(true);
        }
        Ok(())
    }

    fn closed(&mut self, declared: &[u32]) -> Result<(), Refusal> {
        let number = self.peek()?;
        if !self.is_declared(number, declared) {
            return Err(Refusal::undeclared(self.at));
        }
        self.bytes(4)
    }

    /// Whether a closed list has a number, with what planted faults add to it or take away. The lists are told by what they
    /// have: no two of these are alike.
    fn is_declared(&self, number: u32, declared: &[u32]) -> bool {
        let has = |fault, list: &[u32]| self.model.has(fault) && declared == list;
        let (older, current) = (Reading::Crate.auth_stats(), Reading::Current.auth_stats());
        match number {
            29 if has(Fault::EnumerationGap, NFSSTAT3) => true,
            _ if has(Fault::MountstatOfNfs, MOUNTSTAT3) => NFSSTAT3.contains(&number),
            3 if self.has_inside(Fault::StableThree) && declared == [0, 1, 2] => true,
            5 if has(Fault::AcceptStatFour, Reading::Current.accept_stats()) => false,
            15 if has(Fault::AuthFifteen, current) => true,
            0 if has(Fault::AuthZeroRefused, current) => false,
            6.. if has(Fault::AuthToFive, current) => false,
            _ if has(Fault::AuthAllInCrate, older) => current.contains(&number),
            _ => declared.contains(&number),
        }
    }

    fn union(&mut self, arms: &[(u32, &Shape)], undeclared: &Undeclared) -> Result<(), Refusal> {
        let first = self.at;
        let tag = self.number()?;
        if let Some((written, arm)) = self.arm(tag, arms) {
            self.write(written);
            return self.shape(arm);
        }
        let refusal = Err(Refusal::undeclared(first));
        let words: &[u32] = match undeclared {
            Undeclared::Refused if self.model.has(Fault::TimeTagTolerated) => &[0],
            Undeclared::Refused => return refusal,
            Undeclared::WrittenAs(words) if words.len() == 9 && self.model.has(Fault::TagTwoRefused) => return refusal,
            Undeclared::WrittenAs(words) => words,
        };
        self.plain = false;
        words.iter().for_each(|word| self.write(*word));
        // The pieces of the default are empty.
        let pieces = arms.iter().find(|(tag, _)| *tag == words[0]).map_or(0, |(_, arm)| arm.pieces());
        (0..pieces).for_each(|_| self.piece(!self.model.has(Fault::MarkStray)));
        Ok(())
    }

    /// What a tag is written as, and what it announces; none if it is not declared.
    fn arm<'a>(&self, tag: u32, arms: &[(u32, &'a Shape)]) -> Option<(u32, &'a Shape)> {
        // Of all unions only accept_body has as many arms as there are statuses: the planted faults are in it.
        let reading = Reading::BOTH.into_iter().find(|reading| reading.accept_stats().len() == arms.len());
        match (reading, tag) {
            (Some(Reading::Crate), 5) if self.model.has(Fault::SystemErrInCrate) => Some((5, &NOTHING)),
            (Some(Reading::Current), 5) if self.model.has(Fault::SystemErrGarbage) => None,
            (Some(Reading::Current), 5) if self.model.has(Fault::SystemErrBehind) => Some((5, &TWO_WORDS)),
            (Some(Reading::Current), 5) if self.model.has(Fault::SystemErrRewritten) => Some((4, &NOTHING)),
            (Some(Reading::Current), 6) if self.model.has(Fault::StatusSixPlain) => Some((6, &NOTHING)),
            _ => arms.iter().find(|(declared, _)| *declared == tag).copied(),
        }
    }

    /// The results of a call: a status that is declared, and what it announces.
    fn result(&mut self, declared: &[u32], ok: &Shape, fail: &Shape) -> Result<(), Refusal> {
        let model = self.model;
        let status = self.peek()?;
        if model.has(Fault::StatusOpen) {
            self.bytes(4)?;
        } else {
            let off = if model.has(Fault::StatusPlace) { 4 } else { 0 };
            self.closed(declared).map_err(|refusal| Refusal { place: refusal.place + off, ..refusal })?;
        }
        if status == 0 || model.has(Fault::FailureAsSuccess) {
            self.shape(ok)
        } else if model.has(Fault::FailureBare) {
            Ok(())
        } else {
            self.shape(fail)
        }
    }

    /// A path. One over the bound is read whole, as everything behind it is.
    fn path(&mut self) -> Result<(), Refusal> {
        let first = self.at;
        let bound = match () {
            () if self.model.has(Fault::PathOneMore) => MNTPATHLEN + 1,
            () if self.model.has(Fault::PathOneLess) => MNTPATHLEN - 1,
            () => MNTPATHLEN,
        };
        // Where it is cut, a planted fault looks at its length all the same.
        if self.model.has(Fault::LongAtOnce) && self.length()? as usize > bound {
            return Err(Refusal::long_path(first));
        }
        self.opaque()?;
        if word_at(self.source, first) as usize > bound {
            self.find_long(first);
        }
        Ok(())
    }

    fn find_long(&mut self, length_word: usize) {
        let place = match () {
            () if self.model.has(Fault::LongPlaceContent) => length_word + 4,
            () if self.model.has(Fault::LongPlaceFlag) => length_word.saturating_sub(4),
            () => length_word,
        };
        if self.long.is_none() || self.model.has(Fault::LastLong) {
            self.long = Some(place);
        }
    }

    /// Values behind true flags: a loop, so that a long list needs no stack.
    fn chain(&mut self, value: &Shape) -> Result<(), Refusal> {
        if self.chains == 0 {
            self.chain_clean = true;
        }
        self.chains += 1;
        while self.flag(self.model.has(Fault::ChainFlagOne))? {
            match value {
                Shape::Opaque => self.name()?,
                _ => self.shape(value)?,
            }
        }
        self.chains -= 1;
        if self.chains == 0 {
            self.piece(self.chain_clean);
        }
        Ok(())
    }

    /// A name in a list of names: an opaque. All else here is planted.
    fn name(&mut self) -> Result<(), Refusal> {
        let first = self.at;
        self.opaque()?;
        let length = word_at(self.source, first) as usize;
        if self.model.has(Fault::NameBounded) && length > 255 {
            self.find_long(first);
        }
        if self.model.has(Fault::NamePadKept) {
            let pad = length.next_multiple_of(4) - length;
            let end = self.rewriting.len();
            self.rewriting[end - pad..].copy_from_slice(&self.source[self.at - pad..self.at]);
        }
        Ok(())
    }
}
