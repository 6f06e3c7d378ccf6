//! The mount protocol and the port mapper: what a call is answered with, and export lists, walked, written and compared.
use super::{word_at, Fault, Model};
use crate::answers::{Asked, Call, Choice, Piece, Refusal, BOUND, LONG_PATH};
use crate::shapes::{kind, Reading, Shape, MNTPATHLEN};
use crate::values::Walk;

const PORT_MAPPER: u32 = 100_000;
const MOUNT: u32 = 100_005;

/// The version of each program that is served.
const PORT_MAPPER_VERSION: u32 = 2;
const MOUNT_VERSION: u32 = 3;

/// What follows the xid in prog_mismatch_reply_message before the versions, in make_success_reply and in
/// proc_unavail_reply_message.
const ANOTHER_VERSION: [u32; 5] = [1, 0, 0, 0, 2];
const SUCCESS: [u32; 5] = [1, 0, 0, 0, 0];
const PROCEDURE_UNAVAILABLE: [u32; 5] = [1, 0, 0, 0, 3];

/// An export list whose paths have any length, an entry of it behind its flag, and what may stand at a place of a list.
const UNBOUNDED_ENTRY: Shape = Shape::Record(&[&Shape::Opaque, &Shape::Chain(&Shape::Opaque)]);
const UNBOUNDED: Shape = Shape::Chain(&UNBOUNDED_ENTRY);
const ENTRY: Shape = Shape::Record(&[&Shape::Path, &Shape::Chain(&Shape::Opaque)]);
const NEXT_EXPORT: Shape = Shape::Optional(&ENTRY);
const NEXT_GROUP: Shape = Shape::Optional(&Shape::Opaque);

/// Which call a procedure is that is handed on.
#[derive(Clone, Copy, PartialEq, Eq)]
enum Procedure {
    Mnt,
    Umnt,
    Export,
    Getport,
}

impl Model {
    /// Answers a message in the crate's reading. A reply is written to the start of `out`; nothing else in it is touched.
    pub fn ask(self, message: &[u8], seen: bool, out: &mut [u8]) -> Asked {
        let choice = self.choose(Reading::Crate, message, seen, out).choice;
        let Choice::HandOver { program, version, procedure, arguments, auth_unix } = choice else { return choice.into() };
        let served = match program {
            PORT_MAPPER => PORT_MAPPER_VERSION,
            MOUNT => MOUNT_VERSION,
            _ => return choice.into(),
        };
        let is_null = procedure == 0;
        if version != served && !(is_null && self.has(Fault::NullBeforeVersion)) {
            let named = if self.has(Fault::MismatchNamesThree) { MOUNT_VERSION } else { served };
            let lowest = if self.has(Fault::MismatchLowOne) { 1 } else { named };
            return self.replied(message, &[&ANOTHER_VERSION[..], &[lowest, named]].concat(), out);
        }
        if is_null {
            return self.replied(message, &SUCCESS, out);
        }
        let Some(procedure) = self.procedure(program, procedure) else {
            return self.replied(message, &PROCEDURE_UNAVAILABLE, out);
        };
        if self.has(Fault::RoomForCalls) && out.len() < 24 {
            return Asked::Refused(Refusal::plain(5));
        }
        match self.called(procedure, message, arguments) {
            Ok((call, next)) => Asked::Call { call, next, auth_unix: auth_unix.filter(|_| !self.has(Fault::CallerDropped)) },
            Err(refusal) => Asked::Refused(refusal),
        }
    }

    /// The procedures that are handed on.
    fn procedure(self, program: u32, number: u32) -> Option<Procedure> {
        match (program, number) {
            (MOUNT, 1) => Some(Procedure::Mnt),
            (MOUNT, 2) if self.has(Fault::DumpAsMnt) => Some(Procedure::Mnt),
            (MOUNT, 3) if self.has(Fault::UmntAsMnt) => Some(Procedure::Mnt),
            (MOUNT, 3) => Some(Procedure::Umnt),
            (MOUNT, 4) if self.has(Fault::UmntAllAsUmnt) => Some(Procedure::Umnt),
            (MOUNT, 5) => Some(Procedure::Export),
            (PORT_MAPPER, 1) if self.has(Fault::SetAsGetport) => Some(Procedure::Getport),
            (PORT_MAPPER, 3) => Some(Procedure::Getport),
            _ => None,
        }
    }

    /// A call with its arguments, and the place behind them.
    fn called(self, procedure: Procedure, message: &[u8], arguments: usize) -> Result<(Call, usize), Refusal> {
        let read = |name: &str| {
            let kind = kind(name).expect("the kind is known");
            self.read(kind, message, arguments, &mut Vec::new()).answer.map(|took| took.next)
        };
        match procedure {
            Procedure::Export => Ok((Call::Export, arguments)),
            Procedure::Getport => {
                let next = read("mapping")?;
                Ok((Call::Getport([0, 4, 8, 12].map(|off| word_at(message, arguments + off))), next))
            },
            Procedure::Mnt | Procedure::Umnt => {
                let mut next = read("dirpath")?;
                let mut path = Piece { place: arguments + 4, count: word_at(message, arguments) as usize };
                if self.has(Fault::AskedNextPath) {
                    next = path.place + path.count;
                }
                if self.has(Fault::AskedPathLength) {
                    path.place = arguments;
                }
                Ok((if procedure == Procedure::Mnt { Call::Mnt(path) } else { Call::Umnt(path) }, next))
            },
        }
    }

    fn replied(self, message: &[u8], words: &[u32], out: &mut [u8]) -> Asked {
        let mut bytes = message[..4].to_vec();
        bytes.extend(words.iter().flat_map(|word| word.to_be_bytes()));
        match self.put(&bytes, out, 0) {
            Ok(length) => Asked::Reply(length),
            Err(unwritten) => Asked::Refused(Refusal::plain(unwritten.number)),
        }
    }

    /// All figures of what reads an export list, its next entry, or the next name of an entry.
    pub fn walk(self, walk: Walk, message: &[u8], at: usize) -> Result<Vec<u64>, Refusal> {
        let shape = match walk {
            Walk::Exports => &Shape::Chain(&ENTRY),
            Walk::Export => &NEXT_EXPORT,
            Walk::Group => &NEXT_GROUP,
        };
        let took = self.read_whole(shape, message, at, &mut Vec::new()).answer?;
        let mut figures = vec![took.next as u64, u64::from(took.plain)];
        let is_there = self.is_there(message, at);
        match walk {
            Walk::Exports => {
                let count = self.entries(message, at).len() + usize::from(self.has(Fault::CountOneOver));
                figures.extend([at as u64, count as u64]);
            },
            Walk::Export if is_there => {
                let Entry { path, mut groups, names, .. } = self.entry(message, at);
                if self.has(Fault::NamesPlace) && !names.is_empty() {
                    groups += 4;
                }
                let count = if self.has(Fault::NamesUncounted) { names.len().min(1) } else { names.len() };
                figures.extend([1, path.place, path.count, groups, count].map(|number| number as u64));
            },
            Walk::Group if is_there => {
                let name = piece_at(message, at + 4);
                figures.extend([1, name.place, name.count].map(|number| number as u64));
            },
            Walk::Export | Walk::Group if self.has(Fault::EndTold) => figures.extend([0, took.next as u64]),
            Walk::Export | Walk::Group => {},
        }
        figures.resize(walk.figures(), 0);
        Ok(figures)
    }

    /// What a path is written as; or 3 for the source, 4, and 10.
    pub fn written_path(self, source: &[u8], path: Piece) -> Result<Vec<u8>, u32> {
        let is_long = path.count > MNTPATHLEN;
        if source.len() > BOUND {
            return Err(3);
        }
        if is_long && self.has(Fault::LongBeforeOutside) {
            return Err(LONG_PATH);
        }
        if !self.is_inside(source, path.place, path.count) {
            return Err(4);
        }
        if is_long && !(path.count == MNTPATHLEN + 1 && self.has(Fault::PathOneMore)) {
            return Err(LONG_PATH);
        }
        let mut bytes = (path.count as u32).to_be_bytes().to_vec();
        bytes.extend_from_slice(&source[path.place..path.place + path.count]);
        bytes.resize(bytes.len().next_multiple_of(4), 0);
        Ok(bytes)
    }

    /// What an export list is written as, which is held as the place of its first flag and the count of its entries; or 3 for
    /// the source, 4, and 10.
    pub fn written_list(self, source: &[u8], list: Piece) -> Result<Vec<u8>, u32> {
        if source.len() > BOUND {
            return Err(3);
        }
        let mut bytes = Vec::new();
        let entries = self.held(source, list, &mut bytes)?;
        if entries.iter().any(|entry| entry.path.count > MNTPATHLEN) {
            return Err(LONG_PATH);
        }
        if self.has(Fault::ListWrittenAsIs) {
            let count = bytes.len();
            bytes.copy_from_slice(&source[list.place..list.place + count]);
        }
        Ok(bytes)
    }

    /// Whether two export lists are the same; or 3 for a source, 4, and 10.
    pub fn same(self, sources: [&[u8]; 2], lists: [Piece; 2]) -> Result<bool, u32> {
        if sources.iter().any(|source| source.len() > BOUND) {
            return Err(3);
        }
        let mut bytes = [Vec::new(), Vec::new()];
        let [first, second] = [0, 1].map(|index| self.held(sources[index], lists[index], &mut bytes[index]));
        let (first, second) = (first?, second?);
        let is_long = |entry: &Entry| entry.path.count > MNTPATHLEN;
        if first.iter().chain(&second).any(is_long) && !self.has(Fault::SameLongTaken) {
            return Err(LONG_PATH);
        }
        if self.has(Fault::SameByBytes) {
            let [first, second] = [0, 1].map(|index| &sources[index][lists[index].place..][..bytes[index].len()]);
            return Ok(first == second);
        }
        let has = |fault| self.has(fault);
        let content = |source: usize, piece: &Piece| &sources[source][piece.place..piece.place + piece.count];
        let is_same_name = |(first, second): (&Piece, &Piece)| {
            content(0, first) == content(1, second) || (has(Fault::SameLengths) && first.count == second.count)
        };
        let is_same = |(first, second): (&Entry, &Entry)| {
            let (names, others) = (&first.names, &second.names);
            let have_same_names = names.len() == others.len() && names.iter().zip(others).all(is_same_name);
            content(0, &first.path) == content(1, &second.path) && (have_same_names || has(Fault::SamePaths))
        };
        Ok(first.len() == second.len() && first.iter().zip(&second).all(is_same))
    }

    /// The entries of a list that reads with its count at its place, whatever the lengths of its paths; or 4. `bytes` is what
    /// it is written as.
    fn held(self, source: &[u8], list: Piece, bytes: &mut Vec<u8>) -> Result<Vec<Entry>, u32> {
        if list.place > source.len() {
            return Err(4);
        }
        if self.read_shape(&UNBOUNDED, source, list.place, bytes).answer.is_err() {
            return Err(4);
        }
        let entries = self.entries(source, list.place);
        let has_count = entries.len() + usize::from(self.has(Fault::CountOneOver)) == list.count;
        // A planted fault looks at the paths first.
        let is_long = self.has(Fault::LongBeforeOutside) && entries.iter().any(|entry| entry.path.count > MNTPATHLEN);
        if !has_count && !self.has(Fault::CountUncompared) {
            return Err(if is_long { LONG_PATH } else { 4 });
        }
        Ok(entries)
    }

    /// The entries of a list that was read at a place.
    fn entries(self, source: &[u8], mut at: usize) -> Vec<Entry> {
        let mut entries = Vec::new();
        while self.is_there(source, at) {
            let entry = self.entry(source, at);
            at = entry.next;
            entries.push(entry);
        }
        entries
    }

    /// The entry whose flag stands at a place.
    fn entry(self, source: &[u8], at: usize) -> Entry {
        let path = piece_at(source, at + 4);
        let groups = behind(path);
        let (mut at, mut names) = (groups, Vec::new());
        while self.is_there(source, at) {
            let name = piece_at(source, at + 4);
            at = behind(name);
            names.push(name);
        }
        Entry { path, groups, names, next: at + 4 }
    }

    fn is_there(self, source: &[u8], at: usize) -> bool {
        let flag = word_at(source, at);
        flag == 1 || (flag != 0 && !self.has(Fault::ChainFlagOne) && !self.has(Fault::FlagEqualsOne))
    }
}

/// An entry of an export list that was read.
struct Entry {
    path: Piece,
    /// The place of the first flag of its names.
    groups: usize,
    names: Vec<Piece>,
    /// The place behind it: that of the next flag.
    next: usize,
}

/// The content of the opaque whose length word stands at a place.
fn piece_at(source: &[u8], at: usize) -> Piece {
    Piece { place: at + 4, count: word_at(source, at) as usize }
}

/// The place behind its padding.
fn behind(piece: Piece) -> usize {
    piece.place + piece.count.next_multiple_of(4)
}
