//! The model in the library's place: the functions of include/yugerzat.h, with slices for addresses and lengths.
use super::reading::Read;
use super::{Fault, Model};
use crate::answers::{
    Choice, Fed, Piece, Refusal, State, Told, Unwritten, Wrote, ASK_FIGURES, CHOOSE_FIGURES, FEED_FIGURES, LAST_REFUSAL,
    LONG_PATH, MARKS_FIGURES, PART_FIGURES, READ_FIGURES, REPLY, SAME_FIGURES, SHORT_LIST, STATE_FIGURES, WIDE_NUMBER,
    WRITE_FIGURES,
};
use crate::shapes::{Reading, KINDS};
use crate::values::{Value, Walk, Writer};

impl Model {
    pub fn exported_rewrite(self, kind: u32, message: &[u8], at: usize, out: &mut [u8], info: &mut [u64]) -> u32 {
        if info.len() < READ_FIGURES {
            return self.short_list(info);
        }
        if kind as usize >= KINDS.len() {
            return self.unknown_kind(Fault::UnknownUntouched, READ_FIGURES, info);
        }
        let mut rewriting = Vec::new();
        let answer = self.read(kind as usize, message, at, &mut rewriting).answer;
        if answer.is_ok() {
            // Where there is no room, what is told says so.
            let _ = self.put(&rewriting, out, 0);
        }
        let mut told = Told::rewritten(&answer, out.len());
        if told.answer == 5 {
            if self.has(Fault::NoRoomNext) {
                told.figures[0] = answer.map_or(0, |took| took.next as u64);
            }
            if self.has(Fault::NeededFirst) {
                told.figures.swap(0, 2);
            }
            told.figures[2] -= u64::from(self.has(Fault::NeededLess));
        }
        self.tell(told, info)
    }

    pub fn exported_judge(self, kind: u32, message: &[u8], at: usize, info: &mut [u64]) -> u32 {
        if info.len() < READ_FIGURES {
            return self.short_list(info);
        }
        if kind as usize >= KINDS.len() {
            return self.unknown_kind(Fault::JudgeUntouched, READ_FIGURES, info);
        }
        let mut read = self.read(kind as usize, message, at, &mut Vec::new());
        if let Ok(took) = &mut read.answer {
            if self.has(Fault::JudgeNoPad) {
                took.length -= read.pad;
            }
            if self.has(Fault::JudgeSizeRead) {
                took.length = took.next - at;
            }
            took.plain |= self.has(Fault::JudgePlain);
        }
        self.tell(Told::judged(&read.answer), info)
    }

    pub fn exported_marks(self, kind: u32, message: &[u8], at: usize, info: &mut [u64]) -> u32 {
        if info.len() < MARKS_FIGURES {
            return self.short_list(info);
        }
        if kind as usize >= KINDS.len() {
            return self.unknown_kind(Fault::MarksUntouched, MARKS_FIGURES, info);
        }
        let Read { answer, mut marks, .. } = self.read(kind as usize, message, at, &mut Vec::new());
        if self.has(Fault::MarkCrossed) && marks.pieces == 2 {
            marks.clean.swap(0, 1);
        }
        if self.has(Fault::MarkPlain) {
            let plain = answer.is_ok_and(|took| took.plain);
            marks.clean.iter_mut().for_each(|clean| *clean &= plain);
        }
        self.tell(Told::marked(&answer, &marks), info)
    }

    fn unknown_kind(self, untouched: Fault, figures: usize, info: &mut [u64]) -> u32 {
        let mut told = Told::unknown_kind(figures);
        if self.has(untouched) {
            told.figures.clear();
        }
        self.tell(told, info)
    }

    pub fn exported_value(self, value: Value, message: &[u8], at: usize, info: &mut [u64]) -> u32 {
        if info.len() < value.figures() {
            return self.short_list(info);
        }
        self.tell_value(value, self.value(value, message, at).answer, info)
    }

    pub fn exported_auth_unix(self, message: &[u8], at: usize, count: usize, info: &mut [u64]) -> u32 {
        if info.len() < Value::AuthUnix.figures() {
            return self.short_list(info);
        }
        self.tell_value(Value::AuthUnix, self.auth_unix_in(message, at, count).answer, info)
    }

    fn tell_value(self, value: Value, answer: Result<Vec<u64>, Refusal>, info: &mut [u64]) -> u32 {
        let told = answer.map_or_else(|refusal| Told::refused(&refusal, value.figures()), Told::done);
        self.tell(told, info)
    }

    pub fn exported_write(
        self,
        writer: Writer,
        sources: [&[u8]; 2],
        fields: &[u64],
        out: &mut [u8],
        start: usize,
        info: &mut [u64],
    ) -> u32 {
        if fields.len() < writer.fields() || info.len() < WRITE_FIGURES {
            return self.short_list(info);
        }
        let written = self.written(writer, sources, fields);
        let mut wrote = match written {
            Err(WIDE_NUMBER) => Err(Unwritten::plain(WIDE_NUMBER)),
            _ if start > out.len() => Err(Unwritten::plain(9)),
            Err(_) if self.has(Fault::RoomBeforePiece) && out.len() - start < 8 => Err(Unwritten::no_room(8)),
            Err(number) => Err(Unwritten::plain(number)),
            Ok(bytes) => self.put(&bytes, out, start),
        };
        if let Err(Unwritten { number: 5, needed }) = &mut wrote {
            *needed -= usize::from(self.has(Fault::WriterNeedsLess));
            *needed += if self.has(Fault::NeededFromZero) { start } else { 0 };
        }
        self.tell_wrote(&wrote, info)
    }

    pub fn exported_part(self, message: &[u8], at: usize, count: usize, info: &mut [u64]) -> u32 {
        if info.len() < PART_FIGURES {
            return self.short_list(info);
        }
        let mut told = Told::part(self.is_inside(message, at, count), at, count);
        if told.answer == 4 && self.has(Fault::PartKept) {
            told.figures = vec![at as u64, count as u64];
        }
        self.tell(told, info)
    }

    pub fn exported_feed(self, state: &mut [u64], run: &[u8], record: &mut [u8], info: &mut [u64]) -> u32 {
        let (Some(numbers), true) = (state.first_chunk_mut::<STATE_FIGURES>(), info.len() >= FEED_FIGURES) else {
            return self.short_list(info);
        };
        let mut standing = State::of(*numbers);
        let fed = self.feed(&mut standing, run, record);
        let mut after = standing.numbers();
        if self.has(Fault::YesKept) && after[5] == 1 {
            after[5] = numbers[5].max(1);
        }
        if self.has(Fault::MisfitCleared) && matches!(fed, Fed::Refused { number: 6, .. }) {
            after = State::fresh(after[0]).numbers();
        }
        *numbers = after;
        let mut told = Told::fed(&fed);
        if self.has(Fault::FedAsChosen) && told.answer > 9 {
            told.answer -= 3;
        }
        if self.has(Fault::MoreLength) && matches!(fed, Fed::More { .. }) {
            told.figures[1] = standing.placed;
        }
        self.tell(told, info)
    }

    pub fn exported_fragment(self, message: &[u8], out: &mut [u8], start: usize, info: &mut [u64]) -> u32 {
        if info.len() < WRITE_FIGURES {
            return self.short_list(info);
        }
        let mut wrote = self.fragment(message, out, start);
        if let (Err(Unwritten { number: 5, needed }), true) = (&mut wrote, self.has(Fault::FragmentNeedsMessage)) {
            *needed = message.len();
        }
        self.tell_wrote(&wrote, info)
    }

    pub fn exported_choose(self, reading: Reading, message: &[u8], seen: u32, out: &mut [u8], info: &mut [u64]) -> u32 {
        if info.len() < CHOOSE_FIGURES {
            return self.short_list(info);
        }
        let seen = if self.has(Fault::SeenIfOne) { seen == 1 } else { seen != 0 };
        let choice = self.choose(reading, message, seen, out).choice;
        let mut told = Told::chose(&choice);
        if self.has(Fault::SilenceTells) && choice == Choice::Silence {
            told.figures[0] = u64::from(super::word_at(message, 12));
        }
        if self.has(Fault::ChoiceNeeds) && told.answer == 5 {
            told.figures[0] = REPLY as u64;
        }
        if self.has(Fault::WantingNotChosen) && told.answer == 1 {
            told.figures[1] = 0;
        }
        self.tell(told, info)
    }

    pub fn exported_ask(self, message: &[u8], seen: u32, out: &mut [u8], info: &mut [u64]) -> u32 {
        if info.len() < ASK_FIGURES {
            return self.short_list(info);
        }
        let seen = if self.has(Fault::SeenIfOne) { seen == 1 } else { seen != 0 };
        let mut told = Told::asked(&self.ask(message, seen, out));
        if self.has(Fault::AskTellsNeeded) && told.answer == 5 {
            told.figures[0] = REPLY as u64;
        }
        self.tell(told, info)
    }

    pub fn exported_walk(self, walk: Walk, message: &[u8], at: usize, info: &mut [u64]) -> u32 {
        if info.len() < walk.figures() {
            return self.short_list(info);
        }
        let answer = self.walk(walk, message, at);
        self.tell(answer.map_or_else(|refusal| Told::refused(&refusal, walk.figures()), Told::done), info)
    }

    pub fn exported_write_path(self, source: &[u8], path: Piece, out: &mut [u8], start: usize, info: &mut [u64]) -> u32 {
        self.exported_mount_writer(self.written_path(source, path), out, start, info)
    }

    pub fn exported_write_list(self, source: &[u8], list: Piece, out: &mut [u8], start: usize, info: &mut [u64]) -> u32 {
        self.exported_mount_writer(self.written_list(source, list), out, start, info)
    }

    fn exported_mount_writer(self, written: Result<Vec<u8>, u32>, out: &mut [u8], start: usize, info: &mut [u64]) -> u32 {
        if info.len() < WRITE_FIGURES {
            return self.short_list(info);
        }
        let mut wrote = match written {
            _ if start > out.len() => Err(Unwritten::plain(9)),
            Err(LONG_PATH) if self.has(Fault::LongAfterRoom) && out.len() - start < 1_024 => Err(Unwritten::no_room(1_024)),
            Err(number) => Err(Unwritten::plain(number)),
            Ok(bytes) => self.put(&bytes, out, start),
        };
        if let Err(Unwritten { number: 5, needed }) = &mut wrote {
            *needed -= usize::from(self.has(Fault::WriterNeedsLess));
        }
        self.tell_wrote(&wrote, info)
    }

    pub fn exported_same(self, sources: [&[u8]; 2], lists: [Piece; 2], info: &mut [u64]) -> u32 {
        if info.len() < SAME_FIGURES {
            return self.short_list(info);
        }
        self.tell(Told::same(self.same(sources, lists)), info)
    }

    fn short_list(self, info: &mut [u64]) -> u32 {
        if let (true, Some(first)) = (self.has(Fault::ShortTouched), info.first_mut()) {
            *first = 0;
        }
        SHORT_LIST
    }

    fn tell_wrote(self, wrote: &Wrote, info: &mut [u64]) -> u32 {
        let mut told = Told::wrote(wrote);
        if self.has(Fault::WroteKept) && told.answer != 0 {
            told.figures.clear();
        }
        self.tell(told, info)
    }

    /// Puts the figures at the front of the list.
    fn tell(self, mut told: Told, info: &mut [u64]) -> u32 {
        if (1..=LAST_REFUSAL).contains(&told.answer) && told.figures.len() > 2 {
            if self.has(Fault::RefusedPlain) {
                told.figures[1] = 1;
            }
            if self.has(Fault::RefusedKept) {
                told.figures.truncate(1);
            }
            if self.has(Fault::PlaceAlways) && (3..LONG_PATH).contains(&told.answer) {
                told.figures[0] = u64::from(told.answer);
            }
            if let (true, Some(last)) = (self.has(Fault::RefusedLast), told.figures.last_mut()) {
                *last = 1;
            }
        }
        info[..told.figures.len()].copy_from_slice(&told.figures);
        if let (true, Some(beyond)) = (self.has(Fault::FigureBeyond), info.get_mut(told.figures.len())) {
            *beyond = 0;
        }
        told.answer
    }
}
