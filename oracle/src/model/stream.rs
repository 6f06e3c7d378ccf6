//! Records from a stream, byte by byte as docs/SCOPE.md has the rules, and `write_fragment`.
use super::{Fault, Model};
use crate::answers::{Fed, State, BOUND};

/// The bit of a fragment header that says last.
const LAST: u64 = 1 << 31;

impl State {
    /// Whether refusal 6 is not due, with a record buffer of that length.
    fn fits(&self, buffer: usize) -> bool {
        self.capacity == buffer as u64
            && self.capacity <= BOUND as u64
            && self.placed <= self.capacity
            && self.left <= self.capacity - self.placed
            && self.count <= 3
            && self.value < 256_u64.pow(self.count as u32)
            && !(self.left != 0 && self.count != 0)
            && !(self.last && self.left == 0)
            && !(self.stopped && (self.left != 0 || self.last || self.count != 0))
    }
}

/// What one byte did.
enum Step {
    More,
    Complete,
    TooLong,
}

impl Model {
    /// Feeds a run of bytes to the assembler.
    pub fn feed(self, state: &mut State, run: &[u8], record: &mut [u8]) -> Fed {
        if !state.fits(record.len()) {
            return Fed::Refused { number: 6, used: 0 };
        }
        if state.stopped {
            return Fed::Refused { number: 7, used: run.len().min(usize::from(self.has(Fault::StopUses))) };
        }
        for (index, byte) in run.iter().enumerate() {
            let used = index + 1;
            match self.step(state, *byte, record) {
                Step::More => {},
                Step::Complete => {
                    let length = state.placed as usize;
                    *state = State::fresh(state.capacity);
                    return Fed::Complete { length, used };
                },
                Step::TooLong => {
                    *state = State { placed: state.placed, stopped: true, ..State::fresh(state.capacity) };
                    return Fed::Refused { number: 7, used };
                },
            }
        }
        self.forget(state, run);
        Fed::More { used: run.len() }
    }

    /// The state is all that is known when the next run comes. Only planted faults lose some of it at the end of a run.
    fn forget(self, state: &mut State, run: &[u8]) {
        if self.has(Fault::HeaderForgotten) {
            (state.count, state.value) = (0, 0);
        }
        if self.has(Fault::LeftForgotten) {
            (state.left, state.last) = (0, false);
        }
        if self.has(Fault::EmptyRunAnew) && run.is_empty() {
            *state = State::fresh(state.capacity);
        }
    }

    fn step(self, state: &mut State, byte: u8, record: &mut [u8]) -> Step {
        if state.left == 0 {
            state.count += 1;
            state.value = state.value * 256 + u64::from(byte);
            if state.count < 4 {
                return Step::More;
            }
            let length = state.value % LAST;
            let spare = u64::from(self.has(Fault::SumUnchecked));
            if state.placed + length > state.capacity + spare {
                return Step::TooLong;
            }
            let bit = if self.has(Fault::LastBit30) { LAST / 2 } else { LAST };
            *state = State { count: 0, value: 0, left: length, last: state.value & bit != 0, ..*state };
        } else {
            if let Some(place) = record.get_mut(state.placed as usize) {
                *place = byte;
            }
            state.placed += 1;
            state.left -= 1;
        }
        if state.left != 0 {
            return Step::More;
        }
        let complete = state.last && !(state.placed == 0 && self.has(Fault::CompleteLate));
        state.last = false;
        if complete {
            Step::Complete
        } else {
            Step::More
        }
    }

    /// `write_fragment` from a place of a larger buffer on. (Elsewhere the crate can tell all that is asked of it.)
    #[cfg(feature = "model")]
    pub fn fragment(self, message: &[u8], out: &mut [u8], start: usize) -> crate::answers::Wrote {
        use crate::answers::Unwritten;

        if start > out.len() {
            return Err(Unwritten::plain(9));
        }
        if message.len() > BOUND {
            return Err(Unwritten::plain(3));
        }
        let bit = if self.has(Fault::FragmentNotLast) { 0 } else { LAST as u32 };
        let mut bytes = (message.len() as u32 + bit).to_be_bytes().to_vec();
        bytes.extend_from_slice(message);
        self.put(&bytes, out, start)
    }
}
