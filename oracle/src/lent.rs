//! Memory lent to a function, and what a call leaves in it.
use std::fmt::{Display, Formatter, Result, Write};

use crate::answers::{Told, SHORT_LIST};
use crate::lines::hex;

/// What stands in a byte and in a figure before anything is written.
pub const EMPTY: u8 = 0xEE;
const UNTOUCHED: u64 = 0xEEEE_EEEE_EEEE_EEEE;

/// So many elements before and behind what is lent are looked at too.
const GUARD: usize = 8;

#[derive(Clone, Debug, PartialEq, Eq)]
pub struct Lent<T> {
    all: Vec<T>,
    empty: T,
}

impl<T: Copy + PartialEq> Lent<T> {
    fn new(empty: T, length: usize) -> Lent<T> {
        Lent { all: vec![empty; length + 2 * GUARD], empty }
    }

    /// The part that is lent.
    pub fn slice(&mut self) -> &mut [T] {
        let end = self.all.len() - GUARD;
        &mut self.all[GUARD..end]
    }

    pub fn get(&self) -> &[T] {
        &self.all[GUARD..self.all.len() - GUARD]
    }

    fn outside(&self) -> impl Iterator<Item = &T> {
        let (before, rest) = self.all.split_at(GUARD);
        before.iter().chain(&rest[rest.len() - GUARD..])
    }

    fn is_kept_outside(&self) -> bool {
        self.outside().all(|element| *element == self.empty)
    }
}

pub fn bytes(length: usize) -> Lent<u8> {
    Lent::new(EMPTY, length)
}

/// A list that begins with these numbers, as far as there is room.
pub fn list(numbers: &[u64], length: usize) -> Lent<u64> {
    let mut list = Lent::new(UNTOUCHED, length);
    let count = length.min(numbers.len());
    list.slice()[..count].copy_from_slice(&numbers[..count]);
    list
}

/// The answer of a call, and all that was lent to it to be written: the output or record buffer, the figures, the state.
#[derive(Clone, Debug, PartialEq, Eq)]
pub struct Left {
    pub answer: u32,
    pub out: Lent<u8>,
    pub info: Lent<u64>,
    pub state: Lent<u64>,
}

impl Left {
    /// Before a call with an output buffer and a list of figures of these lengths.
    pub fn new(room: usize, info: usize) -> Left {
        Left { answer: SHORT_LIST, out: bytes(room), info: list(&[], info), state: list(&[], 0) }
    }

    /// The answer, and the figures at the front of their list.
    pub fn tell(&mut self, told: &Told) {
        self.answer = told.answer;
        self.info.slice()[..told.figures.len()].copy_from_slice(&told.figures);
    }

    /// The state, if one was lent, and the buffer; and whether all around is as it was.
    pub fn standing(&self) -> String {
        let mut text = String::new();
        if !self.state.get().is_empty() {
            text += &format!("; state{}", figures(&self.state));
        }
        text += &format!("; buffer {}", hex(self.out.get()));
        if !(self.out.is_kept_outside() && self.info.is_kept_outside() && self.state.is_kept_outside()) {
            text += "; and something outside of what was lent";
        }
        text
    }
}

impl Display for Left {
    fn fmt(&self, f: &mut Formatter<'_>) -> Result {
        write!(f, "{}; figures{}{}", self.answer, figures(&self.info), self.standing())
    }
}

/// `-` stands for a figure that was not touched.
fn figures(list: &Lent<u64>) -> String {
    list.get().iter().fold(String::new(), |mut text, figure| {
        if *figure == UNTOUCHED {
            text += " -";
        } else {
            write!(text, " {figure}").expect("a string can be written");
        }
        text
    })
}
