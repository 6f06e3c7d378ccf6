//! How often each answer of each function was due: it shows that the cases reach all of them. And who was the judge.
use std::collections::{BTreeMap, BTreeSet};
use std::fmt::{Display, Formatter, Result};
use std::ops::AddAssign;

use crate::answers::Marks;

/// Who judged the messages that were read or chosen for.
#[derive(Clone, Copy, Default)]
pub struct Judged {
    pub by_crate: u64,
    /// The crate was not asked, because it would have allocated too much: refusal 1 was due.
    pub unasked: u64,
    /// The crate lacks the kind, but has its items, and judged each of them.
    pub by_items: u64,
    /// The crate lacks the kind, or the reading: the model alone judged.
    pub by_model: u64,
}

#[derive(Clone, Default)]
pub struct Tally {
    /// By function and answer.
    due: BTreeMap<(&'static str, u32), u64>,
    plain: u64,
    loose: u64,
    pub judged: Judged,
    /// What was cut at every byte, and how many counts of wanting bytes held in all.
    cut: BTreeSet<&'static str>,
    held: u64,
    /// Streams that were fed in two cuttings, and how many of them stopped.
    streams: u64,
    stopped: u64,
    /// Pieces of messages that were taken: those that are clean, and the others.
    clean: u64,
    dirty: u64,
    /// Export lists that were compared: those that are the same, and the others.
    same: u64,
    other: u64,
}

impl Tally {
    pub fn due(&mut self, function: &'static str, answer: u32) {
        *self.due.entry((function, answer)).or_default() += 1;
    }

    /// A message was taken.
    pub fn took(&mut self, plain: bool) {
        *(if plain { &mut self.plain } else { &mut self.loose }) += 1;
    }

    /// All cuts of a message were held against each other; so many of them had a count.
    pub fn cut(&mut self, name: &'static str, counts: usize) {
        self.cut.insert(name);
        self.held += counts as u64;
    }

    /// Two cuttings of a stream yielded the same.
    pub fn stream(&mut self, is_stopped: bool) {
        self.streams += 1;
        self.stopped += u64::from(is_stopped);
    }

    /// A message was taken that has these pieces.
    pub fn marks(&mut self, marks: &Marks) {
        for clean in marks.each() {
            *(if *clean { &mut self.clean } else { &mut self.dirty }) += 1;
        }
    }

    /// Two export lists were compared.
    pub fn compared(&mut self, is_same: bool) {
        *(if is_same { &mut self.same } else { &mut self.other }) += 1;
    }
}

impl AddAssign for Tally {
    fn add_assign(&mut self, other: Tally) {
        for (key, count) in other.due {
            *self.due.entry(key).or_default() += count;
        }
        self.plain += other.plain;
        self.loose += other.loose;
        self.judged.by_crate += other.judged.by_crate;
        self.judged.unasked += other.judged.unasked;
        self.judged.by_items += other.judged.by_items;
        self.judged.by_model += other.judged.by_model;
        self.cut.extend(other.cut);
        self.held += other.held;
        self.streams += other.streams;
        self.stopped += other.stopped;
        self.clean += other.clean;
        self.dirty += other.dirty;
        self.same += other.same;
        self.other += other.other;
    }
}

impl Display for Tally {
    /// A line for each function: each answer, and how often it was due.
    fn fmt(&self, f: &mut Formatter<'_>) -> Result {
        let mut function = "";
        for ((name, answer), count) in &self.due {
            if *name != function {
                write!(f, "{}{name}:", if function.is_empty() { "" } else { "\n" })?;
                function = name;
            }
            write!(f, " {answer}: {count}")?;
        }
        write!(f, "\ntaken: plain {}, loose {}", self.plain, self.loose)?;
        let Judged { by_crate, unasked, by_items, by_model } = self.judged;
        write!(f, "\nread: by the crate {by_crate}; the crate not asked, for a large claim: {unasked}")?;
        write!(f, "; of kinds that it lacks, item by item: {by_items}")?;
        write!(f, "; of kinds or a reading that it lacks, by the model alone: {by_model}")?;
        write!(f, "\ncut at every byte: {} sorts of message; counts that held: {}", self.cut.len(), self.held)?;
        write!(f, "\nfed in two cuttings: {} streams, {} of which stop", self.streams, self.stopped)?;
        write!(f, "\npieces marked: {} clean, {} dirty", self.clean, self.dirty)?;
        write!(f, "\nexport lists compared: {} that are the same, {} that are not", self.same, self.other)
    }
}
