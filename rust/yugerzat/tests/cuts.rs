//! A stream comes to the same however it is cut: for [`Assembler::feed`] the same records, bytes used, stop and state, on
//! the way and at the end; for [`Records`] the same records and the same error. With random streams, and with what real
//! programs sent, where the captures are there (see `captures.rs`).
#![cfg(feature = "std")]
use std::io::{self, ErrorKind, Read};
use std::{fs, mem};

use yugerzat::*;

mod common;

/// Numbers that come out the same on every machine.
struct Numbers(u64);

impl Numbers {
    fn below(&mut self, end: usize) -> usize {
        self.0 = self.0.wrapping_mul(6_364_136_223_846_793_005).wrapping_add(1_442_695_040_888_963_407);
        (self.0 >> 33) as usize % end
    }
}

/// How a stream is cut: at every so many bytes, at one place, or anywhere, with empty runs.
#[derive(Clone, Copy, Debug)]
enum Cut {
    Every(usize),
    At(usize),
    Anywhere,
}

impl Cut {
    /// The length of the next run, where so many bytes were used. What was not used of the run before is in it.
    fn run(self, used: usize, numbers: &mut Numbers) -> usize {
        match self {
            Cut::Every(length) => length - used % length,
            Cut::At(place) if used < place => place - used,
            Cut::At(_) => usize::MAX,
            Cut::Anywhere => {
                let most = numbers.below(32) + 1;
                numbers.below(most)
            },
        }
    }

    /// All cuts of the first two sorts, and some of the third.
    fn all(length: usize) -> impl Iterator<Item = Cut> {
        let anywhere = [Cut::Anywhere; 20].into_iter();
        (1..=length).map(Cut::Every).chain((0..=length).map(Cut::At)).chain(anywhere)
    }
}

/// Which buffer is lent: one throughout; another for each record; or another for each feed, where the record so far is
/// copied over.
#[derive(Clone, Copy, Debug, PartialEq)]
enum Lent {
    One,
    EachRecord,
    EachFeed,
}

/// What was heard of a stream so far.
#[derive(Clone, Debug)]
struct Heard {
    records: Vec<Vec<u8>>,
    /// Bytes used.
    total: usize,
    assembler: Assembler,
    /// The buffer that was lent last.
    buf: Vec<u8>,
}

impl Heard {
    fn nothing(capacity: usize) -> Heard {
        let assembler = Assembler::new(capacity).unwrap();
        Heard { records: Vec::new(), total: 0, assembler, buf: vec![0xEE; capacity] }
    }

    /// Feeds the next bytes of a stream. One is used where there is one, unless the assembler is stopped.
    fn feed(&mut self, stream: &[u8], run: usize) {
        let rest = &stream[self.total..];
        let run = &rest[..run.min(rest.len())];
        let stopped = self.assembler.is_stopped();
        let answer = self.assembler.feed(run, &mut self.buf);
        assert_eq!(answer.is_err(), self.assembler.is_stopped());
        let used = match answer {
            Ok(Fed::More { used }) => {
                assert_eq!(used, run.len());
                used
            },
            Ok(Fed::Complete { length, used }) => {
                self.records.push(self.buf[..length].to_vec());
                used
            },
            Err(FeedError { refusal, used }) => {
                assert_eq!(refusal, Refusal::FragmentTooLong);
                used
            },
        };
        assert_eq!(used > 0, !run.is_empty() && !stopped);
        self.total += used;
    }

    /// Lends another buffer, if one is due.
    fn lend(&mut self, lent: Lent, numbers: &mut Numbers) {
        let placed = self.assembler.placed();
        if lent == Lent::EachFeed || (lent == Lent::EachRecord && placed == 0) {
            let mut other = vec![numbers.below(256) as u8; self.buf.len()];
            other[..placed].copy_from_slice(&self.buf[..placed]);
            self.buf = other;
        }
    }

    /// The same was heard. One buffer then also holds the same, and others hold the same record so far.
    fn is(&self, due: &Heard, lent: Lent) -> bool {
        let held = if lent == Lent::One { due.buf.len() } else { due.assembler.placed() };
        (&self.records, self.total, self.assembler) == (&due.records, due.total, due.assembler)
            && self.buf[..held] == due.buf[..held]
    }
}

/// What is due of a stream, without the help of the library.
struct Due {
    records: Vec<Vec<u8>>,
    /// Bytes used.
    total: usize,
    stops: bool,
    /// What a buffer of EE bytes then holds.
    buf: Vec<u8>,
}

impl Due {
    fn of(stream: &[u8], capacity: usize) -> Due {
        let mut due = Due { records: Vec::new(), total: stream.len(), stops: false, buf: vec![0xEE; capacity] };
        let (mut at, mut placed) = (0, 0);
        while let Some(header) = stream.get(at..at + 4) {
            at += 4;
            let header = u32::from_be_bytes(header.try_into().unwrap());
            let length = (header & 0x7FFF_FFFF) as usize;
            if length > capacity - placed {
                return Due { total: at, stops: true, ..due };
            }
            let fragment = &stream[at..stream.len().min(at + length)];
            due.buf[placed..][..fragment.len()].copy_from_slice(fragment);
            at += length;
            placed += length;
            if header >> 31 == 1 && at <= stream.len() {
                due.records.push(due.buf[..mem::take(&mut placed)].to_vec());
            }
        }
        due
    }
}

/// A stream of fragments of up to nine bytes, many of them empty, which may end anywhere.
fn any_stream(numbers: &mut Numbers) -> Vec<u8> {
    let mut stream = Vec::new();
    for _ in 0..numbers.below(12) {
        let length = [0, 0, 1, 2, 3, 5, 9][numbers.below(7)];
        let last = numbers.below(2) as u32;
        let announced = if numbers.below(30) == 0 { 0x7FFF_FFFF } else { length };
        stream.extend((last << 31 | announced).to_be_bytes());
        stream.extend((0..length).map(|_| numbers.below(256) as u8));
    }
    if numbers.below(2) == 0 {
        stream.truncate(numbers.below(stream.len() + 1));
    }
    stream
}

/// Feeds a stream in all cuts, and compares what was heard after each feed with what is heard byte by byte.
fn feed_in_all_cuts(stream: &[u8], capacity: usize, numbers: &mut Numbers) {
    let Due { records, total, stops, buf } = Due::of(stream, capacity);
    let mut moments = vec![Heard::nothing(capacity)];
    while moments.len() <= total {
        let mut heard = moments[moments.len() - 1].clone();
        heard.feed(stream, 1);
        moments.push(heard);
    }
    let end = &moments[total];
    assert_eq!((&end.records, end.total, end.assembler.is_stopped(), &end.buf), (&records, total, stops, &buf));

    for lent in [Lent::One, Lent::EachRecord, Lent::EachFeed] {
        for cut in Cut::all(stream.len()) {
            let mut heard = Heard::nothing(capacity);
            while heard.total < total {
                heard.lend(lent, numbers);
                heard.feed(stream, cut.run(heard.total, numbers));
                let due = &moments[heard.total];
                assert!(heard.is(due, lent), "{stream:02x?}, {capacity}, {cut:?}, {lent:?}: {heard:?}, and due is {due:?}");
            }
            // Where it stopped, nothing of the rest is used; and an empty run changes nothing.
            for run in [stream.len(), 0] {
                heard.feed(stream, run);
                assert!(heard.is(end, lent), "{stream:02x?}, {capacity}, {cut:?}, {lent:?}: {heard:?} after the end");
            }
        }
    }
}

/// A reader of a stream that is cut. Where a run is empty, it is interrupted.
struct Network<'a> {
    stream: &'a [u8],
    total: usize,
    cut: Cut,
    numbers: Numbers,
}

impl Read for Network<'_> {
    fn read(&mut self, buf: &mut [u8]) -> io::Result<usize> {
        let rest = &self.stream[self.total..];
        if rest.is_empty() {
            return Ok(0);
        }
        let count = self.cut.run(self.total, &mut self.numbers).min(rest.len()).min(buf.len());
        if count == 0 {
            return Err(ErrorKind::Interrupted.into());
        }
        buf[..count].copy_from_slice(&rest[..count]);
        self.total += count;
        Ok(count)
    }
}

/// All records of a reader, how it ends, and the reader.
fn records_of<R: Read>(reader: R, capacity: usize) -> (Vec<Vec<u8>>, String, R) {
    let mut records = Records::with_capacity(reader, capacity).unwrap();
    let mut found = Vec::new();
    let end = loop {
        match records.next() {
            Some(Ok(record)) => found.push(record),
            end => break end,
        }
    };
    assert!(records.next().is_none());
    (found, format!("{end:?}"), records.into_inner())
}

/// Reads a stream in all cuts, and compares what comes with what comes of the whole slice.
fn read_in_all_cuts(stream: &[u8], capacity: usize, numbers: &mut Numbers) {
    let Due { records, total, stops, .. } = Due::of(stream, capacity);
    let (found, end, rest) = records_of(stream, capacity);
    assert_eq!((&found, rest), (&records, &stream[total..]));
    assert_eq!(end == "Some(Err(Refused(FragmentTooLong)))", stops);
    for cut in Cut::all(stream.len()) {
        let network = Network { stream, total: 0, cut, numbers: Numbers(numbers.below(1 << 30) as u64) };
        let (found, how, network) = records_of(network, capacity);
        assert_eq!((&found, &how, network.total), (&records, &end, total), "{stream:02x?}, {capacity}, {cut:?}");
    }
}

#[test]
fn random_streams_come_to_the_same_however_they_are_cut() {
    let mut numbers = Numbers(42);
    let (mut whole, mut cut, mut stopped) = (0, 0, 0);
    for _ in 0..400 {
        let stream = any_stream(&mut numbers);
        let capacity = numbers.below(24);
        feed_in_all_cuts(&stream, capacity, &mut numbers);
        read_in_all_cuts(&stream, capacity, &mut numbers);
        match records_of(&stream[..], capacity).1.as_str() {
            "None" => whole += 1,
            "Some(Err(Refused(FragmentTooLong)))" => stopped += 1,
            _ => cut += 1,
        }
    }
    assert!(whole > 50 && cut > 50 && stopped > 50, "{whole} whole, {cut} cut, {stopped} stopped");
}

#[test]
fn captured_streams_come_to_the_same_however_they_are_cut() {
    let mut numbers = Numbers(43);
    let (mut files, mut bytes) = (0, 0);
    for direction in ["c2s", "s2c"] {
        for file in common::files(direction).unwrap_or_default() {
            let stream = fs::read(&file).unwrap();
            let longest = Due::of(&stream, LIMIT).records.iter().map(Vec::len).max().unwrap_or(0);
            // The longest record just fits, and then it is too long by a byte.
            for capacity in [longest, longest.saturating_sub(1)] {
                feed_in_all_cuts(&stream, capacity, &mut numbers);
                read_in_all_cuts(&stream, capacity, &mut numbers);
            }
            files += 1;
            bytes += stream.len();
        }
    }
    println!("{bytes} bytes of {files} files come to the same");
}
