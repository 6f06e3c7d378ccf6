//! [`Records`] over streams that give their bytes in runs of any length, are interrupted, block, fail, lie, and end
//! anywhere.
#![cfg(feature = "std")]
use std::collections::VecDeque;
use std::error::Error;
use std::io::{self, ErrorKind, Read};

use yugerzat::*;

/// A stream that gives these in order, at most `most` bytes at once, and counts what it gave.
struct Stream {
    steps: VecDeque<Result<Vec<u8>, ErrorKind>>,
    most: usize,
    given: usize,
}

impl Stream {
    fn new(most: usize, steps: Vec<Result<&[u8], ErrorKind>>) -> Stream {
        Stream { steps: steps.into_iter().map(|step| step.map(<[u8]>::to_vec)).collect(), most, given: 0 }
    }
}

impl Read for Stream {
    fn read(&mut self, buf: &mut [u8]) -> io::Result<usize> {
        let mut run = match self.steps.pop_front() {
            None => return Ok(0),
            Some(Err(kind)) => return Err(kind.into()),
            Some(Ok(run)) => run,
        };
        let count = run.len().min(buf.len()).min(self.most);
        buf[..count].copy_from_slice(&run[..count]);
        let rest = run.split_off(count);
        if !rest.is_empty() {
            self.steps.push_front(Ok(rest));
        }
        self.given += count;
        Ok(count)
    }
}

/// Three records: one of three fragments, an empty one, and one of one fragment; and where each ends.
const STREAM: &[u8] = &[
    0, 0, 0, 2, 0xAB, 0xCD, 0, 0, 0, 0, 0x80, 0, 0, 1, 0xEF, // ends at 15
    0x80, 0, 0, 0, // 19
    0x80, 0, 0, 3, 1, 2, 3, // 26
];
const RECORDS: [(&[u8], usize); 3] = [(&[0xAB, 0xCD, 0xEF], 15), (&[], 19), (&[1, 2, 3], 26)];

#[test]
fn records_come_one_by_one_and_no_byte_is_read_too_early() {
    for most in 1..=STREAM.len() {
        let mut records = Records::with_capacity(Stream::new(most, vec![Ok(STREAM)]), 3).unwrap();
        for (record, end) in RECORDS {
            assert_eq!(records.read_record().unwrap(), Some(record));
            assert_eq!(records.get_ref().given, end, "runs of {most}");
        }
        assert_eq!(records.read_record().unwrap(), None);
        assert_eq!(records.read_record().unwrap(), None);
        let all: Vec<Vec<u8>> = Records::new(Stream::new(most, vec![Ok(STREAM)])).map(Result::unwrap).collect();
        assert_eq!(all, RECORDS.map(|(record, _)| record));
    }
}

#[test]
fn what_is_behind_a_record_stays_in_the_stream() {
    let mut records = Records::new(STREAM);
    assert!(matches!(records.next(), Some(Ok(record)) if record == [0xAB, 0xCD, 0xEF]));
    let mut rest = Vec::new();
    Read::take(records.get_mut(), 4).read_to_end(&mut rest).unwrap();
    records.into_inner().read_to_end(&mut rest).unwrap();
    assert_eq!(rest, STREAM[15..]);
}

#[test]
fn a_cut_stream_says_where() {
    // What is wrong with the stream's first bytes: which error, the bytes of the record, and those wanting.
    #[derive(Debug, PartialEq)]
    enum Cut {
        Not,
        Header(usize, usize),
        Record(usize, usize),
    }
    use Cut::{Header, Not, Record};
    let due = [
        Not,
        Header(0, 3),
        Header(0, 2),
        Header(0, 1),
        Record(0, 2),
        Record(1, 1), // the first fragment
        Record(2, 4),
        Header(2, 3),
        Header(2, 2),
        Header(2, 1), // an empty one
        Record(2, 4),
        Header(2, 3),
        Header(2, 2),
        Header(2, 1),
        Record(2, 1), // the last
        Not,
        Header(0, 3),
        Header(0, 2),
        Header(0, 1), // an empty record
        Not,
        Header(0, 3),
        Header(0, 2),
        Header(0, 1),
        Record(0, 3),
        Record(1, 2),
        Record(2, 1), // and one of three bytes
        Not,
    ];
    assert_eq!(due.len(), STREAM.len() + 1);
    for (end, due) in due.into_iter().enumerate() {
        for most in [1, 2, 3, STREAM.len()] {
            let mut records = Records::new(Stream::new(most, vec![Ok(&STREAM[..end])]));
            for (record, _) in RECORDS.iter().filter(|(_, last)| *last <= end) {
                assert_eq!(records.read_record().unwrap(), Some(*record));
            }
            let cut = match records.next() {
                None => Not,
                Some(Err(RecordError::CutHeader { placed, wanting })) => Header(placed, wanting),
                Some(Err(RecordError::CutRecord { placed, wanting })) => Record(placed, wanting),
                Some(other) => panic!("cut at {end}: {other:?}"),
            };
            assert_eq!(cut, due, "cut at {end}");
            assert!(records.next().is_none() && records.next().is_none());
        }
    }
}

#[test]
fn a_stream_that_ends_after_an_empty_fragment_is_cut() {
    // The assembler's state is a fresh one there, but the record is begun.
    let mut records = Records::new(&[0, 0, 0, 0][..]);
    assert!(matches!(records.next(), Some(Err(RecordError::CutRecord { placed: 0, wanting: 4 }))));
    assert!(records.next().is_none());
}

#[test]
fn interrupted_reads_are_tried_again_and_other_errors_lose_nothing() {
    for cut in 1..STREAM.len() {
        let interrupted = Err(ErrorKind::Interrupted);
        let steps = vec![interrupted, Ok(&STREAM[..cut]), interrupted, interrupted, Ok(&STREAM[cut..]), interrupted];
        let records: Result<Vec<_>, _> = Records::new(Stream::new(9, steps)).collect();
        assert_eq!(records.unwrap(), RECORDS.map(|(record, _)| record));

        let (blocks, late) = (Err(ErrorKind::WouldBlock), Err(ErrorKind::TimedOut));
        let mut records = Records::new(Stream::new(9, vec![Ok(&STREAM[..cut]), blocks, late, Ok(&STREAM[cut..]), late]));
        let (mut found, mut errors) = (Vec::new(), Vec::new());
        loop {
            match records.next() {
                Some(Ok(record)) => found.push(record),
                Some(Err(RecordError::Io(error))) => errors.push(error.kind()),
                Some(Err(other)) => panic!("{other}"),
                None => break,
            }
        }
        assert_eq!(found, RECORDS.map(|(record, _)| record));
        assert_eq!(errors, [ErrorKind::WouldBlock, ErrorKind::TimedOut, ErrorKind::TimedOut]);
    }
}

#[test]
fn a_record_over_the_capacity_is_refused_and_ends_the_stream() {
    for (capacity, records_before) in [(2, 0), (0, 0)] {
        let mut records = Records::with_capacity(STREAM, capacity).unwrap();
        for _ in 0..records_before {
            records.next().unwrap().unwrap();
        }
        assert!(matches!(records.next(), Some(Err(RecordError::Refused(Refusal::FragmentTooLong)))));
        assert!(records.next().is_none());
    }
    // Empty records need no capacity.
    let empty: Vec<_> = Records::with_capacity(&STREAM[15..19], 0).unwrap().map(Result::unwrap).collect();
    assert_eq!(empty, [vec![]]);
    // The largest record, and one that is larger by a byte; more than one run each.
    let message: Vec<u8> = (0..LIMIT).map(|n| (n % 251) as u8).collect();
    let mut stream = Vec::new();
    append_fragment(&message, &mut stream).unwrap();
    stream.extend([0, 0x10, 0, 1]);
    let mut records = Records::new(Stream::new(usize::MAX, vec![Ok(&stream)]));
    assert!(records.next().unwrap().unwrap() == message);
    assert_eq!(records.get_ref().given, LIMIT + 4);
    assert!(matches!(records.next(), Some(Err(RecordError::Refused(Refusal::FragmentTooLong)))));
    assert!(matches!(Records::with_capacity(STREAM, LIMIT + 1), Err(Refusal::TooLong)));
}

#[test]
fn a_stream_that_claims_too_much_is_not_believed() {
    struct Liar;
    impl Read for Liar {
        fn read(&mut self, buf: &mut [u8]) -> io::Result<usize> {
            buf.fill(0x80);
            Ok(usize::MAX)
        }
    }
    // The header 80808080 announces more than there is room for.
    assert!(matches!(Records::new(Liar).next(), Some(Err(RecordError::Refused(Refusal::FragmentTooLong)))));
}

#[test]
fn errors_of_records_are_errors() {
    let cases = [
        (RecordError::CutHeader { placed: 2, wanting: 3 }, ErrorKind::UnexpectedEof),
        (RecordError::CutRecord { placed: 2, wanting: 3 }, ErrorKind::UnexpectedEof),
        (RecordError::Refused(Refusal::FragmentTooLong), ErrorKind::InvalidData),
        (RecordError::Io(ErrorKind::TimedOut.into()), ErrorKind::TimedOut),
    ];
    for (error, kind) in cases {
        assert!(error.source().is_none());
        let said = error.to_string();
        let error = io::Error::from(error);
        assert_eq!((error.kind(), error.to_string()), (kind, said));
    }
    let cut = RecordError::CutHeader { placed: 2, wanting: 3 }.to_string();
    assert_eq!(cut, "the stream ends inside a header, after 2 bytes of the record; 3 more are wanting");
    let cut = RecordError::CutRecord { placed: 2, wanting: 3 }.to_string();
    assert_eq!(cut, "the stream ends inside a record, after 2 bytes of it; 3 more are wanting");
    let records = format!("{:?}", Records::new(io::empty()));
    assert!(records.starts_with("Records { ") && records.len() < 200, "{records}");
}
