use std::io::{self, ErrorKind, Read};
use std::iter::FusedIterator;
use std::vec::Vec;
use std::{error, fmt, vec};

use crate::{Assembler, Fed, Refusal, LIMIT};

/// The largest run that is read at once.
const RUN: usize = 16_384;

/// The records of a stream: of a socket, a file, or any other [`Read`].
///
/// ```
/// use yugerzat::Records;
///
/// // A record in two fragments, and one in one.
/// let stream = [0, 0, 0, 2, 0xAB, 0xCD, 0x80, 0, 0, 1, 0xEF, 0x80, 0, 0, 1, 0x77];
/// let records: Result<Vec<_>, _> = Records::new(&stream[..]).collect();
/// assert_eq!(records?, [vec![0xAB, 0xCD, 0xEF], vec![0x77]]);
/// # Ok::<(), yugerzat::RecordError>(())
/// ```
///
/// The iterator ends where the stream ends between two records. A stream that ends anywhere else is cut, and gives one
/// [`RecordError`] that says where, and then the end. Neither this nor the records depend on how many bytes a read delivers:
/// see [`Assembler::feed`].
///
/// It reads no byte behind the record that it gives: after [`into_inner`](Records::into_inner) the stream goes on with the
/// next record. So it asks for a header and then for a fragment, one after the other. For fewer calls of the system, give it
/// a [`BufReader`](io::BufReader).
///
/// A read that was interrupted is tried again. Every other error is given and changes nothing, so that a stream that would
/// block or timed out can be asked again by [`next`](Iterator::next). This also means that a stream whose reads always fail
/// gives errors without end.
pub struct Records<R> {
    stream: R,
    assembler: Assembler,
    /// As long as the assembler's capacity.
    record: Vec<u8>,
    run: Vec<u8>,
    /// Whether bytes of the next record came, be they only of a header.
    begun: bool,
    /// Whether the stream ended, or is given up.
    ended: bool,
}

impl<R> Records<R> {
    /// The records of `stream`, each of at most [`LIMIT`] bytes.
    pub fn new(stream: R) -> Records<R> {
        Records::of(stream, Assembler::fresh(LIMIT))
    }

    /// The records of `stream`, each of at most `capacity` bytes. That is also how much memory this takes.
    ///
    /// # Errors
    /// `TooLong` where the capacity is over [`LIMIT`].
    pub fn with_capacity(stream: R, capacity: usize) -> Result<Records<R>, Refusal> {
        Ok(Records::of(stream, Assembler::new(capacity)?))
    }

    fn of(stream: R, assembler: Assembler) -> Records<R> {
        let record = vec![0; assembler.capacity()];
        Records { stream, assembler, record, run: vec![0; RUN], begun: false, ended: false }
    }

    /// The stream.
    pub fn get_ref(&self) -> &R {
        &self.stream
    }

    /// The stream. Whoever reads from it takes bytes of the next record away.
    pub fn get_mut(&mut self) -> &mut R {
        &mut self.stream
    }

    /// The stream, from the next record on if the last answer was a record.
    pub fn into_inner(self) -> R {
        self.stream
    }

    /// What a stream that ended here means.
    fn end(&self) -> Result<(), RecordError> {
        let (placed, wanting) = (self.assembler.placed(), self.assembler.wanting());
        match self.assembler.header() {
            0 if !self.begun => Ok(()),
            0 => Err(RecordError::CutRecord { placed, wanting }),
            _ => Err(RecordError::CutHeader { placed, wanting }),
        }
    }
}

impl<R: Read> Records<R> {
    /// The next record, which lies in memory of this value, or none where the stream ended. The iterator gives copies.
    ///
    /// # Errors
    /// See [`RecordError`].
    pub fn read_record(&mut self) -> Result<Option<&[u8]>, RecordError> {
        while !self.ended {
            let room = self.assembler.wanting().min(RUN);
            let count = match self.stream.read(&mut self.run[..room]) {
                Ok(0) => {
                    self.ended = true;
                    self.end()?;
                    break;
                },
                // Not even a stream that claims more than was asked for is believed.
                Ok(count) => count.min(room),
                Err(error) if error.kind() == ErrorKind::Interrupted => continue,
                Err(error) => return Err(RecordError::Io(error)),
            };
            self.begun = true;
            match self.assembler.feed(&self.run[..count], &mut self.record) {
                Ok(Fed::More { .. }) => {},
                Ok(Fed::Complete { length, .. }) => {
                    self.begun = false;
                    // It lies in the buffer: this is proved.
                    return Ok(Some(&self.record[..length]));
                },
                Err(error) => {
                    self.ended = true;
                    return Err(RecordError::Refused(error.refusal));
                },
            }
        }
        Ok(None)
    }
}

impl<R: Read> Iterator for Records<R> {
    type Item = Result<Vec<u8>, RecordError>;

    fn next(&mut self) -> Option<Result<Vec<u8>, RecordError>> {
        self.read_record().map(|record| record.map(<[u8]>::to_vec)).transpose()
    }
}

impl<R: Read> FusedIterator for Records<R> {}

impl<R: fmt::Debug> fmt::Debug for Records<R> {
    fn fmt(&self, f: &mut fmt::Formatter<'_>) -> fmt::Result {
        f.debug_struct("Records").field("stream", &self.stream).field("assembler", &self.assembler).finish_non_exhaustive()
    }
}

/// Why there is no record where one is due.
#[derive(Debug)]
#[non_exhaustive]
pub enum RecordError {
    /// The stream cannot be read, for now or for good.
    Io(io::Error),
    /// The stream ended inside a fragment's header, of which one to three bytes came.
    CutHeader {
        /// How many bytes of the record came before.
        placed: usize,
        /// How many bytes of the header are wanting.
        wanting: usize,
    },
    /// The stream ended inside a record: inside a fragment, or where the next fragment's header is due.
    CutRecord {
        /// How many bytes of the record came.
        placed: usize,
        /// How many bytes of the fragment are wanting, or of the header that is due.
        wanting: usize,
    },
    /// The assembler refused: [`FragmentTooLong`](Refusal::FragmentTooLong), as the record would be over the capacity.
    /// Nothing can be read behind it.
    Refused(Refusal),
}

impl fmt::Display for RecordError {
    fn fmt(&self, f: &mut fmt::Formatter<'_>) -> fmt::Result {
        match self {
            RecordError::Io(error) => error.fmt(f),
            RecordError::CutHeader { placed, wanting } => {
                write!(f, "the stream ends inside a header, after {placed} bytes of the record; {wanting} more are wanting")
            },
            RecordError::CutRecord { placed, wanting } => {
                write!(f, "the stream ends inside a record, after {placed} bytes of it; {wanting} more are wanting")
            },
            RecordError::Refused(refusal) => refusal.fmt(f),
        }
    }
}

impl error::Error for RecordError {
    fn source(&self) -> Option<&(dyn error::Error + 'static)> {
        match self {
            RecordError::Io(error) => error.source(),
            _ => None,
        }
    }
}

impl From<RecordError> for io::Error {
    fn from(error: RecordError) -> io::Error {
        match error {
            RecordError::Io(error) => error,
            RecordError::CutHeader { .. } | RecordError::CutRecord { .. } => io::Error::new(ErrorKind::UnexpectedEof, error),
            RecordError::Refused(refusal) => refusal.into(),
        }
    }
}
