use core::fmt;

use crate::names::{answer, figure, figures};
use crate::{sys, written, Refusal, LIMIT};

/// Assembles records from a stream of fragments. It is a value of seven numbers; the record itself lies in a buffer that
/// the caller lends. Where there is a `std::io::Read`, `Records` does the work.
///
/// ```
/// use yugerzat::{Assembler, Fed};
///
/// let mut record = [0; 10];
/// let mut assembler = Assembler::new(record.len()).unwrap();
/// // A fragment of no bytes, and half of a last one of two bytes.
/// assert_eq!(assembler.feed(&[0, 0, 0, 0, 0x80, 0, 0, 2, 0xAB], &mut record), Ok(Fed::More { used: 9 }));
/// assert_eq!(assembler.wanting(), 1);
/// // The rest; the byte after it belongs to the next record.
/// assert_eq!(assembler.feed(&[0xCD, 0x80], &mut record), Ok(Fed::Complete { length: 2, used: 1 }));
/// assert_eq!(record[..2], [0xAB, 0xCD]);
/// ```
#[derive(Clone, Copy, Debug, PartialEq, Eq, Hash)]
pub struct Assembler {
    state: [u64; figures::STATE],
}

/// What feeding did.
#[derive(Clone, Copy, Debug, PartialEq, Eq, Hash)]
pub enum Fed {
    /// The run is used up, and the record is not complete.
    More {
        /// How many bytes were used: all.
        used: usize,
    },
    /// The record is the first `length` bytes of the buffer. The assembler is ready for the next one, which may be put over
    /// it.
    Complete {
        /// The length of the record.
        length: usize,
        /// How many bytes were used: none after the record's end.
        used: usize,
    },
}

/// Why feeding was refused.
#[derive(Clone, Copy, Debug, PartialEq, Eq, Hash)]
pub struct FeedError {
    /// `StateDoesNotFit`: the buffer's length is not the capacity. `FragmentTooLong`: a fragment would pass the end of the
    /// buffer, or did before.
    pub refusal: Refusal,
    /// How many bytes were used.
    pub used: usize,
}

impl fmt::Display for FeedError {
    fn fmt(&self, f: &mut fmt::Formatter<'_>) -> fmt::Result {
        write!(f, "{}, after {} bytes", self.refusal, self.used)
    }
}

#[cfg(feature = "std")]
impl std::error::Error for FeedError {
    fn source(&self) -> Option<&(dyn std::error::Error + 'static)> {
        Some(&self.refusal)
    }
}

#[cfg(feature = "std")]
impl From<FeedError> for std::io::Error {
    fn from(error: FeedError) -> std::io::Error {
        error.refusal.into()
    }
}

impl From<FeedError> for Refusal {
    fn from(error: FeedError) -> Refusal {
        error.refusal
    }
}

impl Assembler {
    /// An assembler of records of at most `capacity` bytes.
    ///
    /// # Errors
    /// `TooLong` where the capacity is over [`LIMIT`].
    pub fn new(capacity: usize) -> Result<Assembler, Refusal> {
        if capacity > LIMIT {
            return Err(Refusal::TooLong);
        }
        Ok(Assembler::fresh(capacity))
    }

    /// One whose capacity is known to be lawful.
    pub(crate) const fn fresh(capacity: usize) -> Assembler {
        let mut state = [0; figures::STATE];
        state[figure::STATE_CAPACITY] = capacity as u64;
        Assembler { state }
    }

    /// Feeds a run of bytes from the stream. The record is put at the start of `buf`, whose length must be the capacity.
    /// From one feed to the next its first [`placed`](Assembler::placed) bytes, the record so far, have to stay. Another
    /// buffer may be lent if it is as long and begins with these bytes: between two records, any other.
    ///
    /// However the stream is cut, the same comes of it. Feed it to a new assembler in runs of any lengths, empty ones too,
    /// each beginning with the first byte that was not used yet: you get the same records in the same order, the same number
    /// of bytes used in all, the same stop after the same byte, if there is one, and the same assembler at the end. On the
    /// way, too, what you have depends only on how many bytes were used. Of a run that is not empty a byte is always used
    /// unless the assembler is stopped, so whoever feeds again what was not used comes to the end. This is proved of the
    /// library's function; that nothing is lost between that and this one is tested.
    ///
    /// # Errors
    /// `StateDoesNotFit` where the buffer's length is not the capacity: nothing is touched. `FragmentTooLong` where a
    /// fragment would pass the end of the buffer: the buffer holds what was placed before, and the assembler is stopped for
    /// good. No byte is used after that.
    pub fn feed(&mut self, run: &[u8], buf: &mut [u8]) -> Result<Fed, FeedError> {
        let mut info = [0; figures::FEED];
        let answer = sys::feed(&mut self.state, run, buf, &mut info);
        let used = info[figure::FEED_USED] as usize;
        match answer {
            answer::MORE => Ok(Fed::More { used }),
            answer::COMPLETE => Ok(Fed::Complete { length: info[figure::FEED_LENGTH] as usize, used }),
            answer => Err(FeedError { refusal: Refusal::of(answer, 0, 0, 0), used }),
        }
    }

    /// The largest record, and the length of the buffer.
    #[must_use]
    pub const fn capacity(&self) -> usize {
        self.state[figure::STATE_CAPACITY] as usize
    }

    /// How many bytes of the record are in the buffer.
    #[must_use]
    pub const fn placed(&self) -> usize {
        self.state[figure::STATE_PLACED] as usize
    }

    /// How many bytes of a fragment's header came, while it is not whole: 0 to 3.
    #[must_use]
    pub const fn header(&self) -> usize {
        self.state[figure::STATE_HEADER_COUNT] as usize
    }

    /// How many bytes are wanting to finish the fragment that is begun, or else the next header. A program that reads no
    /// more than these takes no byte that belongs to the next record. 0 where the assembler is stopped.
    #[must_use]
    pub const fn wanting(&self) -> usize {
        match self.state[figure::STATE_LEFT] {
            _ if self.is_stopped() => 0,
            0 => 4 - self.header(),
            left => left as usize,
        }
    }

    /// Whether a fragment was too long. A stopped assembler takes nothing any more.
    #[must_use]
    pub const fn is_stopped(&self) -> bool {
        self.state[figure::STATE_STOPPED] != 0
    }
}

/// Writes a message as a record's only fragment, a header of four bytes and the message, from place `start` of `out`, and
/// gives the place after it. All other bytes stay.
///
/// ```
/// let mut out = [0; 8];
/// assert_eq!(yugerzat::write_fragment(b"abc", &mut out, 1)?, 8);
/// assert_eq!(out, [0, 0x80, 0, 0, 3, b'a', b'b', b'c']);
/// # Ok::<(), yugerzat::Refusal>(())
/// ```
///
/// # Errors
/// `PastEnd`, `TooLong` and `NoRoom`, in this order.
pub fn write_fragment(message: &[u8], out: &mut [u8], start: usize) -> Result<usize, Refusal> {
    let mut info = [0; figures::WRITTEN];
    written(sys::fragment(message, out, start, &mut info), info)
}
