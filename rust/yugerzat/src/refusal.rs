use core::fmt;

use crate::names::answer;

/// Why nothing was handed over: one of ten numbered refusals, each with what it tells.
///
/// ```
/// use yugerzat::{judge, Kind, Refusal};
///
/// // An opaque of one byte, which needs three bytes of padding and has two.
/// let refusal = judge(Kind::Opaque, &[0, 0, 0, 1, 0xAA, 0, 0], 0).unwrap_err();
/// assert_eq!(refusal, Refusal::Ends { place: 0, wanting: 1 });
/// assert_eq!(refusal.number(), 1);
/// assert_eq!(refusal.to_string(), "refusal 1 at place 0: the message ends inside an item, 1 byte is wanting");
/// ```
///
/// # Bytes that come late
///
/// [`Ends`](Refusal::Ends) says how many bytes are **wanting** (still missing) to finish the item inside which the message
/// ends. A program whose bytes come late reads what it has, waits for exactly so many, and reads again: it never waits for a
/// byte that does not belong to the message. It tests its room first, because the sender chooses the lengths.
///
/// ```
/// # #[cfg(feature = "std")]
/// # fn main() -> Result<(), Box<dyn std::error::Error>> {
/// use std::io::Read;
/// use yugerzat::{judge, Diropargs3, Kind, Refusal, LIMIT};
///
/// // A handle, a name, and a byte of what comes next.
/// let mut stream = &[0, 0, 0, 1, 0xAA, 0, 0, 0, 0, 0, 0, 2, b'h', b'i', 0, 0, 0x77][..];
/// let mut message = Vec::new();
/// while let Err(Refusal::Ends { wanting, .. }) = judge(Kind::Diropargs3, &message, 0) {
///     let have = message.len();
///     if wanting > LIMIT - have {
///         return Err("a message of this length is refused".into());
///     }
///     message.resize(have + wanting, 0);
///     stream.read_exact(&mut message[have..])?;
/// }
/// assert_eq!(Diropargs3::read(&message, 0)?.value.name, b"hi");
/// // No byte too many was taken.
/// assert_eq!(stream, [0x77]);
/// # Ok(())
/// # }
/// # #[cfg(not(feature = "std"))]
/// # fn main() {}
/// ```
#[derive(Clone, Copy, Debug, PartialEq, Eq, Hash)]
#[non_exhaustive]
pub enum Refusal {
    /// 1: the message ends inside an item (a word, a hyper, eight fixed bytes, an opaque or a list of words).
    Ends {
        /// The place of the item's first byte.
        place: usize,
        /// How many bytes are wanting to finish the item: the rest of a word, a hyper or eight fixed bytes, or of a length
        /// word that was cut; once the length word is there, the rest of an opaque's content and padding, or of a list's
        /// words. At most 17,179,869,180.
        ///
        /// While the message stays within [`LIMIT`](crate::LIMIT) bytes, exactly so many more bytes complete the item, or
        /// the length word where that was cut, whatever they hold; fewer never do.
        wanting: usize,
    },
    /// 2: a closed enumeration, or the tag of a `set_atime` or `set_mtime`, has a number that is not declared.
    Undeclared {
        /// The place of that word.
        place: usize,
    },
    /// 3: a message, a source, an asked capacity or what would be written is over [`LIMIT`](crate::LIMIT) bytes.
    TooLong,
    /// 4: a piece lies outside its source, or a list is none. The library refuses so, but nothing in this crate does: its
    /// pieces are slices, and its lists were read.
    Outside,
    /// 5: there is too little room from the asked place on.
    NoRoom {
        /// How many bytes the writing takes in all, from the asked place on.
        needed: usize,
    },
    /// 6: the record buffer's length is not the assembler's capacity.
    StateDoesNotFit,
    /// 7: a fragment would pass the end of the record buffer, or did before.
    FragmentTooLong,
    /// 8: a REPLY reached the choice of program.
    ReplyCame,
    /// 9: a start place is past the end.
    PastEnd,
    /// 10: a path is above [`MNTPATHLEN`](crate::mount::MNTPATHLEN) bytes, which is 1,024.
    LongPath {
        /// In reading, the place of its length word. In writing there is none.
        place: Option<usize>,
    },
    /// None of the ten: the library answered what this crate does not know. It is linked with an archive of another
    /// version.
    Unknown {
        /// What the library answered.
        answer: u32,
    },
}

impl Refusal {
    /// The refusal of an answer of a writing, with the figure that it may have.
    pub(crate) fn of_writing(answer: u32, needed: u64) -> Refusal {
        match answer {
            answer::LONG_PATH => Refusal::LongPath { place: None },
            answer => Refusal::of(answer, 0, 0, needed),
        }
    }

    /// The refusal of an answer, with the figures that it may have.
    pub(crate) fn of(answer: u32, place: u64, wanting: u64, needed: u64) -> Refusal {
        match answer {
            answer::ENDS => Refusal::Ends { place: place as usize, wanting: wanting as usize },
            answer::UNDECLARED => Refusal::Undeclared { place: place as usize },
            answer::TOO_LONG => Refusal::TooLong,
            answer::OUTSIDE => Refusal::Outside,
            answer::NO_ROOM => Refusal::NoRoom { needed: needed as usize },
            answer::STATE_DOES_NOT_FIT => Refusal::StateDoesNotFit,
            answer::FRAGMENT_TOO_LONG => Refusal::FragmentTooLong,
            answer::REPLY_CAME => Refusal::ReplyCame,
            answer::PAST_END => Refusal::PastEnd,
            answer::LONG_PATH => Refusal::LongPath { place: Some(place as usize) },
            // 253 to 255 blame the call, and the types of this crate let no such call through.
            answer => Refusal::Unknown { answer },
        }
    }

    /// The number, 1 to 10, that C programs and the documents have for it; what the library answered where it is
    /// [`Unknown`](Refusal::Unknown).
    #[must_use]
    pub const fn number(self) -> u32 {
        match self {
            Refusal::Ends { .. } => answer::ENDS,
            Refusal::Undeclared { .. } => answer::UNDECLARED,
            Refusal::TooLong => answer::TOO_LONG,
            Refusal::Outside => answer::OUTSIDE,
            Refusal::NoRoom { .. } => answer::NO_ROOM,
            Refusal::StateDoesNotFit => answer::STATE_DOES_NOT_FIT,
            Refusal::FragmentTooLong => answer::FRAGMENT_TOO_LONG,
            Refusal::ReplyCame => answer::REPLY_CAME,
            Refusal::PastEnd => answer::PAST_END,
            Refusal::LongPath { .. } => answer::LONG_PATH,
            Refusal::Unknown { answer } => answer,
        }
    }

    /// The place in the message, where the refusal has one.
    #[must_use]
    pub const fn place(self) -> Option<usize> {
        match self {
            Refusal::Ends { place, .. } | Refusal::Undeclared { place } => Some(place),
            Refusal::LongPath { place } => place,
            _ => None,
        }
    }

    /// How many bytes are wanting, where the message ends too soon.
    #[must_use]
    pub const fn wanting(self) -> Option<usize> {
        match self {
            Refusal::Ends { wanting, .. } => Some(wanting),
            _ => None,
        }
    }

    /// What the number means.
    #[must_use]
    pub const fn meaning(self) -> &'static str {
        match self {
            Refusal::Ends { .. } => "the message ends inside an item",
            Refusal::Undeclared { .. } => "a number that must be declared is not",
            Refusal::TooLong => "a message, a source, a capacity or what would be written is over 1,048,576 bytes",
            Refusal::Outside => "a piece lies outside its source",
            Refusal::NoRoom { .. } => "too little room from the asked place on",
            Refusal::StateDoesNotFit => "the record buffer's length is not the assembler's capacity",
            Refusal::FragmentTooLong => "a fragment would pass the end of the record buffer",
            Refusal::ReplyCame => "a REPLY reached the choice of program",
            Refusal::PastEnd => "a start place is past the end",
            Refusal::LongPath { .. } => "a path is above 1,024 bytes",
            Refusal::Unknown { .. } => "this crate does not know that answer, so the archive is of another version",
        }
    }
}

impl fmt::Display for Refusal {
    fn fmt(&self, f: &mut fmt::Formatter<'_>) -> fmt::Result {
        write!(f, "refusal {}", self.number())?;
        if let Some(place) = self.place() {
            write!(f, " at place {place}")?;
        }
        write!(f, ": {}", self.meaning())?;
        match *self {
            Refusal::Ends { wanting: 1, .. } => write!(f, ", 1 byte is wanting"),
            Refusal::Ends { wanting, .. } => write!(f, ", {wanting} bytes are wanting"),
            Refusal::NoRoom { needed } => write!(f, ", {needed} bytes are needed"),
            _ => Ok(()),
        }
    }
}

#[cfg(feature = "std")]
impl std::error::Error for Refusal {}

/// `UnexpectedEof` where the message ends too soon, `InvalidData` where the peer is at fault otherwise, `WriteZero` where
/// there is too little room (as writing to a slice in std has it), `InvalidInput` where the caller is at fault.
#[cfg(feature = "std")]
impl From<Refusal> for std::io::Error {
    fn from(refusal: Refusal) -> std::io::Error {
        use std::io::ErrorKind;
        let kind = match refusal {
            Refusal::Ends { .. } => ErrorKind::UnexpectedEof,
            Refusal::Undeclared { .. }
            | Refusal::TooLong
            | Refusal::FragmentTooLong
            | Refusal::ReplyCame
            | Refusal::LongPath { place: Some(_) } => ErrorKind::InvalidData,
            Refusal::NoRoom { .. } => ErrorKind::WriteZero,
            Refusal::Outside | Refusal::StateDoesNotFit | Refusal::PastEnd | Refusal::LongPath { place: None } => {
                ErrorKind::InvalidInput
            },
            Refusal::Unknown { .. } => ErrorKind::Other,
        };
        std::io::Error::new(kind, refusal)
    }
}
