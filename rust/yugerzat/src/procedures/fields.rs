//! Fields of arguments and results, in the order of the RFCs. The library has no function that hands these over as figures.
//! So it judges a message first, and only then are the fields taken out of it here; and what is laid here is judged before
//! it is handed over. The verdicts are proved. Which field stands where is in this folder alone, and is tested.
use crate::names::answer;
use crate::{judge, Fattr3, Judged, Kind, Nfsfail3, Nfstime3, Reading, Refusal, Words, LIMIT};

/// A field is not where it has to be after the library's verdict. With an archive of this version that cannot happen.
const UNKNOWN: Refusal = Refusal::Unknown { answer: answer::DONE };

/// What is read and written as a whole, as one kind.
pub trait Whole<'a>: Sized {
    const KIND: Kind;

    fn take(from: &mut Taking<'a>) -> Result<Self, Refusal>;

    fn lay(&self, to: &mut Laying<'_>) -> Result<(), Refusal>;
}

pub fn read<'a, T: Whole<'a>>(bytes: &'a [u8], at: usize) -> Result<Reading<T>, Refusal> {
    taken(T::KIND, bytes, at, T::take)
}

pub fn write<'a, T: Whole<'a>>(value: &T, out: &mut [u8], start: usize) -> Result<usize, Refusal> {
    laid(T::KIND, out, start, |to| value.lay(to))
}

/// Reads from place `at` of `bytes`. The answer is the judge's; the fields are taken from the bytes that it used.
pub fn taken<'a, T>(
    kind: Kind,
    bytes: &'a [u8],
    at: usize,
    take: impl FnOnce(&mut Taking<'a>) -> Result<T, Refusal>,
) -> Result<Reading<T>, Refusal> {
    let Judged { next, plain, .. } = judge(kind, bytes, at)?;
    let mut from = Taking { bytes, at };
    match take(&mut from) {
        Ok(value) if from.at == next => Ok(Reading { value, next, plain }),
        _ => Err(UNKNOWN),
    }
}

/// Writes from place `start` of `out`, and gives the place after it.
pub fn laid(
    kind: Kind,
    out: &mut [u8],
    start: usize,
    lay: impl Fn(&mut Laying<'_>) -> Result<(), Refusal>,
) -> Result<usize, Refusal> {
    let room = out.get_mut(start..).ok_or(Refusal::PastEnd)?;
    let mut count = Laying { out: None, at: 0 };
    lay(&mut count)?;
    let size = count.at;
    if size > LIMIT {
        return Err(Refusal::TooLong);
    }
    let room = room.get_mut(..size).ok_or(Refusal::NoRoom { needed: size })?;
    // An archive that does not know the kind says so here, while nothing is touched yet.
    match judge(kind, &[], 0) {
        Err(Refusal::Ends { .. }) => {},
        Err(refusal) => return Err(refusal),
        Ok(_) => return Err(UNKNOWN),
    }
    lay(&mut Laying { out: Some(&mut *room), at: 0 }).map_err(|_| UNKNOWN)?;
    match judge(kind, room, 0) {
        Ok(Judged { next, plain: true, .. }) if next == size => Ok(start + size),
        _ => Err(UNKNOWN),
    }
}

/// How many bytes of padding follow so many bytes.
const fn padding(count: usize) -> usize {
    (4 - count % 4) % 4
}

/// Takes the fields of a message that was judged, one after the other.
pub struct Taking<'a> {
    bytes: &'a [u8],
    at: usize,
}

impl<'a> Taking<'a> {
    fn bytes(&mut self, count: usize) -> Result<&'a [u8], Refusal> {
        let bytes = self.bytes.get(self.at..).and_then(|rest| rest.get(..count)).ok_or(UNKNOWN)?;
        self.at += count;
        Ok(bytes)
    }

    pub fn fixed<const N: usize>(&mut self) -> Result<[u8; N], Refusal> {
        self.bytes(N)?.try_into().map_err(|_| UNKNOWN)
    }

    pub fn word(&mut self) -> Result<u32, Refusal> {
        self.fixed().map(u32::from_be_bytes)
    }

    pub fn hyper(&mut self) -> Result<u64, Refusal> {
        self.fixed().map(u64::from_be_bytes)
    }

    /// Every word but 0 is true.
    pub fn flag(&mut self) -> Result<bool, Refusal> {
        self.word().map(|word| word != 0)
    }

    /// The content, which is not looked at, and neither is the padding.
    pub fn opaque(&mut self) -> Result<&'a [u8], Refusal> {
        let count = self.word()? as usize;
        let content = self.bytes(count)?;
        self.bytes(padding(count))?;
        Ok(content)
    }

    /// A list of words.
    pub fn words(&mut self) -> Result<Words<'a>, Refusal> {
        let count = self.word()? as usize;
        self.bytes(count.checked_mul(4).ok_or(UNKNOWN)?).and_then(|bytes| Words::new(bytes).ok_or(UNKNOWN))
    }

    /// A number of an enumeration.
    pub fn number<T: TryFrom<u32>>(&mut self) -> Result<T, Refusal> {
        T::try_from(self.word()?).map_err(|_| UNKNOWN)
    }

    /// What a reader of the library reads.
    pub fn part<T>(&mut self, read: fn(&'a [u8], usize) -> Result<Reading<T>, Refusal>) -> Result<T, Refusal> {
        let part = read(self.bytes, self.at)?;
        self.at = part.next;
        Ok(part.value)
    }

    /// A flag, and what follows one that is true.
    pub fn optional<T>(&mut self, value: fn(&mut Self) -> Result<T, Refusal>) -> Result<Option<T>, Refusal> {
        self.flag()?.then(|| value(self)).transpose()
    }

    /// `nfstime3`
    pub fn time(&mut self) -> Result<Nfstime3, Refusal> {
        Ok(Nfstime3 { seconds: self.word()?, nseconds: self.word()? })
    }

    /// `post_op_attr`
    pub fn attributes(&mut self) -> Result<Option<Fattr3>, Refusal> {
        self.optional(|from| from.part(Fattr3::read))
    }

    /// The status that results begin with: a failure, or none.
    pub fn failure(&mut self) -> Result<Option<Nfsfail3>, Refusal> {
        match self.word()? {
            0 => Ok(None),
            number => Nfsfail3::try_from(number).map(Some).map_err(|_| UNKNOWN),
        }
    }
}

/// Lays fields in published form, one after the other; or only counts their bytes.
pub struct Laying<'a> {
    /// Where the bytes go, or nowhere.
    out: Option<&'a mut [u8]>,
    at: usize,
}

impl Laying<'_> {
    pub fn bytes(&mut self, bytes: &[u8]) -> Result<(), Refusal> {
        let end = self.at.saturating_add(bytes.len());
        if let Some(out) = &mut self.out {
            out.get_mut(self.at..end).ok_or(UNKNOWN)?.copy_from_slice(bytes);
        }
        self.at = end;
        Ok(())
    }

    pub fn word(&mut self, word: u32) -> Result<(), Refusal> {
        self.bytes(&word.to_be_bytes())
    }

    pub fn hyper(&mut self, hyper: u64) -> Result<(), Refusal> {
        self.bytes(&hyper.to_be_bytes())
    }

    pub fn flag(&mut self, flag: bool) -> Result<(), Refusal> {
        self.word(flag.into())
    }

    /// Only what has a lawful length is laid, and that fits a word.
    pub fn opaque(&mut self, content: &[u8]) -> Result<(), Refusal> {
        self.word(content.len() as u32)?;
        self.bytes(content)?;
        self.bytes(&[0; 3][..padding(content.len())])
    }

    /// Only what has a lawful length is laid, and its count fits a word.
    pub fn words(&mut self, words: Words<'_>) -> Result<(), Refusal> {
        self.word(words.len() as u32)?;
        self.bytes(words.as_bytes())
    }

    /// What a writer of the library writes; without room it says how many bytes that takes.
    pub fn part(&mut self, write: impl Fn(&mut [u8], usize) -> Result<usize, Refusal>) -> Result<(), Refusal> {
        self.at = match &mut self.out {
            Some(out) => write(out, self.at)?,
            None => match write(&mut [], 0) {
                Err(Refusal::NoRoom { needed }) => self.at.saturating_add(needed),
                other => return other.and(Err(UNKNOWN)),
            },
        };
        Ok(())
    }

    /// A flag, and what follows it if there is a value.
    pub fn optional<T>(&mut self, value: Option<T>, lay: fn(&mut Self, T) -> Result<(), Refusal>) -> Result<(), Refusal> {
        self.flag(value.is_some())?;
        value.map_or(Ok(()), |value| lay(self, value))
    }

    /// `nfstime3`
    pub fn time(&mut self, time: Nfstime3) -> Result<(), Refusal> {
        self.word(time.seconds)?;
        self.word(time.nseconds)
    }

    /// `post_op_attr`
    pub fn attributes(&mut self, attributes: Option<&Fattr3>) -> Result<(), Refusal> {
        self.optional(attributes, |to, attributes| to.part(|out, start| attributes.write(out, start)))
    }

    /// The status of results that are those of a success.
    pub fn success(&mut self) -> Result<(), Refusal> {
        self.word(0)
    }

    /// The status of results that are those of a failure.
    pub fn failure(&mut self, failure: Nfsfail3) -> Result<(), Refusal> {
        self.word(failure.number())
    }
}

/// `read` and `write` of a [`Whole`], and what they refuse.
macro_rules! whole {
    ($type:ident $(<$life:lifetime>)?, $reads:literal, $writes:literal) => {
        impl $(<$life>)? $type $(<$life>)? {
            /// Reads from place `at` of `bytes`. Refusals, `next` and `plain` are those of [`judge`](crate::judge), which is
            /// proved; that the fields are those of the message is tested.
            ///
            /// # Errors
            #[doc = $reads]
            pub fn read(bytes: & $($life)? [u8], at: usize) -> Result<$crate::Reading<$type $(<$life>)?>, $crate::Refusal> {
                $crate::procedures::fields::read(bytes, at)
            }

            /// Writes from place `start` of `out`, and gives the place after it. All other bytes stay. What was written was
            /// judged: it is in published form.
            ///
            /// # Errors
            #[doc = $writes]
            pub fn write(&self, out: &mut [u8], start: usize) -> Result<usize, $crate::Refusal> {
                $crate::procedures::fields::write(self, out, start)
            }
        }
    };
}
pub(crate) use whole;
