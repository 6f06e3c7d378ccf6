use core::fmt;
use core::hash::{Hash, Hasher};
use core::iter::FusedIterator;
#[cfg(feature = "std")]
use std::vec::Vec;

use super::MNTPATHLEN;
use crate::names::{answer, figure, figures};
use crate::procedures::fields::{laid, Laying};
use crate::{part, reading, sys, written, Kind, Reading, Refusal, LIMIT};

/// A list of what is exported: `exports`, the results of EXPORT. It borrows the bytes of the message, and is walked there.
///
/// Two lists are equal if they mean the same: the same paths with the same names, in the same order. How their flags and
/// padding came does not matter.
///
/// ```
/// use yugerzat::mount::Exports;
///
/// // A flag, the path "/exp", a flag, the name "me" with dirt behind it, the end of the names, the end of the list.
/// let words = [1, 4, 0x2F65_7870, 1, 2, 0x6D65_00FF, 0, 0];
/// let came: Vec<u8> = words.iter().flat_map(|word: &u32| word.to_be_bytes()).collect();
/// let loose = Exports::read(&came, 0)?;
/// assert!(!loose.plain);
/// for export in loose.value {
///     assert_eq!(export.dir, b"/exp");
///     assert!(export.groups.iter().eq([b"me"]));
/// }
///
/// let mut out = [0; 32];
/// assert_eq!(loose.value.write(&mut out, 0)?, 32);
/// let clean = Exports::read(&out, 0)?;
/// assert!(clean.plain);
/// assert_eq!(clean.value, loose.value);
/// # Ok::<(), yugerzat::Refusal>(())
/// ```
#[derive(Clone, Copy)]
pub struct Exports<'a> {
    /// The list, from its first flag to its end.
    bytes: &'a [u8],
    count: usize,
}

impl<'a> Exports<'a> {
    /// Reads from place `at` of `bytes`. It is plain if all flags are 0 or 1, and all padding is zero.
    ///
    /// # Errors
    /// `Ends`, `TooLong`, `PastEnd`, and `LongPath` of the first such path, once the whole list is read.
    pub fn read(bytes: &'a [u8], at: usize) -> Result<Reading<Exports<'a>>, Refusal> {
        let mut info = [0; figures::EXPORTS];
        let answer = sys::read_exports(bytes, at, &mut info);
        reading(answer, &info, || {
            let list = bytes.get(info[figure::EXPORTS_AT] as usize..info[figure::NEXT] as usize)?;
            Some(Exports { bytes: list, count: info[figure::EXPORTS_COUNT] as usize })
        })
    }

    /// Writes from place `start` of `out`, and gives the place after it. All other bytes stay.
    ///
    /// # Errors
    /// `PastEnd` and `NoRoom`.
    pub fn write(&self, out: &mut [u8], start: usize) -> Result<usize, Refusal> {
        let mut info = [0; figures::WRITTEN];
        written(sys::write_exports(self.bytes, self.count, out, start, &mut info), info)
    }

    /// The list in published form.
    ///
    /// # Errors
    /// None in practice: there is always room.
    #[cfg(feature = "std")]
    pub fn to_vec(&self) -> Result<Vec<u8>, Refusal> {
        let mut out = Vec::new();
        self.append(&mut out)?;
        Ok(out)
    }

    /// Its bytes, as they came.
    #[must_use]
    pub const fn as_bytes(self) -> &'a [u8] {
        self.bytes
    }

    /// How many entries there are.
    #[must_use]
    pub const fn len(self) -> usize {
        self.count
    }

    /// Whether there are none.
    #[must_use]
    pub const fn is_empty(self) -> bool {
        self.count == 0
    }

    /// The entries, in order.
    #[must_use]
    pub const fn iter(self) -> ExportsIter<'a> {
        ExportsIter { left: self }
    }

    /// The first entry, and the rest, which is a list itself.
    fn split(self) -> Option<(Export<'a>, Exports<'a>)> {
        let count = self.count.checked_sub(1)?;
        let mut info = [0; figures::NEXT_EXPORT];
        if sys::next_export(self.bytes, 0, &mut info) != answer::DONE || info[figure::NEXT_EXPORT_THERE] == 0 {
            return None;
        }
        let next = info[figure::NEXT] as usize;
        let dir = part(self.bytes, info[figure::NEXT_EXPORT_DIR_AT], info[figure::NEXT_EXPORT_DIR_COUNT])?;
        // The groups are the last of an entry, so they end where it ends.
        let groups = Groups {
            bytes: self.bytes.get(info[figure::NEXT_EXPORT_GROUPS_AT] as usize..next)?,
            count: info[figure::NEXT_EXPORT_GROUPS_COUNT] as usize,
        };
        Some((Export { dir, groups }, Exports { bytes: self.bytes.get(next..)?, count }))
    }
}

/// The list without entries.
impl Default for Exports<'_> {
    fn default() -> Self {
        Exports { bytes: &[0; 4], count: 0 }
    }
}

impl PartialEq for Exports<'_> {
    fn eq(&self, other: &Exports<'_>) -> bool {
        let mut info = [0; figures::SAME_EXPORTS];
        let answer = sys::same_exports(self.bytes, self.count, other.bytes, other.count, &mut info);
        answer == answer::DONE && info[figure::SAME_EXPORTS] == 1
    }
}

impl Eq for Exports<'_> {}

impl Hash for Exports<'_> {
    fn hash<H: Hasher>(&self, state: &mut H) {
        self.count.hash(state);
        self.iter().for_each(|export| export.hash(state));
    }
}

impl fmt::Debug for Exports<'_> {
    fn fmt(&self, f: &mut fmt::Formatter<'_>) -> fmt::Result {
        f.debug_list().entries(self.iter()).finish()
    }
}

/// An entry of [`Exports`]: `exportnode`.
#[derive(Clone, Copy, Debug, Default, PartialEq, Eq, Hash)]
pub struct Export<'a> {
    /// The path of the directory.
    pub dir: &'a [u8],
    /// The names of those who may mount it; what they mean is the server's.
    pub groups: Groups<'a>,
}

/// A list of names in an [`Export`]: `groups`. It borrows the bytes of the message. Two are equal if they have the same
/// names in the same order.
#[derive(Clone, Copy)]
pub struct Groups<'a> {
    /// The list, from its first flag to its end.
    bytes: &'a [u8],
    count: usize,
}

impl<'a> Groups<'a> {
    /// How many names there are.
    #[must_use]
    pub const fn len(self) -> usize {
        self.count
    }

    /// Whether there are none.
    #[must_use]
    pub const fn is_empty(self) -> bool {
        self.count == 0
    }

    /// The names, in order.
    #[must_use]
    pub const fn iter(self) -> GroupsIter<'a> {
        GroupsIter { left: self }
    }

    /// The first name, and the rest.
    fn split(self) -> Option<(&'a [u8], Groups<'a>)> {
        let count = self.count.checked_sub(1)?;
        let mut info = [0; figures::NEXT_GROUP];
        if sys::next_group(self.bytes, 0, &mut info) != answer::DONE || info[figure::NEXT_GROUP_THERE] == 0 {
            return None;
        }
        let name = part(self.bytes, info[figure::NEXT_GROUP_NAME_AT], info[figure::NEXT_GROUP_NAME_COUNT])?;
        Some((name, Groups { bytes: self.bytes.get(info[figure::NEXT] as usize..)?, count }))
    }
}

/// The list without names.
impl Default for Groups<'_> {
    fn default() -> Self {
        Groups { bytes: &[0; 4], count: 0 }
    }
}

impl PartialEq for Groups<'_> {
    fn eq(&self, other: &Groups<'_>) -> bool {
        self.iter().eq(other.iter())
    }
}

impl Eq for Groups<'_> {}

impl Hash for Groups<'_> {
    fn hash<H: Hasher>(&self, state: &mut H) {
        self.count.hash(state);
        self.iter().for_each(|name| name.hash(state));
    }
}

impl fmt::Debug for Groups<'_> {
    fn fmt(&self, f: &mut fmt::Formatter<'_>) -> fmt::Result {
        f.debug_list().entries(self.iter()).finish()
    }
}

macro_rules! walked {
    ($list:ident, $item:ty, $(#[$about:meta])* $iter:ident) => {
        $(#[$about])*
        #[derive(Clone, Debug)]
        pub struct $iter<'a> {
            left: $list<'a>,
        }

        impl<'a> Iterator for $iter<'a> {
            type Item = $item;

            fn next(&mut self) -> Option<$item> {
                let split = self.left.split();
                self.left = split.map_or_else($list::default, |(_, rest)| rest);
                split.map(|(first, _)| first)
            }

            fn size_hint(&self) -> (usize, Option<usize>) {
                (self.left.count, Some(self.left.count))
            }
        }

        impl ExactSizeIterator for $iter<'_> {}

        impl FusedIterator for $iter<'_> {}

        impl<'a> IntoIterator for $list<'a> {
            type Item = $item;
            type IntoIter = $iter<'a>;

            fn into_iter(self) -> $iter<'a> {
                self.iter()
            }
        }
    };
}
walked! {
    Exports, Export<'a>,
    /// The entries of [`Exports`], in order.
    ExportsIter
}
walked! {
    Groups, &'a [u8],
    /// The names of [`Groups`], in order.
    GroupsIter
}

/// An entry of a list that is to be made.
#[derive(Clone, Copy, Debug, Default, PartialEq, Eq, Hash)]
pub struct Entry<'a> {
    /// The path of the directory, at most [`MNTPATHLEN`] bytes.
    pub dir: &'a [u8],
    /// The names of those who may mount it.
    pub groups: &'a [&'a [u8]],
}

/// Makes a list of entries, none too, and writes it from place `start` of `out`; gives the place after it. All other bytes
/// stay. What was written was judged: it is in published form, and [`Exports::read`] takes it.
///
/// ```
/// use yugerzat::mount::{write_entries, Entry, Exports};
///
/// let mut out = [0; 64];
/// let end = write_entries(&[Entry { dir: b"/exp", groups: &[b"me"] }, Entry { dir: b"/", groups: &[] }], &mut out, 0)?;
/// let read = Exports::read(&out, 0)?;
/// assert_eq!((read.value.len(), read.next, read.plain), (2, end, true));
/// # Ok::<(), yugerzat::Refusal>(())
/// ```
///
/// # Errors
/// `PastEnd`, `TooLong` (a path or a name), `LongPath`, `TooLong` (the whole) and `NoRoom`, in this order.
pub fn write_entries(entries: &[Entry<'_>], out: &mut [u8], start: usize) -> Result<usize, Refusal> {
    laid(Kind::Exports, out, start, |to| lay(entries, to))
}

/// Makes a list of entries, as [`write_entries`], and appends it to `out`. A refusal leaves `out` as it was.
///
/// # Errors
/// `TooLong` (a path or a name), `LongPath` and `TooLong` (the whole), in this order.
#[cfg(feature = "std")]
pub fn append_entries(entries: &[Entry<'_>], out: &mut Vec<u8>) -> Result<(), Refusal> {
    crate::append::append(out, |room| write_entries(entries, room, 0))
}

fn lay(entries: &[Entry<'_>], to: &mut Laying<'_>) -> Result<(), Refusal> {
    let too_long = |bytes: &&[u8]| bytes.len() > LIMIT;
    if entries.iter().any(|entry| too_long(&entry.dir) || entry.groups.iter().any(too_long)) {
        return Err(Refusal::TooLong);
    }
    if entries.iter().any(|entry| entry.dir.len() > MNTPATHLEN) {
        return Err(Refusal::LongPath { place: None });
    }
    for entry in entries {
        to.flag(true)?;
        to.opaque(entry.dir)?;
        for name in entry.groups {
            to.flag(true)?;
            to.opaque(name)?;
        }
        to.flag(false)?;
    }
    to.flag(false)
}
