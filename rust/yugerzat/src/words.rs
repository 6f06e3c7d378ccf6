use core::fmt;
use core::iter::FusedIterator;
use core::slice::ChunksExact;

use crate::part;

/// A list of words, as it stands in a message: four bytes each, the most significant first.
///
/// ```
/// use yugerzat::Words;
///
/// let words = Words::new(&[0, 0, 0, 7, 0, 0, 1, 0]).expect("whole words");
/// assert_eq!(words.len(), 2);
/// assert!(words.iter().eq([7, 256]));
/// assert_eq!(Words::new(&[0, 0, 0, 7, 0]), None);
/// ```
#[derive(Clone, Copy, Default, PartialEq, Eq, Hash)]
pub struct Words<'a> {
    /// Four for each word.
    bytes: &'a [u8],
}

impl<'a> Words<'a> {
    /// The words of these bytes, or none where the last word is not whole.
    #[must_use]
    pub const fn new(bytes: &'a [u8]) -> Option<Words<'a>> {
        if bytes.len() % 4 == 0 {
            Some(Words { bytes })
        } else {
            None
        }
    }

    /// Those at place `at` of `bytes`, `count` words.
    pub(crate) fn of(bytes: &'a [u8], at: u64, count: u64) -> Option<Words<'a>> {
        part(bytes, at, count.checked_mul(4)?).and_then(Words::new)
    }

    /// Their bytes.
    #[must_use]
    pub const fn as_bytes(self) -> &'a [u8] {
        self.bytes
    }

    /// How many words there are.
    #[must_use]
    pub const fn len(self) -> usize {
        self.bytes.len() / 4
    }

    /// Whether there are none.
    #[must_use]
    pub const fn is_empty(self) -> bool {
        self.bytes.is_empty()
    }

    /// The words as numbers, in order.
    #[must_use]
    pub fn iter(self) -> WordsIter<'a> {
        WordsIter { words: self.bytes.chunks_exact(4) }
    }
}

impl fmt::Debug for Words<'_> {
    fn fmt(&self, f: &mut fmt::Formatter<'_>) -> fmt::Result {
        f.debug_list().entries(self.iter()).finish()
    }
}

impl<'a> IntoIterator for Words<'a> {
    type Item = u32;
    type IntoIter = WordsIter<'a>;

    fn into_iter(self) -> WordsIter<'a> {
        self.iter()
    }
}

/// The numbers of [`Words`], in order.
#[derive(Clone, Debug)]
pub struct WordsIter<'a> {
    words: ChunksExact<'a, u8>,
}

fn number(word: &[u8]) -> u32 {
    word.iter().fold(0, |number, byte| number << 8 | u32::from(*byte))
}

impl Iterator for WordsIter<'_> {
    type Item = u32;

    fn next(&mut self) -> Option<u32> {
        self.words.next().map(number)
    }

    fn size_hint(&self) -> (usize, Option<usize>) {
        self.words.size_hint()
    }
}

impl DoubleEndedIterator for WordsIter<'_> {
    fn next_back(&mut self) -> Option<u32> {
        self.words.next_back().map(number)
    }
}

impl ExactSizeIterator for WordsIter<'_> {}

impl FusedIterator for WordsIter<'_> {}
