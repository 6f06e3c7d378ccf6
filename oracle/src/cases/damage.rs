//! Damage done to a message: most of it small, so that the reading goes far before it meets it.
use super::messages::Word;
use super::numbers::telling;
use crate::random::Random;

/// Damages the message that begins at a place, once or twice. `words` are its steering words.
pub fn damage(random: &mut Random, at: usize, bytes: &mut Vec<u8>, words: &mut Vec<Word>) {
    for _ in 0..1 + usize::from(random.once_in(4)) {
        once(random, at, bytes, words);
        words.retain(|word| place(word) + 4 <= bytes.len());
    }
}

/// Makes a steering word one more or one less: beside a declared number is the first one that is not.
pub fn beside(random: &mut Random, bytes: &mut [u8], words: &[Word]) {
    if !words.is_empty() {
        let word = place(&random.pick(words));
        let off = random.pick(&[1, u32::MAX]);
        set(bytes, word, get(bytes, word).wrapping_add(off));
    }
}

fn once(random: &mut Random, at: usize, bytes: &mut Vec<u8>, words: &mut [Word]) {
    let length = bytes.len() - at.min(bytes.len());
    match random.below(12) {
        0..=2 => bytes.truncate(at + random.below(length + 1)),
        3 => bytes.truncate(bytes.len() - random.below(5.min(length + 1))),
        4 if length > 0 => bytes[at + random.below(length)] ^= 1 << random.below(8),
        5 if length > 3 => {
            let word = at + 4 * random.below(length / 4);
            let number = telling(random);
            set(bytes, word, number);
        },
        6 | 7 if !words.is_empty() => {
            let word = place(&random.pick(words));
            let number = telling(random);
            set(bytes, word, number);
        },
        8 => {
            if let Some(word) = random.pick_some(words, |word| matches!(word, Word::Length(_))) {
                let claimed = get(bytes, place(&word));
                let off = random.pick(&[1_u32, 1, 2, 3, 4, 8, u32::MAX, u32::MAX, u32::MAX - 1, u32::MAX - 3]);
                set(bytes, place(&word), claimed.wrapping_add(off));
            }
        },
        9 => {
            let behind = random.between(1, 20);
            random.append(behind, bytes);
        },
        10 => {
            let here = at + random.below(length + 1);
            if random.once_in(2) {
                let count = random.pick(&[1, 4]).min(bytes.len() - here.min(bytes.len()));
                bytes.drain(here..here + count);
            } else {
                let number = telling(random).to_be_bytes();
                bytes.splice(here..here, number.into_iter().take(random.pick(&[1, 4])));
            }
        },
        11 if random.once_in(4) => {
            bytes.truncate(at);
            let count = random.below(60);
            random.append(count, bytes);
        },
        _ => bytes.extend_from_within(at.min(bytes.len())..),
    }
}

fn place(word: &Word) -> usize {
    match word {
        Word::Length(place) | Word::Number(place) => *place,
    }
}

fn get(bytes: &[u8], at: usize) -> u32 {
    u32::from_be_bytes([bytes[at], bytes[at + 1], bytes[at + 2], bytes[at + 3]])
}

fn set(bytes: &mut [u8], at: usize, number: u32) {
    bytes[at..at + 4].copy_from_slice(&number.to_be_bytes());
}
