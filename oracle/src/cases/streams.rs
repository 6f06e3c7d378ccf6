//! Streams of fragments, the runs they are fed in, and states of the assembler.
use super::numbers::telling;
use super::Question;
use crate::answers::{State, BOUND};
use crate::random::Random;

/// A stream of some records, and the capacity it is fed into: mostly enough, often just enough or one too few.
pub fn stream(random: &mut Random) -> (Vec<u8>, usize) {
    let mut stream = Vec::new();
    let mut longest = 0;
    for _ in 0..random.between(1, 3) {
        let fragments = random.between(1, 4);
        let mut length = 0;
        for fragment in 1..=fragments {
            let count = fragment_length(random);
            let last = if fragment == fragments { 1 << 31 } else { 0 };
            stream.extend_from_slice(&(count as u32 | last).to_be_bytes());
            random.append(count, &mut stream);
            length += count;
        }
        longest = longest.max(length);
    }
    match random.below(8) {
        0 => stream.truncate(random.below(stream.len() + 1)),
        1 => {
            // One header or part of the content becomes another number; most of these don't fit.
            let at = random.below(stream.len() - 3);
            stream[at..at + 4].copy_from_slice(&telling(random).to_be_bytes());
        },
        2 => stream[0] ^= 1 << random.pick(&[6, 7]),
        3 => {
            let behind = random.below(9);
            random.append(behind, &mut stream);
        },
        _ => {},
    }
    let capacity = match random.below(8) {
        0 => longest.saturating_sub(random.between(1, 3)),
        1 | 2 => longest,
        3 => random.below(longest + 1),
        _ if random.once_in(500) => BOUND,
        _ => longest + random.below(20),
    };
    (stream, capacity)
}

fn fragment_length(random: &mut Random) -> usize {
    match random.below(16) {
        0..=3 => 0,
        4..=13 => random.between(1, 12),
        14 => random.below(300),
        _ if random.once_in(50) => random.below(70_000),
        _ => random.below(60),
    }
}

/// A stream cut into runs; some are empty.
pub fn cuts(random: &mut Random, stream: &[u8]) -> Vec<Vec<u8>> {
    let mut runs = Vec::new();
    let mut rest = stream;
    let byte_by_byte = random.once_in(8) && stream.len() < 200;
    while !rest.is_empty() {
        let count = match random.below(4) {
            _ if byte_by_byte => 1,
            0 => rest.len(),
            1 => random.below(rest.len() + 1),
            _ => random.below(12).min(rest.len()),
        };
        let (run, after) = rest.split_at(count);
        runs.push(run.to_vec());
        rest = after;
    }
    runs
}

/// The lengths of runs for a stream of so many bytes: none (it is fed whole), bytes, or any.
pub fn cutting(random: &mut Random, count: usize) -> Vec<usize> {
    match random.below(6) {
        0 => Vec::new(),
        1 if count < 400 => vec![1; count],
        _ => run_lengths(random, count),
    }
}

/// Lengths of runs, some of them 0, for a stream of so many bytes. They may end before the stream does, and go past its end.
pub fn run_lengths(random: &mut Random, count: usize) -> Vec<usize> {
    let longest = random.pick(&[3, 12, 90, count + 8]);
    let mut left = if random.once_in(4) { random.below(count + 1) } else { count };
    let mut lengths = Vec::new();
    loop {
        let length = if random.once_in(8) { 0 } else { random.below(longest + 1) };
        lengths.push(length);
        if length >= left {
            return lengths;
        }
        left -= length;
    }
}

/// A state near the border between those that fit and those that don't, and a run for it.
pub fn state(random: &mut Random) -> Question {
    let length = if random.once_in(3_000) { random.between(BOUND - 1, BOUND + 1) } else { random.below(24) };
    let near = |border: u64, random: &mut Random| match random.below(24) {
        0..=7 => 0,
        8..=15 => random.below(border as usize + 1) as u64,
        16..=20 => border,
        21 => border + 1,
        22 => u64::MAX,
        _ => border.wrapping_sub(1),
    };
    let capacity = if random.once_in(12) { near(length as u64, random) } else { length as u64 };
    let placed = near(length as u64, random);
    let (count, value) = match random.below(8) {
        0 => (random.below(6) as u64, near(0xFFFF, random)),
        1..=3 => {
            let count = random.between(1, 3) as u64;
            let value = random.below(256_usize.pow(count as u32)) as u64;
            (count, if random.once_in(8) { 256_u64.pow(count as u32) } else { value })
        },
        _ => (0, u64::from(random.once_in(20))),
    };
    let left = if count == 0 || random.once_in(8) { near((length as u64).saturating_sub(placed), random) } else { 0 };
    let last = if left == 0 { random.once_in(12) } else { random.once_in(2) };
    let stopped = random.once_in(8);
    let state = State { capacity, placed, count, value, left, last, stopped };
    let mut run = Vec::new();
    let behind = random.below(20);
    random.append(behind, &mut run);
    if count == 0 && run.len() > left as usize % 32 + 3 && random.once_in(2) {
        // A header that may fit, so that more than the first fragment is seen.
        let at = left as usize % 32;
        let header = random.below(12) as u32 | (u32::from(random.once_in(2)) << 31);
        run[at..at + 4].copy_from_slice(&header.to_be_bytes());
    }
    Question::State { state, length, run }
}
