//! Numbers at which readers go wrong.
use crate::random::Random;

/// Flags, tags, enumerations and their neighbours; signs; lengths whose padding wraps in 32 bits; program numbers.
const TELLING: &[u32] = &[
    0, 1, 2, 3, 4, 5, 6, 7, 8, 12, 13, 14, 16, 17, 22, 23, 26, 27, 28, 29, 30, 31, 32, 62, 63, 64, 65, 66, 67, 68, 69, 71,
    72, 255, 256, 400, 401, 10_000, 10_001, 10_002, 10_003, 10_004, 10_005, 10_006, 10_007, 10_008, 10_009, 65_535, 69_999,
    100_000, 100_003, 100_005, 0x0100_0000, 0x3FFF_FFFF, 0x4000_0000, 0x7FFF_FFFF, 0x8000_0000, 0x8000_0001, 0xFFFF_FFFB,
    0xFFFF_FFFC, 0xFFFF_FFFD, 0xFFFF_FFFE, 0xFFFF_FFFF,
];

/// Programs that are handed over; and others: the three that the crate names only to refuse them, and neighbours.
pub const SERVED: &[u32] = &[100_003, 100_000, 100_005];
pub const UNSERVED: &[u32] = &[100_227, 100_270, 200_024, 0, 3, 99_999, 100_001, 100_002, 100_004, 100_006, 0xFFFF_FFFF];

pub fn telling(random: &mut Random) -> u32 {
    random.pick(TELLING)
}

/// A number as a field may hold it: any, small, or a telling one.
pub fn word(random: &mut Random) -> u32 {
    match random.below(8) {
        0..=3 => random.word(),
        4 | 5 => random.below(10) as u32,
        6 => telling(random),
        _ => 0,
    }
}

/// A length of an opaque: mostly short, sometimes about a bound of an RFC, now and then long.
pub fn length(random: &mut Random) -> usize {
    match random.below(64) {
        0..=6 => 0,
        7..=47 => random.between(1, 12),
        48..=60 => random.below(48),
        61 | 62 => random.pick(&[63, 64, 65, 255, 256, 399, 400, 401]),
        _ if random.once_in(64) => random.below(70_000),
        _ => random.below(600),
    }
}

/// A count of a list of words, in the same way.
pub fn count(random: &mut Random) -> usize {
    match random.below(64) {
        0..=11 => 0,
        12..=55 => random.between(1, 6),
        56..=62 => random.pick(&[15, 16, 17, 18]),
        _ if random.once_in(64) => random.below(20_000),
        _ => random.below(150),
    }
}

/// Flags that are true, though not 1.
pub fn true_flag(random: &mut Random) -> u32 {
    let some = random.word().max(1);
    random.pick(&[2, 3, 0x100, 0x0100_0000, 0x7FFF_FFFF, 0x8000_0000, 0xFFFF_FFFF, some])
}

/// A length of a path: one in ten is about the bound.
pub fn path_length(random: &mut Random) -> usize {
    if random.once_in(10) {
        about_the_bound(random)
    } else {
        length(random)
    }
}

/// Lengths of paths that are just within the bound, and just over it.
pub fn about_the_bound(random: &mut Random) -> usize {
    random.pick(&[1_020, 1_023, 1_024, 1_024, 1_025, 1_025, 1_026, 1_028, 1_100, 2_049])
}
