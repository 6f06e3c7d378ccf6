//! How each contestant does its work. Before it is timed it does it once for each message, and its answers are looked at.
use std::hint::black_box;
use std::{ptr, slice};

use nfsserve::xdr::XDR;

use crate::measure::{contestant, Contestant, Who};
use crate::outside::{libnfs_begin, tirpc_begin};
use crate::varied::Set;

pub const ROOM: usize = 2 << 20;
/// A list of figures is never longer.
pub const FIGURES: usize = 32;

/// The memory that the work is done in. It lives as long as the program.
#[derive(Clone, Copy)]
pub struct Memory {
    pub out: *mut u8,
    pub info: *mut u64,
    pub state: *mut u64,
}

fn memory<T: Copy>(value: T, count: usize) -> *mut T {
    Vec::leak(vec![value; count]).as_mut_ptr()
}

pub fn begin() -> Memory {
    // SAFETY: called before any other function of the two; the room is larger than any message.
    unsafe {
        tirpc_begin(memory(0, ROOM));
        libnfs_begin();
    }
    Memory { out: memory(0xEE, ROOM), info: memory(0, FIGURES), state: memory(0, 7) }
}

impl Memory {
    /// Its first figures.
    pub fn figures(&self, count: usize) -> &[u64] {
        assert!(count <= FIGURES);
        // SAFETY: the list is not shorter.
        unsafe { slice::from_raw_parts(self.info, count) }
    }

    /// What a call writes: so many bytes, and nothing behind them.
    fn written(&self, count: usize, call: impl FnOnce() -> u32) -> (u32, &[u8]) {
        // SAFETY: no message is as long as the room.
        unsafe { ptr::write_bytes(self.out, 0xEE, count + 8) };
        let answer = call();
        // SAFETY: as above.
        let (written, behind) = unsafe { slice::from_raw_parts(self.out, count + 8) }.split_at(count);
        assert_eq!(behind, [0xEE; 8], "what is written is longer than {count} bytes");
        (answer, written)
    }
}

// ---- C functions. Ours and the floor's answer 0; a peer's answers how many bytes it used or wrote.

/// What is answered where all went well and a message has so many bytes.
fn due(who: Who, count: usize) -> u32 {
    match who {
        Who::Ours | Who::Floor => 0,
        _ => count as u32,
    }
}

/// Reads messages; ours and the floor's into figures.
pub fn reads(who: Who, m: Memory, set: Set, read: impl Fn(&'static [u8]) -> u32 + 'static) -> Contestant {
    for (which, src) in set.came.iter().enumerate() {
        assert_eq!(read(src), due(who, src.len()), "reading of message {which}: {src:02x?}");
        if due(who, 1) == 0 {
            assert_eq!(m.figures(2), [src.len() as u64, u64::from(set.plain(which))], "figures of message {which}");
        }
    }
    contestant(who, set.came.len(), move |which| {
        black_box(read(set.came[which]));
    })
}

/// Judges messages: the next place, whether it is plain, the length of its published form.
pub fn judges(who: Who, m: Memory, set: Set, judge: impl Fn(&'static [u8]) -> u32 + 'static) -> Contestant {
    for (which, src) in set.came.iter().enumerate() {
        assert_eq!(judge(src), 0, "judging of message {which}");
        let figures = [src.len() as u64, u64::from(set.plain(which)), set.due[which].len() as u64];
        assert_eq!(m.figures(3), figures, "figures of message {which}");
    }
    contestant(who, set.came.len(), move |which| {
        black_box(judge(set.came[which]));
    })
}

/// Rewrites messages: the published form, and nothing else, must then stand in the room.
pub fn rewrites(who: Who, m: Memory, set: Set, rewrite: impl Fn(&'static [u8]) -> u32 + 'static) -> Contestant {
    for (which, &src) in set.came.iter().enumerate() {
        let (answer, written) = m.written(set.due[which].len(), || rewrite(src));
        assert_eq!(answer, due(who, written.len()), "rewriting of message {which}");
        assert!(written == set.due[which], "message {which} is rewritten to {written:02x?}");
    }
    contestant(who, set.came.len(), move |which| {
        black_box(rewrite(set.came[which]));
    })
}

/// Writes messages by their numbers: from figures, or from values that a peer holds.
pub fn writes(who: Who, m: Memory, set: Set, write: impl Fn(usize) -> u32 + 'static) -> Contestant {
    for which in 0..set.due.len() {
        let (answer, written) = m.written(set.due[which].len(), || write(which));
        assert_eq!(answer, due(who, written.len()), "writing of message {which}");
        assert!(written == set.due[which], "message {which} is written as {written:02x?}");
    }
    contestant(who, set.due.len(), move |which| {
        black_box(write(which));
    })
}

/// The figures of all messages, for a writer, one list behind another: those that a reader gives, but for what is cut.
pub fn figures(
    m: Memory,
    set: Set,
    count: usize,
    read: impl Fn(&'static [u8]) -> u32,
    cut: impl Fn(&[u64]) -> Vec<u64>,
) -> &'static [u64] {
    let list = set.due.iter().flat_map(|src| {
        assert_eq!(read(src), 0);
        cut(m.figures(count))
    });
    Vec::leak(list.collect())
}

// ---- nfsserve. One real call for each message, as the others have.

#[inline(never)]
pub fn deserialize<T: XDR>(src: &[u8], value: &mut T) -> usize {
    let mut rest = src;
    value.deserialize(&mut rest).expect("the message is whole");
    src.len() - rest.len()
}

#[inline(never)]
fn serialize<T: XDR>(value: &T, out: &mut Vec<u8>) -> usize {
    out.clear();
    value.serialize(out).expect("a vector can be written");
    out.len()
}

/// The crate reads into the same value again and again, so that it can keep what it allocated.
pub fn nfsserve_reads<T: XDR + Default + 'static>(set: Set) -> Contestant {
    let mut value = T::default();
    for src in set.came {
        assert_eq!(deserialize(src, &mut value), src.len());
    }
    contestant(Who::Nfsserve, set.came.len(), move |which| {
        black_box(deserialize(set.came[which], &mut value));
    })
}

pub fn nfsserve_writes<T: XDR + Default + 'static>(set: Set) -> Contestant {
    let mut out = Vec::with_capacity(ROOM);
    let value = |src: &&[u8]| {
        let mut value = T::default();
        deserialize(src, &mut value);
        value
    };
    let values: Vec<T> = set.came.iter().map(value).collect();
    for (value, due) in values.iter().zip(set.due) {
        serialize(value, &mut out);
        assert_eq!(out, *due);
    }
    contestant(Who::Nfsserve, set.came.len(), move |which| {
        black_box(serialize(&values[which], &mut out));
    })
}

pub fn nfsserve_copies<T: XDR + Default + 'static>(set: Set) -> Contestant {
    let mut out = Vec::with_capacity(ROOM);
    let mut value = T::default();
    for (src, due) in set.came.iter().zip(set.due) {
        deserialize(src, &mut value);
        serialize(&value, &mut out);
        assert_eq!(out, *due);
    }
    contestant(Who::Nfsserve, set.came.len(), move |which| {
        black_box(deserialize(set.came[which], &mut value));
        black_box(serialize(&value, &mut out));
    })
}
