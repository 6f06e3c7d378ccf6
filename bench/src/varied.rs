//! The messages that are timed: 512 for a row, so that a processor's branches are not trained on one. They differ in their
//! values, in the lengths of what they hold, and in their addresses, and they are the same in every run. Every round takes
//! them in another order (measure.rs).
use crate::messages::{opaque, words};

pub const COUNT: usize = 512;

/// Numbers that look random: xorshift from a constant seed.
pub struct Numbers(u64);

impl Numbers {
    pub fn new() -> Numbers {
        Numbers(0x9E37_79B9_7F4A_7C15)
    }

    pub fn word(&mut self) -> u32 {
        self.0 ^= self.0 << 13;
        self.0 ^= self.0 >> 7;
        self.0 ^= self.0 << 17;
        (self.0 >> 24) as u32
    }

    /// From one number to another, both included.
    pub fn within(&mut self, least: u32, most: u32) -> u32 {
        least + self.word() % (most - least + 1)
    }

    pub fn bytes(&mut self, count: u32) -> Vec<u8> {
        (0..count).map(|_| self.word() as u8).collect()
    }

    /// A name of letters and digits.
    fn name(&mut self, count: u32) -> Vec<u8> {
        let letters = b"abcdefghijklmnopqrstuvwxyz0123456789-.";
        (0..count).map(|_| letters[self.word() as usize % letters.len()]).collect()
    }

    /// Mostly 28 to 64 bytes, as servers make them, and always whole words then.
    fn handle(&mut self) -> Vec<u8> {
        let count = if self.within(0, 7) == 0 { self.within(0, 64) } else { 4 * self.within(7, 16) };
        self.bytes(count)
    }
}

// ---- one of each kind

pub fn auth_unix(n: &mut Numbers) -> Vec<u8> {
    let (name, gids) = (n.within(1, 40), n.within(0, 16));
    let mut all = words(&[n.word()]);
    all.extend(opaque(&n.name(name)));
    all.extend(words(&[n.word() % 70_000, n.word() % 70_000, gids]));
    all.extend((0..gids).flat_map(|_| words(&[n.word() % 70_000])));
    all
}

/// A call of NFS version 3, without its arguments.
pub fn call(n: &mut Numbers) -> Vec<u8> {
    let mut all = words(&[n.word(), 0, 2, 100_003, 3, n.within(0, 21), 1]);
    all.extend(opaque(&auth_unix(n)));
    all.extend(words(&[0, 0]));
    all
}

pub fn fattr3(n: &mut Numbers) -> Vec<u8> {
    let mut all = words(&[n.within(1, 7)]);
    all.extend((0..20).flat_map(|_| n.word().to_be_bytes()));
    all
}

/// Attributes to be set: the flags of mode, uid, gid and size, and the tags of both times.
pub fn sattr3(n: &mut Numbers, flags: [u32; 4], tags: [u32; 2]) -> Vec<u8> {
    let mut all = Vec::new();
    for (flag, count) in flags.into_iter().zip([1, 1, 1, 2]) {
        all.extend(words(&[flag]));
        all.extend((0..if flag == 0 { 0 } else { count }).flat_map(|_| words(&[n.word()])));
    }
    for tag in tags {
        all.extend(words(&[tag]));
        all.extend((0..if tag == 2 { 2 } else { 0 }).flat_map(|_| words(&[n.word()])));
    }
    all
}

pub fn sattr3_full(n: &mut Numbers) -> Vec<u8> {
    sattr3(n, [1; 4], [2; 2])
}

pub fn sattr3_empty(n: &mut Numbers) -> Vec<u8> {
    sattr3(n, [0; 4], [0; 2])
}

pub fn sattr3_mixed(n: &mut Numbers) -> Vec<u8> {
    let flags = [(); 4].map(|()| n.within(0, 1));
    let tags = [(); 2].map(|()| n.within(0, 2));
    sattr3(n, flags, tags)
}

pub fn diropargs3(n: &mut Numbers) -> Vec<u8> {
    let (handle, name) = (n.handle(), n.within(1, 40));
    let mut all = opaque(&handle);
    all.extend(opaque(&n.name(name)));
    all
}

// ---- loose ones, each with its published form

pub struct Loose {
    pub came: Vec<u8>,
    pub due: Vec<u8>,
}

/// Flags of FFFFFFFF. One at least is set.
pub fn sattr3_loose(n: &mut Numbers) -> Loose {
    let flags = [n.within(0, 1), n.within(0, 1), n.within(0, 1), 1];
    let tags = [(); 2].map(|()| n.within(0, 2));
    let due = sattr3(n, flags, tags);
    let (mut came, mut place) = (due.clone(), 0);
    for (flag, size) in flags.into_iter().zip([4, 4, 4, 8]) {
        if flag == 1 {
            came[place..place + 4].fill(0xFF);
            place += size;
        }
        place += 4;
    }
    Loose { came, due }
}

/// Dirt in the padding of the name, and of the handle if that has padding.
pub fn diropargs3_loose(n: &mut Numbers) -> Loose {
    let handle = n.handle();
    let name = 4 * n.within(0, 9) + n.within(1, 3);
    let name = n.name(name);
    let due = [opaque(&handle), opaque(&name)].concat();
    let mut came = due.clone();
    let (first, second) = (4 + handle.len(), opaque(&handle).len() + 4 + name.len());
    came[first..first.next_multiple_of(4)].fill(0xA5);
    came[second..].fill(0xA5);
    Loose { came, due }
}

// ---- the messages of a row

/// Messages as they came, and their published forms. They live as long as the program.
#[derive(Clone, Copy)]
pub struct Set {
    pub came: &'static [&'static [u8]],
    pub due: &'static [&'static [u8]],
}

impl Set {
    pub fn plain(self, which: usize) -> bool {
        self.came[which] == self.due[which]
    }
}

/// Lays messages one behind another, with up to three words between them.
fn laid(n: &mut Numbers, messages: Vec<Vec<u8>>) -> &'static [&'static [u8]] {
    let (mut all, mut places) = (Vec::new(), Vec::new());
    for message in &messages {
        let gap = 4 * n.within(0, 3) as usize;
        all.resize(all.len() + gap, 0xEE);
        places.push(all.len()..all.len() + message.len());
        all.extend_from_slice(message);
    }
    let all: &'static [u8] = Vec::leak(all);
    Vec::leak(places.into_iter().map(|place| &all[place]).collect())
}

/// As many as a row has, in published form.
pub fn set(one: fn(&mut Numbers) -> Vec<u8>) -> Set {
    let mut n = Numbers::new();
    let messages = (0..COUNT).map(|_| one(&mut n)).collect();
    let came = laid(&mut n, messages);
    Set { came, due: came }
}

pub fn loose_set(one: fn(&mut Numbers) -> Loose) -> Set {
    let mut n = Numbers::new();
    let (came, due) = (0..COUNT).map(|_| one(&mut n)).map(|loose| (loose.came, loose.due)).unzip();
    Set { came: laid(&mut n, came), due: laid(&mut n, due) }
}

/// One message.
pub fn alone(message: Vec<u8>) -> Set {
    let came = Vec::leak(vec![&*Vec::leak(message)]);
    Set { came, due: came }
}

/// Messages that end with some 64 KiB of data, to be judged. Each begins where the header of the one before it ends, and
/// what follows is its data, the next headers among it. So they share their data: 512 times 64 KiB would not stay in the
/// cache.
fn sharing(header: fn(&mut Numbers, u32) -> Vec<u8>) -> Set {
    const DATA: usize = 65_536;
    let mut n = Numbers::new();
    let (mut all, mut places) = (Vec::new(), Vec::new());
    for _ in 0..COUNT {
        let data = n.within(DATA as u32 - 1024, DATA as u32);
        let begin = all.len();
        all.extend(header(&mut n, data));
        all.extend(words(&[data]));
        places.push(begin..all.len() + (data as usize).next_multiple_of(4));
    }
    // What follows the headers is zero, and so is all padding: every message ends there.
    all.resize(all.len() + DATA, 0);
    let all: &'static [u8] = Vec::leak(all);
    let came = Vec::leak(places.into_iter().map(|place| &all[place]).collect());
    Set { came, due: came }
}

/// READs that succeeded, three of four with attributes.
pub fn read3res() -> Set {
    sharing(|n, data| {
        let follow = n.within(0, 3) > 0;
        let mut all = words(&[0, u32::from(follow)]);
        if follow {
            all.extend(fattr3(n));
        }
        all.extend(words(&[data, n.within(0, 1)]));
        all
    })
}

pub fn write3args() -> Set {
    sharing(|n, data| {
        let mut all = opaque(&n.handle());
        all.extend(words(&[0, n.word(), data, n.within(0, 2)]));
        all
    })
}
