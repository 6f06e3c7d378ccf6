//! Messages in published form: those that the floor is held to, and those that lists are timed with.

pub fn words(numbers: &[u32]) -> Vec<u8> {
    numbers.iter().flat_map(|n| n.to_be_bytes()).collect()
}

pub fn opaque(bytes: &[u8]) -> Vec<u8> {
    let mut all = words(&[bytes.len() as u32]);
    all.extend_from_slice(bytes);
    all.resize(all.len().next_multiple_of(4), 0);
    all
}

pub const HANDLE: [u8; 28] = [0x5A; 28];
pub const NAME: &[u8] = b"minutes-2026-11.txt";

pub fn auth_unix() -> Vec<u8> {
    auth_unix_with(b"workstation", &[4, 24, 27, 30, 1000])
}

/// The credential of a machine of this name, and with these groups.
pub fn auth_unix_with(name: &[u8], gids: &[u32]) -> Vec<u8> {
    let mut all = words(&[0x5F37_59DF]);
    all.extend(opaque(name));
    all.extend(words(&[1000, 1000, gids.len() as u32]));
    all.extend(words(gids));
    all
}

/// SETATTR of NFS version 3, by a caller with five groups; without its arguments.
pub fn call() -> Vec<u8> {
    call_with(&auth_unix(), &[])
}

/// The same with these bodies of a credential and a verifier.
pub fn call_with(cred: &[u8], verf: &[u8]) -> Vec<u8> {
    let mut all = words(&[0x2A, 0, 2, 100_003, 3, 2, 1]);
    all.extend(opaque(cred));
    all.extend(words(&[0]));
    all.extend(opaque(verf));
    all
}

pub fn fattr3() -> Vec<u8> {
    words(&[2, 0o755, 3, 1000, 1000, 0, 4096, 0, 8192, 8, 1, 0, 77, 0, 123_456, 1, 2, 3, 4, 5, 6])
}

pub fn sattr3_full() -> Vec<u8> {
    words(&[1, 0o644, 1, 1000, 1, 1000, 1, 0, 4096, 2, 7, 8, 2, 9, 10])
}

pub fn sattr3_empty() -> Vec<u8> {
    words(&[0; 6])
}

pub fn diropargs3() -> Vec<u8> {
    let mut all = opaque(&HANDLE);
    all.extend(opaque(NAME));
    all
}

/// A READ that succeeded, at the file's end.
pub fn read3res(data: &[u8]) -> Vec<u8> {
    read3res_with(true, data)
}

/// The same with attributes, or without.
pub fn read3res_with(attributes: bool, data: &[u8]) -> Vec<u8> {
    let mut all = words(&[0, u32::from(attributes)]);
    if attributes {
        all.extend(fattr3());
    }
    all.extend(words(&[data.len() as u32, 1]));
    all.extend(opaque(data));
    all
}

/// A READ with this status, and no attributes.
pub fn read3res_failed(status: u32) -> Vec<u8> {
    words(&[status, 0])
}

/// A WRITE of these bytes at 4,096, which are to be on the disk when it is answered.
pub fn write3args(data: &[u8]) -> Vec<u8> {
    write3args_to(&HANDLE, data)
}

/// The same to the file of this handle.
pub fn write3args_to(handle: &[u8], data: &[u8]) -> Vec<u8> {
    let mut all = opaque(handle);
    all.extend(words(&[0, 4096, data.len() as u32, 2]));
    all.extend(opaque(data));
    all
}

/// A REPLY whose body is these words.
pub fn reply(body: &[u32]) -> Vec<u8> {
    let mut all = words(&[0x2A, 1]);
    all.extend(words(body));
    all
}

/// An export list: of each entry its path, and the names of its groups.
pub fn exports(entries: impl IntoIterator<Item = (String, Vec<String>)>) -> Vec<u8> {
    let mut all = Vec::new();
    for (path, names) in entries {
        all.extend(words(&[1]));
        all.extend(opaque(path.as_bytes()));
        for name in names {
            all.extend(words(&[1]));
            all.extend(opaque(name.as_bytes()));
        }
        all.extend(words(&[0]));
    }
    all.extend(words(&[0]));
    all
}

/// An export list without groups, in which every fourth entry has a path. 80,000 entries with a path each would be longer
/// than a message may be.
pub fn short_exports(count: usize) -> Vec<u8> {
    let path = |n| if n % 4 == 0 { format!("/{:02}", n / 4 % 100) } else { String::new() };
    exports((0..count).map(|n| (path(n), Vec::new())))
}

/// An export list with a path and a group in each entry.
pub fn grouped_exports(count: usize) -> Vec<u8> {
    exports((0..count).map(|n| (format!("/v/{n:05}"), vec![format!("g{:03}", n % 1000)])))
}
