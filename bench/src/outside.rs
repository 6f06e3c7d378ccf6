//! The C functions: ours, the floor's, and the peers'. A slice passes as its address and its length.

// Each kind of a peer is declared in all three ways.
#![allow(dead_code)]

macro_rules! readers {
    ($($name:ident)*) => { extern "C" {
        $(pub fn $name(src: *const u8, len: usize, at: usize, info: *mut u64, infos: usize) -> u32;)*
    } };
}
macro_rules! writers {
    ($($name:ident)*) => { extern "C" {
        $(pub fn $name(
            fields: *const u64, count: usize, out: *mut u8, room: usize, start: usize, info: *mut u64, infos: usize,
        ) -> u32;)*
    } };
}
macro_rules! writers_from_two {
    ($($name:ident)*) => { extern "C" {
        $(pub fn $name(
            src: *const u8, len: usize, other: *const u8, others: usize, fields: *const u64, count: usize, out: *mut u8,
            room: usize, start: usize, info: *mut u64, infos: usize,
        ) -> u32;)*
    } };
}
macro_rules! copiers {
    ($($name:ident)*) => { extern "C" {
        $(pub fn $name(
            src: *const u8, len: usize, at: usize, out: *mut u8, room: usize, info: *mut u64, infos: usize,
        ) -> u32;)*
    } };
}
macro_rules! list_writers {
    ($($name:ident)*) => { extern "C" {
        $(pub fn $name(
            src: *const u8, len: usize, place: usize, count: usize, out: *mut u8, room: usize, start: usize, info: *mut u64,
            infos: usize,
        ) -> u32;)*
    } };
}
macro_rules! peers {
    ($($read:ident $copy:ident)*) => { extern "C" {
        $(
            pub fn $read(src: *const u8, len: usize) -> u32;
            pub fn $copy(src: *const u8, len: usize, out: *mut u8, room: usize) -> u32;
        )*
    } };
}
/// A peer holds values by their numbers.
macro_rules! holders {
    ($($hold:ident $write:ident)*) => { extern "C" {
        $(
            pub fn $hold(which: usize, src: *const u8, len: usize) -> u32;
            pub fn $write(which: usize, out: *mut u8, room: usize) -> u32;
        )*
    } };
}
macro_rules! makers {
    ($($name:ident)*) => { extern "C" {
        $(pub fn $name(which: u32, out: *mut u8, room: usize) -> u32;)*
    } };
}

/// By the number of a kind.
macro_rules! choosers {
    ($($judge:ident $rewrite:ident)*) => { extern "C" {
        $(
            pub fn $judge(kind: u32, src: *const u8, len: usize, at: usize, info: *mut u64, infos: usize) -> u32;
            pub fn $rewrite(
                kind: u32, src: *const u8, len: usize, at: usize, out: *mut u8, room: usize, info: *mut u64, infos: usize,
            ) -> u32;
        )*
    } };
}

extern "C" {
    pub fn yugerzat_feed(
        state: *mut u64,
        states: usize,
        run: *const u8,
        len: usize,
        buf: *mut u8,
        room: usize,
        info: *mut u64,
        infos: usize,
    ) -> u32;
    pub fn yugerzat_fragment(
        message: *const u8,
        len: usize,
        out: *mut u8,
        room: usize,
        start: usize,
        info: *mut u64,
        infos: usize,
    ) -> u32;
    pub fn yugerzat_read_auth_unix(src: *const u8, len: usize, at: usize, count: usize, info: *mut u64, infos: usize)
        -> u32;
    pub fn floor_read_auth_unix(src: *const u8, len: usize, at: usize, count: usize, info: *mut u64, infos: usize) -> u32;
}
choosers! { yugerzat_judge yugerzat_rewrite floor_judge floor_rewrite }
readers! { yugerzat_read_rpc_msg yugerzat_read_fattr3 yugerzat_read_sattr3 yugerzat_read_diropargs3
yugerzat_read_exports yugerzat_next_export yugerzat_next_group
yugerzat_judge_rpc_msg yugerzat_judge_read3res yugerzat_judge_write3args
floor_read_rpc_msg floor_read_fattr3 floor_read_sattr3 floor_read_diropargs3
floor_read_exports floor_next_export floor_next_group
floor_judge_rpc_msg floor_judge_auth_unix floor_judge_fattr3 floor_judge_sattr3 floor_judge_diropargs3
floor_judge_opaque floor_judge_read3res floor_judge_write3args floor_judge_exports }
writers! { yugerzat_write_fattr3 yugerzat_write_sattr3 floor_write_fattr3 floor_write_sattr3 }
writers_from_two! { yugerzat_write_diropargs3 yugerzat_write_call floor_write_diropargs3 floor_write_call }
copiers! { yugerzat_rewrite_rpc_msg yugerzat_rewrite_auth_unix yugerzat_rewrite_fattr3 yugerzat_rewrite_sattr3
yugerzat_rewrite_diropargs3 yugerzat_rewrite_read3res yugerzat_rewrite_write3args
floor_copy_rpc_msg floor_copy_auth_unix floor_copy_fattr3 floor_copy_sattr3 floor_copy_diropargs3
floor_copy_opaque floor_copy_read3res floor_copy_write3args floor_copy_exports }
list_writers! { yugerzat_write_exports floor_write_exports }

extern "C" {
    pub fn tirpc_begin(room: *mut u8);
    pub fn tirpc_read_call_and_auth_unix(src: *const u8, len: usize) -> u32;
    pub fn tirpc_hold_exports(src: *const u8, len: usize) -> u32;
    pub fn tirpc_write_exports(out: *mut u8, room: usize) -> u32;
    pub fn tirpc_walk_exports(src: *const u8, len: usize) -> u32;
    pub fn tirpc_stack(src: *const u8, len: usize) -> usize;
    pub fn libnfs_begin();
    pub fn libnfs_hold_exports(src: *const u8, len: usize) -> u32;
    pub fn libnfs_write_exports(out: *mut u8, room: usize) -> u32;
    pub fn libnfs_walk_exports(src: *const u8, len: usize) -> u32;
    pub fn count_begin();
    pub fn count_end(name: *const std::ffi::c_char);
}
peers! {
    tirpc_read_rpc_msg tirpc_copy_rpc_msg
    tirpc_read_auth_unix tirpc_copy_auth_unix
    tirpc_read_fattr3 tirpc_copy_fattr3
    tirpc_read_sattr3 tirpc_copy_sattr3
    tirpc_read_diropargs3 tirpc_copy_diropargs3
    tirpc_read_opaque tirpc_copy_opaque
    tirpc_read_read3res tirpc_copy_read3res
    tirpc_read_write3args tirpc_copy_write3args
    tirpc_read_exports tirpc_copy_exports
    libnfs_read_rpc_msg libnfs_copy_rpc_msg
    libnfs_read_fattr3 libnfs_copy_fattr3
    libnfs_read_sattr3 libnfs_copy_sattr3
    libnfs_read_diropargs3 libnfs_copy_diropargs3
    libnfs_read_opaque libnfs_copy_opaque
    libnfs_read_read3res libnfs_copy_read3res
    libnfs_read_write3args libnfs_copy_write3args
    libnfs_read_exports libnfs_copy_exports
}
holders! {
    tirpc_hold_rpc_msg tirpc_write_rpc_msg
    tirpc_hold_fattr3 tirpc_write_fattr3
    tirpc_hold_sattr3 tirpc_write_sattr3
    tirpc_hold_diropargs3 tirpc_write_diropargs3
    libnfs_hold_rpc_msg libnfs_write_rpc_msg
    libnfs_hold_fattr3 libnfs_write_fattr3
    libnfs_hold_sattr3 libnfs_write_sattr3
    libnfs_hold_diropargs3 libnfs_write_diropargs3
}
makers! {
    tirpc_make_stable_how tirpc_make_sattrguard3
    tirpc_make_getattr3args tirpc_make_getattr3res tirpc_make_setattr3args tirpc_make_setattr3res
    tirpc_make_lookup3args tirpc_make_lookup3res tirpc_make_read3args tirpc_make_read3res
    tirpc_make_write3args tirpc_make_write3res tirpc_make_exports
    libnfs_make_stable_how libnfs_make_sattrguard3
    libnfs_make_getattr3args libnfs_make_getattr3res libnfs_make_setattr3args libnfs_make_setattr3res
    libnfs_make_lookup3args libnfs_make_lookup3res libnfs_make_read3args libnfs_make_read3res
    libnfs_make_write3args libnfs_make_write3res libnfs_make_exports
}
