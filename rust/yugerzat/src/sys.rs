//! The library's own functions, as `include/yugerzat_list.h` declares them, behind safe ones that hand over each slice as
//! its address and its length. This is the only unsafe code of the crate. A test in names.rs holds the declarations to the
//! header.

use crate::Kind;

mod raw {
    extern "C" {
        // By the kind's number: only a test below calls these two.
        #[cfg_attr(not(test), allow(dead_code))]
        pub fn yugerzat_rewrite(
            kind: u32,
            src: *const u8,
            src_len: usize,
            at: usize,
            out: *mut u8,
            out_len: usize,
            info: *mut u64,
            info_len: usize,
        ) -> u32;
        #[cfg_attr(not(test), allow(dead_code))]
        pub fn yugerzat_judge(kind: u32, src: *const u8, src_len: usize, at: usize, info: *mut u64, info_len: usize) -> u32;
        pub fn yugerzat_marks(kind: u32, src: *const u8, src_len: usize, at: usize, info: *mut u64, info_len: usize) -> u32;
        pub fn yugerzat_read_rpc_msg(
            message: *const u8,
            message_len: usize,
            at: usize,
            info: *mut u64,
            info_len: usize,
        ) -> u32;
        pub fn yugerzat_read_current_rpc_msg(
            message: *const u8,
            message_len: usize,
            at: usize,
            info: *mut u64,
            info_len: usize,
        ) -> u32;
        pub fn yugerzat_write_call(
            cred_source: *const u8,
            cred_source_len: usize,
            verf_source: *const u8,
            verf_source_len: usize,
            fields: *const u64,
            fields_len: usize,
            out: *mut u8,
            out_len: usize,
            start: usize,
            info: *mut u64,
            info_len: usize,
        ) -> u32;
        pub fn yugerzat_write_reply(
            source: *const u8,
            source_len: usize,
            fields: *const u64,
            fields_len: usize,
            out: *mut u8,
            out_len: usize,
            start: usize,
            info: *mut u64,
            info_len: usize,
        ) -> u32;
        pub fn yugerzat_write_current_reply(
            source: *const u8,
            source_len: usize,
            fields: *const u64,
            fields_len: usize,
            out: *mut u8,
            out_len: usize,
            start: usize,
            info: *mut u64,
            info_len: usize,
        ) -> u32;
        pub fn yugerzat_read_auth_unix(
            message: *const u8,
            message_len: usize,
            at: usize,
            count: usize,
            info: *mut u64,
            info_len: usize,
        ) -> u32;
        pub fn yugerzat_write_auth_unix(
            name_source: *const u8,
            name_source_len: usize,
            gids_source: *const u8,
            gids_source_len: usize,
            fields: *const u64,
            fields_len: usize,
            out: *mut u8,
            out_len: usize,
            start: usize,
            info: *mut u64,
            info_len: usize,
        ) -> u32;
        pub fn yugerzat_read_fattr3(src: *const u8, src_len: usize, at: usize, info: *mut u64, info_len: usize) -> u32;
        pub fn yugerzat_write_fattr3(
            fields: *const u64,
            fields_len: usize,
            out: *mut u8,
            out_len: usize,
            start: usize,
            info: *mut u64,
            info_len: usize,
        ) -> u32;
        pub fn yugerzat_read_sattr3(src: *const u8, src_len: usize, at: usize, info: *mut u64, info_len: usize) -> u32;
        pub fn yugerzat_write_sattr3(
            fields: *const u64,
            fields_len: usize,
            out: *mut u8,
            out_len: usize,
            start: usize,
            info: *mut u64,
            info_len: usize,
        ) -> u32;
        pub fn yugerzat_read_diropargs3(src: *const u8, src_len: usize, at: usize, info: *mut u64, info_len: usize) -> u32;
        pub fn yugerzat_write_diropargs3(
            dir_source: *const u8,
            dir_source_len: usize,
            name_source: *const u8,
            name_source_len: usize,
            fields: *const u64,
            fields_len: usize,
            out: *mut u8,
            out_len: usize,
            start: usize,
            info: *mut u64,
            info_len: usize,
        ) -> u32;
        pub fn yugerzat_feed(
            state: *mut u64,
            state_len: usize,
            run: *const u8,
            run_len: usize,
            buf: *mut u8,
            buf_len: usize,
            info: *mut u64,
            info_len: usize,
        ) -> u32;
        pub fn yugerzat_fragment(
            message: *const u8,
            message_len: usize,
            out: *mut u8,
            out_len: usize,
            start: usize,
            info: *mut u64,
            info_len: usize,
        ) -> u32;
        pub fn yugerzat_choose(
            message: *const u8,
            message_len: usize,
            seen: u32,
            out: *mut u8,
            out_len: usize,
            info: *mut u64,
            info_len: usize,
        ) -> u32;
        pub fn yugerzat_current_choose(
            message: *const u8,
            message_len: usize,
            seen: u32,
            out: *mut u8,
            out_len: usize,
            info: *mut u64,
            info_len: usize,
        ) -> u32;
        pub fn yugerzat_ask(
            message: *const u8,
            message_len: usize,
            seen: u32,
            out: *mut u8,
            out_len: usize,
            info: *mut u64,
            info_len: usize,
        ) -> u32;
        pub fn yugerzat_read_exports(src: *const u8, src_len: usize, at: usize, info: *mut u64, info_len: usize) -> u32;
        pub fn yugerzat_next_export(src: *const u8, src_len: usize, at: usize, info: *mut u64, info_len: usize) -> u32;
        pub fn yugerzat_next_group(src: *const u8, src_len: usize, at: usize, info: *mut u64, info_len: usize) -> u32;
        pub fn yugerzat_write_dirpath(
            source: *const u8,
            source_len: usize,
            at: usize,
            count: usize,
            out: *mut u8,
            out_len: usize,
            start: usize,
            info: *mut u64,
            info_len: usize,
        ) -> u32;
        pub fn yugerzat_write_exports(
            source: *const u8,
            source_len: usize,
            at: usize,
            count: usize,
            out: *mut u8,
            out_len: usize,
            start: usize,
            info: *mut u64,
            info_len: usize,
        ) -> u32;
        pub fn yugerzat_same_exports(
            one: *const u8,
            one_len: usize,
            one_at: usize,
            one_count: usize,
            other: *const u8,
            other_len: usize,
            other_at: usize,
            other_count: usize,
            info: *mut u64,
            info_len: usize,
        ) -> u32;
    }
}

// SAFETY of every call below: each address comes with the length of the slice that it was taken from; the borrows say
// that what is written overlaps nothing else that is lent; and the functions are proved to stay inside what is lent, for
// all arguments.

/// Readers of one place: the address and length of a message, and the place.
macro_rules! readers {
    ($($name:ident over $raw:ident;)*) => { $(
        pub fn $name(src: &[u8], at: usize, info: &mut [u64]) -> u32 {
            unsafe { raw::$raw(src.as_ptr(), src.len(), at, info.as_mut_ptr(), info.len()) }
        }
    )* };
}
readers! {
    read_rpc_msg over yugerzat_read_rpc_msg;
    read_current_rpc_msg over yugerzat_read_current_rpc_msg;
    read_fattr3 over yugerzat_read_fattr3;
    read_sattr3 over yugerzat_read_sattr3;
    read_diropargs3 over yugerzat_read_diropargs3;
    read_exports over yugerzat_read_exports;
    next_export over yugerzat_next_export;
    next_group over yugerzat_next_group;
}

/// Writers: of values without pieces, with pieces of one source, and with pieces of two.
macro_rules! writers {
    ($($name:ident($($source:ident),*) over $raw:ident;)*) => { $(
        pub fn $name($($source: &[u8],)* fields: &[u64], out: &mut [u8], start: usize, info: &mut [u64]) -> u32 {
            unsafe {
                raw::$raw(
                    $($source.as_ptr(), $source.len(),)*
                    fields.as_ptr(), fields.len(), out.as_mut_ptr(), out.len(), start, info.as_mut_ptr(), info.len(),
                )
            }
        }
    )* };
}
writers! {
    write_fattr3() over yugerzat_write_fattr3;
    write_sattr3() over yugerzat_write_sattr3;
    write_diropargs3(dir, name) over yugerzat_write_diropargs3;
    write_call(cred, verf) over yugerzat_write_call;
    write_reply(verf) over yugerzat_write_reply;
    write_current_reply(verf) over yugerzat_write_current_reply;
    write_auth_unix(name, gids) over yugerzat_write_auth_unix;
}

/// Writers of what begins at the start of its source: `count` bytes or entries.
macro_rules! writers_of_all {
    ($($name:ident over $raw:ident;)*) => { $(
        pub fn $name(source: &[u8], count: usize, out: &mut [u8], start: usize, info: &mut [u64]) -> u32 {
            unsafe {
                raw::$raw(
                    source.as_ptr(), source.len(), 0, count,
                    out.as_mut_ptr(), out.len(), start, info.as_mut_ptr(), info.len(),
                )
            }
        }
    )* };
}
writers_of_all! {
    write_dirpath over yugerzat_write_dirpath;
    write_exports over yugerzat_write_exports;
}

/// Compares lists that begin at the start of their sources: `count` entries each.
pub fn same_exports(one: &[u8], one_count: usize, other: &[u8], other_count: usize, info: &mut [u64]) -> u32 {
    unsafe {
        raw::yugerzat_same_exports(
            one.as_ptr(),
            one.len(),
            0,
            one_count,
            other.as_ptr(),
            other.len(),
            0,
            other_count,
            info.as_mut_ptr(),
            info.len(),
        )
    }
}

type Rewrites = unsafe extern "C" fn(*const u8, usize, usize, *mut u8, usize, *mut u64, usize) -> u32;
type Judges = unsafe extern "C" fn(*const u8, usize, usize, *mut u64, usize) -> u32;

/// The functions of each kind by itself, in tables by the kinds' numbers. Where the kind is known when a program is
/// compiled, its own function is called, and not by way of the table.
macro_rules! of_each_kind {
    ($($rewrite:ident $judge:ident,)*) => {
        mod each {
            extern "C" {
                $(
                    pub fn $rewrite(
                        src: *const u8,
                        src_len: usize,
                        at: usize,
                        out: *mut u8,
                        out_len: usize,
                        info: *mut u64,
                        info_len: usize,
                    ) -> u32;
                    pub fn $judge(src: *const u8, src_len: usize, at: usize, info: *mut u64, info_len: usize) -> u32;
                )*
            }
        }

        const REWRITES: &[Rewrites] = &[$(each::$rewrite),*];
        const JUDGES: &[Judges] = &[$(each::$judge),*];
    };
}
// made by tools/generate: functions of each kind
of_each_kind! {
    yugerzat_rewrite_bool yugerzat_judge_bool,
    yugerzat_rewrite_i32 yugerzat_judge_i32,
    yugerzat_rewrite_i64 yugerzat_judge_i64,
    yugerzat_rewrite_u32 yugerzat_judge_u32,
    yugerzat_rewrite_u64 yugerzat_judge_u64,
    yugerzat_rewrite_eight yugerzat_judge_eight,
    yugerzat_rewrite_opaque yugerzat_judge_opaque,
    yugerzat_rewrite_nfsstring yugerzat_judge_nfsstring,
    yugerzat_rewrite_words yugerzat_judge_words,
    yugerzat_rewrite_msg_type yugerzat_judge_msg_type,
    yugerzat_rewrite_reply_stat yugerzat_judge_reply_stat,
    yugerzat_rewrite_accept_stat yugerzat_judge_accept_stat,
    yugerzat_rewrite_reject_stat yugerzat_judge_reject_stat,
    yugerzat_rewrite_auth_stat yugerzat_judge_auth_stat,
    yugerzat_rewrite_auth_flavor yugerzat_judge_auth_flavor,
    yugerzat_rewrite_time_how yugerzat_judge_time_how,
    yugerzat_rewrite_nfsstat3 yugerzat_judge_nfsstat3,
    yugerzat_rewrite_ftype3 yugerzat_judge_ftype3,
    yugerzat_rewrite_auth_unix yugerzat_judge_auth_unix,
    yugerzat_rewrite_opaque_auth yugerzat_judge_opaque_auth,
    yugerzat_rewrite_rpc_msg yugerzat_judge_rpc_msg,
    yugerzat_rewrite_rpc_body yugerzat_judge_rpc_body,
    yugerzat_rewrite_call_body yugerzat_judge_call_body,
    yugerzat_rewrite_reply_body yugerzat_judge_reply_body,
    yugerzat_rewrite_accepted_reply yugerzat_judge_accepted_reply,
    yugerzat_rewrite_accept_body yugerzat_judge_accept_body,
    yugerzat_rewrite_rejected_reply yugerzat_judge_rejected_reply,
    yugerzat_rewrite_mismatch_info yugerzat_judge_mismatch_info,
    yugerzat_rewrite_specdata3 yugerzat_judge_specdata3,
    yugerzat_rewrite_nfs_fh3 yugerzat_judge_nfs_fh3,
    yugerzat_rewrite_nfstime3 yugerzat_judge_nfstime3,
    yugerzat_rewrite_fattr3 yugerzat_judge_fattr3,
    yugerzat_rewrite_fsinfo3 yugerzat_judge_fsinfo3,
    yugerzat_rewrite_wcc_attr yugerzat_judge_wcc_attr,
    yugerzat_rewrite_pre_op_attr yugerzat_judge_pre_op_attr,
    yugerzat_rewrite_post_op_attr yugerzat_judge_post_op_attr,
    yugerzat_rewrite_wcc_data yugerzat_judge_wcc_data,
    yugerzat_rewrite_post_op_fh3 yugerzat_judge_post_op_fh3,
    yugerzat_rewrite_set_mode3 yugerzat_judge_set_mode3,
    yugerzat_rewrite_set_uid3 yugerzat_judge_set_uid3,
    yugerzat_rewrite_set_gid3 yugerzat_judge_set_gid3,
    yugerzat_rewrite_set_size3 yugerzat_judge_set_size3,
    yugerzat_rewrite_set_atime yugerzat_judge_set_atime,
    yugerzat_rewrite_set_mtime yugerzat_judge_set_mtime,
    yugerzat_rewrite_sattr3 yugerzat_judge_sattr3,
    yugerzat_rewrite_diropargs3 yugerzat_judge_diropargs3,
    yugerzat_rewrite_symlinkdata3 yugerzat_judge_symlinkdata3,
    yugerzat_rewrite_stable_how yugerzat_judge_stable_how,
    yugerzat_rewrite_sattrguard3 yugerzat_judge_sattrguard3,
    yugerzat_rewrite_getattr3args yugerzat_judge_getattr3args,
    yugerzat_rewrite_getattr3res yugerzat_judge_getattr3res,
    yugerzat_rewrite_setattr3args yugerzat_judge_setattr3args,
    yugerzat_rewrite_setattr3res yugerzat_judge_setattr3res,
    yugerzat_rewrite_lookup3args yugerzat_judge_lookup3args,
    yugerzat_rewrite_lookup3res yugerzat_judge_lookup3res,
    yugerzat_rewrite_read3args yugerzat_judge_read3args,
    yugerzat_rewrite_read3res yugerzat_judge_read3res,
    yugerzat_rewrite_write3args yugerzat_judge_write3args,
    yugerzat_rewrite_write3res yugerzat_judge_write3res,
    yugerzat_rewrite_current_accept_stat yugerzat_judge_current_accept_stat,
    yugerzat_rewrite_current_auth_stat yugerzat_judge_current_auth_stat,
    yugerzat_rewrite_current_accept_body yugerzat_judge_current_accept_body,
    yugerzat_rewrite_current_accepted_reply yugerzat_judge_current_accepted_reply,
    yugerzat_rewrite_current_rejected_reply yugerzat_judge_current_rejected_reply,
    yugerzat_rewrite_current_reply_body yugerzat_judge_current_reply_body,
    yugerzat_rewrite_current_rpc_body yugerzat_judge_current_rpc_body,
    yugerzat_rewrite_current_rpc_msg yugerzat_judge_current_rpc_msg,
    yugerzat_rewrite_dirpath yugerzat_judge_dirpath,
    yugerzat_rewrite_mountstat3 yugerzat_judge_mountstat3,
    yugerzat_rewrite_mountres3 yugerzat_judge_mountres3,
    yugerzat_rewrite_exports yugerzat_judge_exports,
    yugerzat_rewrite_mapping yugerzat_judge_mapping,
}
// end of functions of each kind

#[inline]
pub fn rewrite(kind: Kind, src: &[u8], at: usize, out: &mut [u8], info: &mut [u64]) -> u32 {
    let rewrites = REWRITES[kind as usize];
    unsafe { rewrites(src.as_ptr(), src.len(), at, out.as_mut_ptr(), out.len(), info.as_mut_ptr(), info.len()) }
}

#[inline]
pub fn judge(kind: Kind, src: &[u8], at: usize, info: &mut [u64]) -> u32 {
    let judges = JUDGES[kind as usize];
    unsafe { judges(src.as_ptr(), src.len(), at, info.as_mut_ptr(), info.len()) }
}

pub fn marks(kind: u32, src: &[u8], at: usize, info: &mut [u64]) -> u32 {
    unsafe { raw::yugerzat_marks(kind, src.as_ptr(), src.len(), at, info.as_mut_ptr(), info.len()) }
}

/// Reads a credential's body, which is all of `body`.
pub fn read_auth_unix(body: &[u8], info: &mut [u64]) -> u32 {
    unsafe { raw::yugerzat_read_auth_unix(body.as_ptr(), body.len(), 0, body.len(), info.as_mut_ptr(), info.len()) }
}

/// Choices of program: in each reading of replies, and for mounts and ports too.
macro_rules! choices {
    ($($name:ident over $raw:ident;)*) => { $(
        pub fn $name(message: &[u8], seen: bool, out: &mut [u8], info: &mut [u64]) -> u32 {
            unsafe {
                raw::$raw(
                    message.as_ptr(), message.len(), u32::from(seen),
                    out.as_mut_ptr(), out.len(), info.as_mut_ptr(), info.len(),
                )
            }
        }
    )* };
}
choices! {
    choose over yugerzat_choose;
    current_choose over yugerzat_current_choose;
    ask over yugerzat_ask;
}

pub fn feed(state: &mut [u64], run: &[u8], buf: &mut [u8], info: &mut [u64]) -> u32 {
    unsafe {
        raw::yugerzat_feed(
            state.as_mut_ptr(),
            state.len(),
            run.as_ptr(),
            run.len(),
            buf.as_mut_ptr(),
            buf.len(),
            info.as_mut_ptr(),
            info.len(),
        )
    }
}

pub fn fragment(message: &[u8], out: &mut [u8], start: usize, info: &mut [u64]) -> u32 {
    unsafe {
        raw::yugerzat_fragment(
            message.as_ptr(),
            message.len(),
            out.as_mut_ptr(),
            out.len(),
            start,
            info.as_mut_ptr(),
            info.len(),
        )
    }
}

#[cfg(test)]
mod tests {
    use super::*;

    /// What a call leaves: its answer, the bytes and the figures.
    type Left = (u32, [u8; 192], [u64; 4]);

    fn left(call: impl FnOnce(&mut [u8], &mut [u64]) -> u32) -> Left {
        let (mut out, mut info) = ([0xEE; 192], [0xEEEE; 4]);
        let answer = call(&mut out, &mut info[..3]);
        (answer, out, info)
    }

    /// Messages of repeated words are of most kinds, plain and loose; each kind's own functions answer as those by number do.
    #[test]
    fn each_kind_is_found_by_its_number() {
        assert_eq!((REWRITES.len(), JUDGES.len()), (Kind::all().count(), Kind::all().count()));
        let mut taken = 0;
        for kind in Kind::all() {
            for word in [0u32, 1, 2, 3, 5, 0x0100_0000, 0xFFFF_FFFF] {
                for count in [0, 3, 4, 8, 24, 84, 160] {
                    let bytes = &word.to_be_bytes().repeat(40)[..count];
                    for at in [0, 4] {
                        let own = left(|out, info| rewrite(kind, bytes, at, out, info));
                        let by_number = left(|out, info| unsafe {
                            raw::yugerzat_rewrite(
                                kind.number(),
                                bytes.as_ptr(),
                                bytes.len(),
                                at,
                                out.as_mut_ptr(),
                                out.len(),
                                info.as_mut_ptr(),
                                info.len(),
                            )
                        });
                        assert_eq!(own, by_number, "{kind} of {bytes:?} at {at}");
                        taken += u32::from(own.0 == 0);
                        let own = left(|_, info| judge(kind, bytes, at, info));
                        let by_number = left(|_, info| unsafe {
                            raw::yugerzat_judge(
                                kind.number(),
                                bytes.as_ptr(),
                                bytes.len(),
                                at,
                                info.as_mut_ptr(),
                                info.len(),
                            )
                        });
                        assert_eq!(own, by_number, "{kind} of {bytes:?} at {at}, judged");
                    }
                }
            }
        }
        assert!(taken > 1_000, "{taken} messages were taken");
    }
}
