//! The library's answers and the places of its figures, under the names of `include/yugerzat.h` and
//! `include/yugerzat_list.h`. A test below holds every one to these headers.

/// The names of one prefix. Each is a constant here, and a row of the table that the test reads.
macro_rules! names {
    ($prefix:literal, $type:ty: $($name:ident = $number:literal,)*) => {
        $(pub const $name: $type = $number;)*

        #[cfg(test)]
        pub const TABLE: &[(&str, u64)] = &[$((concat!($prefix, stringify!($name)), $name as u64)),*];
    };
}

/// What a function answers.
pub mod answer {
    names! { "YUGERZAT_", u32:
        DONE = 0,
        ENDS = 1,
        UNDECLARED = 2,
        TOO_LONG = 3,
        OUTSIDE = 4,
        NO_ROOM = 5,
        STATE_DOES_NOT_FIT = 6,
        FRAGMENT_TOO_LONG = 7,
        REPLY_CAME = 8,
        PAST_END = 9,
        LONG_PATH = 10,
        HAND_OVER = 100,
        REPLY = 101,
        SILENCE = 102,
        MORE = 103,
        COMPLETE = 104,
        MNT = 105,
        UMNT = 106,
        EXPORT = 107,
        GETPORT = 108,
    }
}

/// Which header an `rpc_msg` has.
pub mod tag {
    names! { "YUGERZAT_TAG_", u64:
        CALL = 0,
        ACCEPTED = 1,
        DENIED_VERSION = 2,
        DENIED_AUTH = 3,
    }
}

/// Which figure of a list, counted from 0. A writer is given its reader's figures from `FIELDS` on.
pub mod figure {
    names! { "YUGERZAT_FIGURE_", usize:
        NEXT = 0,
        PLAIN = 1,
        PLACE = 0,
        WANTING = 1,
        FIELDS = 2,

        WRITTEN_AFTER = 0,
        WRITTEN_NEEDED = 0,

        REWRITE_SIZE = 2,
        JUDGE_SIZE = 2,
        MARKS_PIECES = 2,
        MARKS_FIRST = 3,
        MARKS_SECOND = 4,

        RPC_MSG_XID = 2,
        RPC_MSG_TAG = 3,
        RPC_MSG_CALL_RPCVERS = 4,
        RPC_MSG_CALL_PROG = 5,
        RPC_MSG_CALL_VERS = 6,
        RPC_MSG_CALL_PROC = 7,
        RPC_MSG_CALL_CRED_FLAVOR = 8,
        RPC_MSG_CALL_CRED_AT = 9,
        RPC_MSG_CALL_CRED_COUNT = 10,
        RPC_MSG_CALL_VERF_FLAVOR = 11,
        RPC_MSG_CALL_VERF_AT = 12,
        RPC_MSG_CALL_VERF_COUNT = 13,
        RPC_MSG_ACCEPTED_VERF_FLAVOR = 4,
        RPC_MSG_ACCEPTED_VERF_AT = 5,
        RPC_MSG_ACCEPTED_VERF_COUNT = 6,
        RPC_MSG_ACCEPTED_STAT = 7,
        RPC_MSG_ACCEPTED_LOW = 8,
        RPC_MSG_ACCEPTED_HIGH = 9,
        RPC_MSG_DENIED_LOW = 4,
        RPC_MSG_DENIED_HIGH = 5,
        RPC_MSG_DENIED_AUTH_STAT = 4,

        WRITE_CALL_XID = 0,
        WRITE_CALL_RPCVERS = 1,
        WRITE_CALL_PROG = 2,
        WRITE_CALL_VERS = 3,
        WRITE_CALL_PROC = 4,
        WRITE_CALL_CRED_FLAVOR = 5,
        WRITE_CALL_CRED_COUNT = 7,
        WRITE_CALL_VERF_FLAVOR = 8,
        WRITE_CALL_VERF_COUNT = 10,

        AUTH_UNIX_STAMP = 2,
        AUTH_UNIX_NAME_AT = 3,
        AUTH_UNIX_NAME_COUNT = 4,
        AUTH_UNIX_UID = 5,
        AUTH_UNIX_GID = 6,
        AUTH_UNIX_GIDS_AT = 7,
        AUTH_UNIX_GIDS_COUNT = 8,

        FATTR3_TYPE = 2,
        FATTR3_MODE = 3,
        FATTR3_NLINK = 4,
        FATTR3_UID = 5,
        FATTR3_GID = 6,
        FATTR3_SIZE = 7,
        FATTR3_USED = 8,
        FATTR3_SPECDATA1 = 9,
        FATTR3_SPECDATA2 = 10,
        FATTR3_FSID = 11,
        FATTR3_FILEID = 12,
        FATTR3_ATIME_SECONDS = 13,
        FATTR3_ATIME_NSECONDS = 14,
        FATTR3_MTIME_SECONDS = 15,
        FATTR3_MTIME_NSECONDS = 16,
        FATTR3_CTIME_SECONDS = 17,
        FATTR3_CTIME_NSECONDS = 18,

        SATTR3_MODE_SET = 2,
        SATTR3_MODE = 3,
        SATTR3_UID_SET = 4,
        SATTR3_UID = 5,
        SATTR3_GID_SET = 6,
        SATTR3_GID = 7,
        SATTR3_SIZE_SET = 8,
        SATTR3_SIZE = 9,
        SATTR3_ATIME_HOW = 10,
        SATTR3_ATIME_SECONDS = 11,
        SATTR3_ATIME_NSECONDS = 12,
        SATTR3_MTIME_HOW = 13,
        SATTR3_MTIME_SECONDS = 14,
        SATTR3_MTIME_NSECONDS = 15,

        DIROPARGS3_DIR_AT = 2,
        DIROPARGS3_DIR_COUNT = 3,
        DIROPARGS3_NAME_AT = 4,
        DIROPARGS3_NAME_COUNT = 5,

        STATE_CAPACITY = 0,
        STATE_PLACED = 1,
        STATE_HEADER_COUNT = 2,
        STATE_LEFT = 4,
        STATE_STOPPED = 6,

        FEED_USED = 0,
        FEED_LENGTH = 1,

        CHOOSE_PROG = 0,
        CHOOSE_VERS = 1,
        CHOOSE_PROC = 2,
        CHOOSE_ARGUMENTS = 3,
        CHOOSE_UNIX = 4,
        CHOOSE_STAMP = 5,
        CHOOSE_NAME_AT = 6,
        CHOOSE_NAME_COUNT = 7,
        CHOOSE_UID = 8,
        CHOOSE_GID = 9,
        CHOOSE_GIDS_AT = 10,
        CHOOSE_GIDS_COUNT = 11,
        CHOOSE_REPLY_LENGTH = 0,

        ASK_PROG = 0,
        ASK_VERS = 1,
        ASK_PROC = 2,
        ASK_ARGUMENTS = 3,
        ASK_PATH_AT = 0,
        ASK_PATH_COUNT = 1,
        ASK_MAPPING_PROG = 0,
        ASK_MAPPING_VERS = 1,
        ASK_MAPPING_PROT = 2,
        ASK_MAPPING_PORT = 3,
        ASK_NEXT = 4,
        ASK_UNIX = 5,
        ASK_REPLY_LENGTH = 0,

        EXPORTS_AT = 2,
        EXPORTS_COUNT = 3,
        NEXT_EXPORT_THERE = 2,
        NEXT_EXPORT_DIR_AT = 3,
        NEXT_EXPORT_DIR_COUNT = 4,
        NEXT_EXPORT_GROUPS_AT = 5,
        NEXT_EXPORT_GROUPS_COUNT = 6,
        NEXT_GROUP_THERE = 2,
        NEXT_GROUP_NAME_AT = 3,
        NEXT_GROUP_NAME_COUNT = 4,
        SAME_EXPORTS = 0,
    }
}

/// How many figures a list has.
pub mod figures {
    names! { "YUGERZAT_FIGURES_", usize:
        WRITTEN = 1,
        REWRITE = 3,
        JUDGE = 3,
        MARKS = 5,
        RPC_MSG = 14,
        WRITE_CALL = 11,
        WRITE_REPLY = 8,
        AUTH_UNIX = 9,
        FATTR3 = 19,
        SATTR3 = 16,
        DIROPARGS3 = 6,
        STATE = 7,
        FEED = 2,
        CHOOSE = 12,
        ASK = 13,
        EXPORTS = 4,
        NEXT_EXPORT = 7,
        NEXT_GROUP = 5,
        SAME_EXPORTS = 1,
    }
}

#[cfg(test)]
mod tests {
    use std::collections::HashMap;
    use std::string::String;
    use std::vec::Vec;
    use std::{format, println};

    use super::{answer, figure, figures, tag};
    use crate::mount::{Mapping, Mountfail3, Mountstat3, LONGEST_REPLY, MNTPATHLEN};
    use crate::{current, AuthFlavor, AuthStat, Fattr3, Ftype3, Kind, Nfsfail3, Procedure, StableHow, LIMIT};

    /// The headers without their comments.
    fn headers() -> String {
        let mut text = String::new();
        for name in ["yugerzat.h", "yugerzat_list.h", "yugerzat_nfs.h", "yugerzat_mount.h"] {
            let path = format!("{}/../../include/{name}", env!("CARGO_MANIFEST_DIR"));
            let file = std::fs::read_to_string(&path).unwrap_or_else(|e| panic!("{path} cannot be read: {e}"));
            let mut parts = file.split("/*");
            text.extend(parts.next());
            text.extend(parts.map(|part| part.split_once("*/").expect("a comment ends").1));
        }
        text
    }

    /// Every `NAME = number` of the enumerations.
    fn numbers(headers: &str) -> HashMap<&str, u64> {
        let between = |c: char| c.is_whitespace() || "{},;".contains(c);
        let words: Vec<&str> = headers.split(between).filter(|word| !word.is_empty()).collect();
        let mut found = HashMap::new();
        for three in words.windows(3).filter(|three| three[0].starts_with("YUGERZAT_") && three[1] == "=") {
            let number = three[2].parse().unwrap_or_else(|e| panic!("{} = {}: {e}", three[0], three[2]));
            assert_eq!(found.insert(three[0], number), None, "{} is there twice", three[0]);
        }
        found
    }

    #[test]
    fn names_have_the_numbers_of_the_headers() {
        let headers = headers();
        let found = numbers(&headers);
        let mut seen = 0;
        let mut due = |name: &str, number: u64| {
            assert_eq!(found.get(name), Some(&number), "{name}");
            seen += 1;
        };
        for table in [answer::TABLE, tag::TABLE, figure::TABLE, figures::TABLE] {
            for (name, number) in table {
                due(name, *number);
            }
        }
        for kind in Kind::all() {
            due(&format!("YUGERZAT_KIND_{}", kind.name().to_uppercase()), kind.number().into());
        }
        for procedure in Procedure::all() {
            due(&format!("YUGERZAT_PROCEDURE_{}", procedure.name()), procedure.number().into());
        }
        let failures: Vec<Nfsfail3> = (0..20_000).filter_map(|number| Nfsfail3::try_from(number).ok()).collect();
        for failure in &failures {
            due(&format!("YUGERZAT_{failure}"), failure.number().into());
        }
        assert_eq!(found.keys().filter(|name| name.starts_with("YUGERZAT_NFS3ERR_")).count(), failures.len());
        let failures: Vec<Mountfail3> = (0..20_000).filter_map(|number| Mountfail3::try_from(number).ok()).collect();
        for failure in &failures {
            due(&format!("YUGERZAT_{failure}"), failure.number().into());
        }
        assert_eq!(found.keys().filter(|name| name.starts_with("YUGERZAT_MNT3ERR_")).count(), failures.len());
        due(&format!("YUGERZAT_{}", Mountstat3::Ok), Mountstat3::Ok.number().into());
        due("YUGERZAT_IPPROTO_TCP", Mapping::TCP.into());
        due("YUGERZAT_IPPROTO_UDP", Mapping::UDP.into());
        for stable in [StableHow::Unstable, StableHow::DataSync, StableHow::FileSync] {
            due(&format!("YUGERZAT_{stable}"), stable.number().into());
        }
        due("YUGERZAT_AUTH_NULL", AuthFlavor::Null as u64);
        due("YUGERZAT_AUTH_UNIX", AuthFlavor::Unix as u64);
        due("YUGERZAT_AUTH_SHORT", AuthFlavor::Short as u64);
        due("YUGERZAT_AUTH_DES", AuthFlavor::Des as u64);
        due("YUGERZAT_AUTH_BADCRED", AuthStat::BadCred as u64);
        due("YUGERZAT_AUTH_REJECTEDCRED", AuthStat::RejectedCred as u64);
        due("YUGERZAT_AUTH_BADVERF", AuthStat::BadVerf as u64);
        due("YUGERZAT_AUTH_REJECTEDVERF", AuthStat::RejectedVerf as u64);
        due("YUGERZAT_AUTH_TOOWEAK", AuthStat::TooWeak as u64);
        due("YUGERZAT_SUCCESS", current::AcceptStat::Success.figures()[0]);
        due("YUGERZAT_PROG_UNAVAIL", current::AcceptStat::ProgUnavail.figures()[0]);
        due("YUGERZAT_PROG_MISMATCH", current::AcceptStat::ProgMismatch { low: 7, high: 8 }.figures()[0]);
        due("YUGERZAT_PROC_UNAVAIL", current::AcceptStat::ProcUnavail.figures()[0]);
        due("YUGERZAT_GARBAGE_ARGS", current::AcceptStat::GarbageArgs.figures()[0]);
        due("YUGERZAT_SYSTEM_ERR", current::AcceptStat::SystemErr.figures()[0]);
        due("YUGERZAT_AUTH_OK", current::AuthStat::Ok as u64);
        due("YUGERZAT_AUTH_BADCRED", current::AuthStat::BadCred as u64);
        due("YUGERZAT_AUTH_REJECTEDCRED", current::AuthStat::RejectedCred as u64);
        due("YUGERZAT_AUTH_BADVERF", current::AuthStat::BadVerf as u64);
        due("YUGERZAT_AUTH_REJECTEDVERF", current::AuthStat::RejectedVerf as u64);
        due("YUGERZAT_AUTH_TOOWEAK", current::AuthStat::TooWeak as u64);
        due("YUGERZAT_AUTH_INVALIDRESP", current::AuthStat::InvalidResp as u64);
        due("YUGERZAT_AUTH_FAILED", current::AuthStat::Failed as u64);
        due("YUGERZAT_AUTH_KERB_GENERIC", current::AuthStat::KerbGeneric as u64);
        due("YUGERZAT_AUTH_TIMEEXPIRE", current::AuthStat::TimeExpire as u64);
        due("YUGERZAT_AUTH_TKT_FILE", current::AuthStat::TktFile as u64);
        due("YUGERZAT_AUTH_DECODE", current::AuthStat::Decode as u64);
        due("YUGERZAT_AUTH_NET_ADDR", current::AuthStat::NetAddr as u64);
        due("YUGERZAT_RPCSEC_GSS_CREDPROBLEM", current::AuthStat::RpcsecGssCredProblem as u64);
        due("YUGERZAT_RPCSEC_GSS_CTXPROBLEM", current::AuthStat::RpcsecGssCtxProblem as u64);
        due("YUGERZAT_NF3REG", Ftype3::Reg as u64);
        due("YUGERZAT_NF3DIR", Ftype3::Dir as u64);
        due("YUGERZAT_NF3BLK", Ftype3::Blk as u64);
        due("YUGERZAT_NF3CHR", Ftype3::Chr as u64);
        due("YUGERZAT_NF3LNK", Ftype3::Lnk as u64);
        due("YUGERZAT_NF3SOCK", Ftype3::Sock as u64);
        due("YUGERZAT_NF3FIFO", Ftype3::Fifo as u64);
        for (name, number) in [
            ("LIMIT_BYTES", LIMIT),
            ("FATTR3_BYTES", Fattr3::SIZE),
            ("REPLY_BYTES", 24),
            ("LONGEST_REPLY_BYTES", LONGEST_REPLY),
            ("MAPPING_BYTES", Mapping::SIZE),
            ("MNTPATHLEN", MNTPATHLEN),
        ] {
            assert!(headers.contains(&format!("#define YUGERZAT_{name} ((size_t){number})")), "{name}");
        }
        assert!(headers.contains(&format!("#define YUGERZAT_KINDS {} ", Kind::all().len())));
        println!("{seen} names have the numbers of the headers");
    }

    /// The Rust type of a parameter in C.
    fn type_of(parameter: &str) -> &'static str {
        let types = [
            ("const uint8_t *", "*const u8"),
            ("uint8_t *", "*mut u8"),
            ("const uint64_t *", "*const u64"),
            ("uint64_t *", "*mut u64"),
            ("size_t ", "usize"),
            ("uint32_t ", "u32"),
            ("enum ", "u32"),
        ];
        let found = types.iter().find(|(c, _)| parameter.trim().starts_with(c));
        found.unwrap_or_else(|| panic!("{parameter} has no type that is known here")).1
    }

    #[test]
    fn functions_have_the_parameters_of_the_headers() {
        let headers = headers();
        let mut seen = 0;
        for here in include_str!("sys.rs").split("pub fn yugerzat_").skip(1) {
            let (name, here) = here.split_once('(').expect("parameters");
            let (here, result) = here.split_once(')').expect("an end of the parameters");
            assert!(result.starts_with(" -> u32;"), "{name}");
            let here = here.split(',').filter_map(|parameter| parameter.split_once(": "));
            let there = headers.split(&format!("enum yugerzat_answer yugerzat_{name}(")).nth(1);
            let there = there.unwrap_or_else(|| panic!("the header does not declare yugerzat_{name}"));
            let there = there.split_once(')').expect("an end of the parameters").0.split(',');
            assert!(here.map(|(_, rust)| rust).eq(there.map(type_of)), "{name}");
            seen += 1;
        }
        assert_eq!(seen, 27);
        println!("{seen} functions have the parameters of the headers");
    }
}
