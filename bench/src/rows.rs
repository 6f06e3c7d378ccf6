//! Rows of messages. All contestants of a row read the same bytes; all that write into memory write into the same.
use nfsserve::nfs::{diropargs3, fattr3, sattr3};
use nfsserve::rpc::{auth_flavor, auth_unix, rpc_body, rpc_msg};
use std::hint::black_box;

use crate::contestants::*;
use crate::lists::{copy_rows, list_rows};
use crate::measure::{contestant, Row, Who};
use crate::messages;
use crate::outside::*;
use crate::varied::{self, alone, loose_set, set, Set};

pub fn rows() -> Vec<Row> {
    let m = begin();
    [message_rows(m), list_rows(m), copy_rows(m)].into_iter().flatten().collect()
}

// ---- calls of C functions, as closures over a message. Every address comes with the length of what lies there.

/// From the beginning of the message, into so many figures; by the number of a kind, if there is one.
macro_rules! figures_of {
    ($function:ident, $m:ident, $count:literal $(, $kind:literal)?) => {
        // SAFETY: as above.
        move |src: &'static [u8]| unsafe { $function($($kind,)? src.as_ptr(), src.len(), 0, $m.info, $count) }
    };
}

/// From the beginning of the message into the room.
macro_rules! rewriting {
    ($function:ident, $m:ident $(, $kind:literal)?) => {
        // SAFETY: as above.
        move |src: &'static [u8]| unsafe { $function($($kind,)? src.as_ptr(), src.len(), 0, $m.out, ROOM, $m.info, 3) }
    };
}

/// A peer's.
macro_rules! peer_reads {
    ($function:ident) => {
        // SAFETY: as above.
        |src: &'static [u8]| unsafe { $function(src.as_ptr(), src.len()) }
    };
}
macro_rules! peer_rewrites {
    ($function:ident, $m:ident) => {
        // SAFETY: as above.
        move |src: &'static [u8]| unsafe { $function(src.as_ptr(), src.len(), $m.out, ROOM) }
    };
}
macro_rules! peer_writes {
    ($function:ident, $m:ident) => {
        // SAFETY: as above.
        move |which: usize| unsafe { $function(which, $m.out, ROOM) }
    };
}

/// Has the peers hold the messages, to write them.
macro_rules! holding {
    ($set:ident, $($hold:ident)*) => {
        move || {
            for (which, src) in $set.came.iter().enumerate() {
                // SAFETY: as above.
                $(assert_eq!(unsafe { $hold(which, src.as_ptr(), src.len()) } as usize, src.len(), stringify!($hold));)*
            }
        }
    };
}

// ---- rows by the work

/// Reading: ours and the floor's with so many figures, the crate's value, the peers' functions.
macro_rules! readings {
    ($rows:ident $m:ident $($name:literal $set:ident $count:literal $ours:ident $floor:ident $value:ident $tirpc:ident
        $libnfs:ident;)*) => { $(
        $rows.push(Row::new($name, $set.came.len(), vec![
            reads(Who::Ours, $m, $set, figures_of!($ours, $m, $count)),
            reads(Who::Floor, $m, $set, figures_of!($floor, $m, $count)),
            nfsserve_reads::<$value>($set),
            reads(Who::Libtirpc, $m, $set, peer_reads!($tirpc)),
            reads(Who::Libnfs, $m, $set, peer_reads!($libnfs)),
        ]));
    )* };
}

/// Writing, from the figures that the floor's reader gives. The peers write what they hold.
macro_rules! writings {
    ($rows:ident $m:ident $($name:literal $set:ident $count:literal $read:ident $ours:ident $floor:ident $value:ident
        $tirpc_hold:ident $tirpc:ident $libnfs_hold:ident $libnfs:ident;)*) => { $(
        let fields = figures($m, $set, $count + 2, figures_of!($read, $m, 32), |all| all[2..].to_vec());
        let ready = holding!($set, $tirpc_hold $libnfs_hold);
        ready();
        $rows.push(Row::new($name, $set.came.len(), vec![
            // SAFETY: every address comes with the length of what lies there.
            writes(Who::Ours, $m, $set, move |which| unsafe {
                $ours(fields[which * $count..].as_ptr(), $count, $m.out, ROOM, 0, $m.info, 1)
            }),
            // SAFETY: as above.
            writes(Who::Floor, $m, $set, move |which| unsafe {
                $floor(fields[which * $count..].as_ptr(), $count, $m.out, ROOM, 0, $m.info, 1)
            }),
            nfsserve_writes::<$value>($set),
            writes(Who::Libtirpc, $m, $set, peer_writes!($tirpc, $m)),
            writes(Who::Libnfs, $m, $set, peer_writes!($libnfs, $m)),
        ]).ready_by(ready));
    )* };
}

/// Writing from pieces of two messages, which are here the same.
macro_rules! writings_from_two {
    ($rows:ident $m:ident $($name:literal $set:ident $count:literal $fields:ident $ours:ident $floor:ident $value:ident
        $tirpc_hold:ident $tirpc:ident $libnfs_hold:ident $libnfs:ident;)*) => { $(
        let ready = holding!($set, $tirpc_hold $libnfs_hold);
        ready();
        $rows.push(Row::new($name, $set.came.len(), vec![
            // SAFETY: every address comes with the length of what lies there.
            writes(Who::Ours, $m, $set, move |which| unsafe {
                let (src, len) = ($set.came[which].as_ptr(), $set.came[which].len());
                $ours(src, len, src, len, $fields[which * $count..].as_ptr(), $count, $m.out, ROOM, 0, $m.info, 1)
            }),
            // SAFETY: as above.
            writes(Who::Floor, $m, $set, move |which| unsafe {
                let (src, len) = ($set.came[which].as_ptr(), $set.came[which].len());
                $floor(src, len, src, len, $fields[which * $count..].as_ptr(), $count, $m.out, ROOM, 0, $m.info, 1)
            }),
            nfsserve_writes::<$value>($set),
            writes(Who::Libtirpc, $m, $set, peer_writes!($tirpc, $m)),
            writes(Who::Libnfs, $m, $set, peer_writes!($libnfs, $m)),
        ]).ready_by(ready));
    )* };
}

/// Rewriting: read, and written in published form. `by NUMBER floor_copy_NAME`: ours and the floor's choose by the number of
/// the kind. `with FUNCTION NUMBER floor_copy_NAME`: ours is a function of this kind, and so is the floor's.
macro_rules! rewritten {
    ($m:ident $name:literal $set:ident by $kind:literal $direct:ident) => {{
        // The number is that of the kind.
        rewrites(Who::Floor, $m, $set, rewriting!($direct, $m));
        Row::new(
            $name,
            $set.came.len(),
            vec![
                rewrites(Who::Ours, $m, $set, rewriting!(yugerzat_rewrite, $m, $kind)),
                rewrites(Who::Floor, $m, $set, rewriting!(floor_rewrite, $m, $kind)),
            ],
        )
    }};
    ($m:ident $name:literal $set:ident with $ours:ident $kind:literal $direct:ident) => {
        Row::new(
            $name,
            $set.came.len(),
            vec![
                rewrites(Who::Ours, $m, $set, rewriting!($ours, $m)),
                rewrites(Who::Floor, $m, $set, rewriting!($direct, $m)),
            ],
        )
    };
}

/// The peers' rewriting comes behind ours and the floor's.
macro_rules! rewritings {
    ($rows:ident $m:ident $($name:literal $set:ident ($($how:tt)*) $(crate $value:ident)?
        $(peers $($who:ident $copy:ident)*)?;)*) => {
        $(
            let mut row = rewritten!($m $name $set $($how)*);
            $(row.contestants.push(nfsserve_copies::<$value>($set));)?
            $($(row.contestants.push(rewrites(Who::$who, $m, $set, peer_rewrites!($copy, $m)));)*)?
            $rows.push(row);
        )*
    };
}

/// A row of judging, in the same two ways.
macro_rules! judged {
    ($m:ident $name:literal $set:ident by $kind:literal $direct:ident) => {{
        // The number is that of the kind.
        judges(Who::Floor, $m, $set, figures_of!($direct, $m, 3));
        Row::new(
            $name,
            $set.came.len(),
            vec![
                judges(Who::Ours, $m, $set, figures_of!(yugerzat_judge, $m, 3, $kind)),
                judges(Who::Floor, $m, $set, figures_of!(floor_judge, $m, 3, $kind)),
            ],
        )
    }};
    ($m:ident $name:literal $set:ident with $ours:ident $kind:literal $direct:ident) => {
        Row::new(
            $name,
            $set.came.len(),
            vec![
                judges(Who::Ours, $m, $set, figures_of!($ours, $m, 3)),
                judges(Who::Floor, $m, $set, figures_of!($direct, $m, 3)),
            ],
        )
    };
}

/// Beside judging peers read, if any are given: they cannot tell what is plain without writing it.
macro_rules! judgings {
    ($rows:ident $m:ident $($name:literal $set:ident ($($how:tt)*) $(peers $($who:ident $read:ident)*)?;)*) => { $(
        let row = judged!($m $name $set $($how)*);
        $(
            let mut row = row;
            $(row.contestants.push(reads(Who::$who, $m, $set, peer_reads!($read)));)*
        )?
        $rows.push(row);
    )* };
}

// ---- the rows

pub fn message_rows(m: Memory) -> Vec<Row> {
    [read_rows(m), written_rows(m), rewritten_rows(m), data_rows(m)].into_iter().flatten().collect()
}

fn read_rows(m: Memory) -> Vec<Row> {
    let call = set(varied::call);
    let attributes = set(varied::fattr3);
    let full = set(varied::sattr3_full);
    let empty = set(varied::sattr3_empty);
    let mixed = set(varied::sattr3_mixed);
    let place = set(varied::diropargs3);
    let mut rows = Vec::new();
    readings! { rows m
        "call read" call 14 yugerzat_read_rpc_msg floor_read_rpc_msg rpc_msg tirpc_read_rpc_msg libnfs_read_rpc_msg;
    }
    rows.push(call_and_auth_unix(m, call));
    judgings! { rows m
        "call judged" call (with yugerzat_judge_rpc_msg 20 floor_judge_rpc_msg);
        "call judged by number" call (by 20 floor_judge_rpc_msg);
    }
    readings! { rows m
        "fattr3 read" attributes 19 yugerzat_read_fattr3 floor_read_fattr3 fattr3 tirpc_read_fattr3 libnfs_read_fattr3;
        "sattr3 full read" full 16 yugerzat_read_sattr3 floor_read_sattr3 sattr3 tirpc_read_sattr3 libnfs_read_sattr3;
        "sattr3 empty read" empty 16 yugerzat_read_sattr3 floor_read_sattr3 sattr3 tirpc_read_sattr3 libnfs_read_sattr3;
        "sattr3 mixed read" mixed 16 yugerzat_read_sattr3 floor_read_sattr3 sattr3 tirpc_read_sattr3 libnfs_read_sattr3;
        "diropargs3 read" place 6 yugerzat_read_diropargs3 floor_read_diropargs3 diropargs3 tirpc_read_diropargs3
            libnfs_read_diropargs3;
    }
    rows
}

fn call_and_auth_unix(m: Memory, call: Set) -> Row {
    macro_rules! both {
        ($header:ident, $read:ident) => {
            move |src: &'static [u8]| {
                // SAFETY: every address comes with the length of what lies there, and the two lists of figures lie apart.
                unsafe {
                    let header = $header(src.as_ptr(), src.len(), 0, m.info, 14);
                    let (at, count) = (*m.info.add(9) as usize, *m.info.add(10) as usize);
                    header | $read(src.as_ptr(), src.len(), at, count, m.info.add(14), 9)
                }
            }
        };
    }
    let (mut message, mut auth) = (rpc_msg::default(), auth_unix::default());
    let nfsserve = contestant(Who::Nfsserve, call.came.len(), move |which| {
        black_box(deserialize(call.came[which], &mut message));
        let rpc_body::CALL(ref body) = message.body else { unreachable!() };
        assert!(matches!(body.cred.flavor, auth_flavor::AUTH_UNIX));
        black_box(deserialize(&body.cred.body, &mut auth));
    });
    Row::new(
        "call with auth_unix read",
        call.came.len(),
        vec![
            reads(Who::Ours, m, call, both!(yugerzat_read_rpc_msg, yugerzat_read_auth_unix)),
            reads(Who::Floor, m, call, both!(floor_read_rpc_msg, floor_read_auth_unix)),
            nfsserve,
            reads(Who::Libtirpc, m, call, peer_reads!(tirpc_read_call_and_auth_unix)),
        ],
    )
}

fn written_rows(m: Memory) -> Vec<Row> {
    let call = set(varied::call);
    let attributes = set(varied::fattr3);
    let full = set(varied::sattr3_full);
    let empty = set(varied::sattr3_empty);
    let mixed = set(varied::sattr3_mixed);
    let place = set(varied::diropargs3);
    // Without the tag.
    let headers = figures(m, call, 14, figures_of!(floor_read_rpc_msg, m, 32), |all| [&all[2..3], &all[4..]].concat());
    let places = figures(m, place, 6, figures_of!(floor_read_diropargs3, m, 32), |all| all[2..].to_vec());
    let mut rows = Vec::new();
    writings_from_two! { rows m
        "call written" call 11 headers yugerzat_write_call floor_write_call rpc_msg
            tirpc_hold_rpc_msg tirpc_write_rpc_msg libnfs_hold_rpc_msg libnfs_write_rpc_msg;
    }
    writings! { rows m
        "fattr3 written" attributes 17 floor_read_fattr3 yugerzat_write_fattr3 floor_write_fattr3 fattr3
            tirpc_hold_fattr3 tirpc_write_fattr3 libnfs_hold_fattr3 libnfs_write_fattr3;
        "sattr3 full written" full 14 floor_read_sattr3 yugerzat_write_sattr3 floor_write_sattr3 sattr3
            tirpc_hold_sattr3 tirpc_write_sattr3 libnfs_hold_sattr3 libnfs_write_sattr3;
        "sattr3 empty written" empty 14 floor_read_sattr3 yugerzat_write_sattr3 floor_write_sattr3 sattr3
            tirpc_hold_sattr3 tirpc_write_sattr3 libnfs_hold_sattr3 libnfs_write_sattr3;
        "sattr3 mixed written" mixed 14 floor_read_sattr3 yugerzat_write_sattr3 floor_write_sattr3 sattr3
            tirpc_hold_sattr3 tirpc_write_sattr3 libnfs_hold_sattr3 libnfs_write_sattr3;
    }
    writings_from_two! { rows m
        "diropargs3 written" place 4 places yugerzat_write_diropargs3 floor_write_diropargs3 diropargs3
            tirpc_hold_diropargs3 tirpc_write_diropargs3 libnfs_hold_diropargs3 libnfs_write_diropargs3;
    }
    rows
}

fn rewritten_rows(m: Memory) -> Vec<Row> {
    let call = set(varied::call);
    let auth = set(varied::auth_unix);
    let attributes = set(varied::fattr3);
    let full = set(varied::sattr3_full);
    let empty = set(varied::sattr3_empty);
    let mixed = set(varied::sattr3_mixed);
    let place = set(varied::diropargs3);
    // The other two peers refuse a flag that is not 0 or 1.
    let odd = loose_set(varied::sattr3_loose);
    let dirty = loose_set(varied::diropargs3_loose);
    let mut rows = Vec::new();
    rewritings! { rows m
        "call rewritten" call (with yugerzat_rewrite_rpc_msg 20 floor_copy_rpc_msg) crate rpc_msg
            peers Libtirpc tirpc_copy_rpc_msg Libnfs libnfs_copy_rpc_msg;
        "auth_unix rewritten" auth (with yugerzat_rewrite_auth_unix 18 floor_copy_auth_unix) crate auth_unix
            peers Libtirpc tirpc_copy_auth_unix;
        "fattr3 rewritten" attributes (with yugerzat_rewrite_fattr3 31 floor_copy_fattr3) crate fattr3
            peers Libtirpc tirpc_copy_fattr3 Libnfs libnfs_copy_fattr3;
        "sattr3 full rewritten" full (with yugerzat_rewrite_sattr3 44 floor_copy_sattr3) crate sattr3
            peers Libtirpc tirpc_copy_sattr3 Libnfs libnfs_copy_sattr3;
        "sattr3 empty rewritten" empty (with yugerzat_rewrite_sattr3 44 floor_copy_sattr3) crate sattr3
            peers Libtirpc tirpc_copy_sattr3 Libnfs libnfs_copy_sattr3;
        "sattr3 mixed rewritten" mixed (with yugerzat_rewrite_sattr3 44 floor_copy_sattr3) crate sattr3
            peers Libtirpc tirpc_copy_sattr3 Libnfs libnfs_copy_sattr3;
        "sattr3 loose rewritten" odd (with yugerzat_rewrite_sattr3 44 floor_copy_sattr3) crate sattr3;
        "diropargs3 rewritten" place (with yugerzat_rewrite_diropargs3 45 floor_copy_diropargs3) crate diropargs3
            peers Libtirpc tirpc_copy_diropargs3 Libnfs libnfs_copy_diropargs3;
        "fattr3 rewritten by number" attributes (by 31 floor_copy_fattr3);
        "diropargs3 rewritten by number" place (by 45 floor_copy_diropargs3);
        "diropargs3 loose rewritten" dirty (with yugerzat_rewrite_diropargs3 45 floor_copy_diropargs3) crate diropargs3;
    }
    rows
}

/// nfsserve has no types for these. Of data, only rewriting touches the bytes, except in libtirpc, which reads them into
/// memory of its own. One message is rewritten again and again: its data take the time.
fn data_rows(m: Memory) -> Vec<Row> {
    let (results, arguments) = (varied::read3res(), varied::write3args());
    let block = crate::lists::some(crate::lists::BLOCK);
    let (read, write) = (alone(messages::read3res(&block)), alone(messages::write3args(&block)));
    let mut rows = Vec::new();
    judgings! { rows m
        "read3res 64 KiB judged" results (with yugerzat_judge_read3res 56 floor_judge_read3res)
            peers Libtirpc tirpc_read_read3res Libnfs libnfs_read_read3res;
    }
    rewritings! { rows m
        "read3res 64 KiB rewritten" read (with yugerzat_rewrite_read3res 56 floor_copy_read3res)
            peers Libtirpc tirpc_copy_read3res Libnfs libnfs_copy_read3res;
    }
    judgings! { rows m
        "write3args 64 KiB judged" arguments (with yugerzat_judge_write3args 57 floor_judge_write3args)
            peers Libtirpc tirpc_read_write3args Libnfs libnfs_read_write3args;
    }
    rewritings! { rows m
        "write3args 64 KiB rewritten" write (with yugerzat_rewrite_write3args 57 floor_copy_write3args)
            peers Libtirpc tirpc_copy_write3args Libnfs libnfs_copy_write3args;
    }
    rows
}
