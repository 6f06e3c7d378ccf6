//! Judges a record-marked stream, a capture of one direction of a connection: one line for each record. The stream is the
//! file that is named, or standard input.
//!
//! ```text
//! $ cargo run --example judge_stream -- calls
//! 1: 48 bytes, plain: call 1 of nfs 3 GETATTR, cred AUTH_NULL
//! 2: 84 bytes, plain: call 2 of nfs 3 LOOKUP, cred AUTH_UNIX uid 1000 gid 100
//! 3: 84 bytes, loose (the credential): call 3 of nfs 3 LOOKUP, cred AUTH_UNIX uid 1000 gid 100
//! 4: 24 bytes, loose (the header): reply 3, accepted: GarbageArgs
//! 5: 24 bytes, plain: reply 4, accepted: SystemErr
//! 6: 20 bytes, plain: reply 5, denied: AuthError(TooWeak)
//! 7: 40 bytes, refused: refusal 2 at place 24: a number that must be declared is not
//! 8: 12 bytes, refused: refusal 1 at place 12: the message ends inside an item, 4 bytes are wanting
//! the stream ends inside a record, after 3 bytes of it; 5 more are wanting
//! ```
//!
//! A record is plain here if its header and its `AUTH_UNIX` credential are; arguments and results are not looked at. Replies
//! are read as RFC 5531 has them, in the current reading: in nfsserve's, the fifth record would say `GarbageArgs` too.
use std::fs::File;
use std::io::{self, BufReader, Read, Write};
use std::process::ExitCode;

use yugerzat::current::{Body, Message, Reply};
use yugerzat::{AuthFlavor, AuthUnix, Call, Records, Refusal};

/// The procedures of NFS version 3 (RFC 1813, section 3.3).
const NFS3: [&str; 22] = [
    "NULL",
    "GETATTR",
    "SETATTR",
    "LOOKUP",
    "ACCESS",
    "READLINK",
    "READ",
    "WRITE",
    "CREATE",
    "MKDIR",
    "SYMLINK",
    "MKNOD",
    "REMOVE",
    "RMDIR",
    "RENAME",
    "LINK",
    "READDIR",
    "READDIRPLUS",
    "FSSTAT",
    "FSINFO",
    "PATHCONF",
    "COMMIT",
];

/// Says a line for each record. Gives whether all were taken.
pub fn judge(stream: impl Read, says: &mut impl Write) -> io::Result<bool> {
    let mut all = true;
    for (record, number) in Records::new(BufReader::new(stream)).zip(1..) {
        match record {
            Ok(record) => {
                let line = line(&record);
                all &= line.is_ok();
                let line = line.unwrap_or_else(|refusal| format!("refused: {refusal}"));
                writeln!(says, "{number}: {} bytes, {line}", record.len())?;
            },
            Err(cut) => {
                all = false;
                writeln!(says, "{cut}")?;
                // A stream that cannot be read might say so for ever.
                break;
            },
        }
    }
    Ok(all)
}

fn line(record: &[u8]) -> Result<String, Refusal> {
    let read = Message::read(record, 0)?;
    let (mut loose, xid) = (Vec::new(), read.value.xid);
    if !read.plain {
        loose.push("the header");
    }
    let what = match read.value.body {
        Body::Call(call) => {
            let mut who = format!("AUTH_{:?}", call.cred.flavor).to_uppercase();
            if call.cred.flavor == AuthFlavor::Unix {
                let unix = AuthUnix::read(call.cred.body)?;
                if !unix.plain {
                    loose.push("the credential");
                }
                who += &format!(" uid {} gid {}", unix.value.uid, unix.value.gid);
            }
            format!("call {xid} of {}, cred {who}", procedure(&call))
        },
        Body::Reply(Reply::Accepted { stat, .. }) => format!("reply {xid}, accepted: {stat:?}"),
        Body::Reply(denied) => format!("reply {xid}, denied: {denied:?}"),
    };
    Ok(match loose[..] {
        [] => format!("plain: {what}"),
        _ => format!("loose ({}): {what}", loose.join(", ")),
    })
}

fn procedure(call: &Call) -> String {
    let program = match call.prog {
        100_000 => "portmap".to_string(),
        100_003 => "nfs".to_string(),
        100_005 => "mount".to_string(),
        other => format!("program {other}"),
    };
    match NFS3.get(call.proc as usize) {
        Some(name) if (call.prog, call.vers) == (100_003, 3) => format!("{program} 3 {name}"),
        _ => format!("{program} {} procedure {}", call.vers, call.proc),
    }
}

fn main() -> ExitCode {
    let mut says = io::stdout().lock();
    let judged = match std::env::args_os().nth(1) {
        Some(path) => File::open(path).and_then(|file| judge(file, &mut says)),
        None => judge(io::stdin().lock(), &mut says),
    };
    match judged {
        Ok(true) => ExitCode::SUCCESS,
        Ok(false) => ExitCode::FAILURE,
        Err(error) => {
            eprintln!("judge_stream: {error}");
            ExitCode::FAILURE
        },
    }
}
